// The board as a table, and the awards below it.

import { element, fill, freeText } from "./elements.js";
import { firstsOnBoard } from "./firsts.js";
import { nameIn } from "./settings.js";
import { cell, columnHead, row, rowHead, tableParts } from "./tables.js";

// What a cell says: a class for its colour, a line and a smaller line.
function cellParts(cell) {
  const tries = (count) => (count === 1 ? "1 try" : `${count} tries`);
  if (cell.solved) return ["solved", String(cell.time), tries(cell.num_judged)];
  const before = cell.num_judged > 0 ? `after ${cell.num_judged}` : "";
  if (cell.num_pending > 0) return ["pending", `?${cell.num_pending}`, before];
  if (cell.num_judged > 0) return ["tried", `−${cell.num_judged}`, tries(cell.num_judged)];
  return ["untried", "", ""];
}

function cellElement(problem, label, isFirst) {
  const [kind, line, small] = cellParts(problem);
  const more = isFirst ? " first" : "";
  const parts = [element("span", { class: "label", dir: "auto" }, label)];
  if (line) parts.push(element("b", {}, isFirst ? `★ ${line}` : line));
  if (small) parts.push(element("small", {}, small));
  return cell({ class: `cell ${kind}${more}` }, ...parts);
}

function rowElement(one, settings, first, isOwn) {
  const cells = one.problems.map((problem) => {
    const isFirst = problem.solved && (first.get(problem.problem_id) ?? []).includes(one.team_id);
    return cellElement(problem, settings.problems.get(problem.problem_id)?.label, isFirst);
  });
  return row(
    isOwn ? { class: "own", "aria-current": "true" } : {},
    cell({ class: "rank" }, one.rank),
    rowHead(freeText(nameIn(settings.teams, one.team_id)), { class: "team" }),
    cell({ class: "count" }, one.score.num_solved),
    cell({ class: "time" }, one.score.total_time),
    ...cells,
  );
}

// Shows a board in a table. The contest's problems and teams give labels and names; the whole board tells who was
// first, also if this one has a group's teams alone, and `isSure` where that board doesn't (firsts.js). The row of a
// team whose page it is stands out.
export function showBoard(table, settings, { board, awards, isSure, whole = board, team = null }) {
  const headOf = ({ name, label }) => columnHead(label, { class: "cell", title: name, dir: "auto" });
  const words = ["Rank", "Team", "Solved", "Time"], kinds = ["rank", "team", "count", "time"];
  const heads = words.map((word, place) => columnHead(word, { class: kinds[place] }));
  const first = firstsOnBoard(whole, awards, isSure);
  const rows = board.rows.map((one) => rowElement(one, settings, first, one.team_id === team));
  fill(table, tableParts([...heads, ...[...settings.problems.values()].map(headOf)], rows));
}

// An award, with the teams that have it.
export function awardItem(award, teams) {
  const winners = award.team_ids.flatMap((id, place) => [place ? ", " : "", freeText(nameIn(teams, id))]);
  return element("li", {}, `${award.citation}: `, ...winners);
}
