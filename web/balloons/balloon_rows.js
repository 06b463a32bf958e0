// A balloon as a row of the list, and as a sheet of paper.

import { button, element, freeText } from "../shared/elements.js";
import { nameIn } from "../shared/settings.js";
import { cell, row } from "../shared/tables.js";
import { clockText } from "../shared/times.js";
import { patch } from "./balloon_colours.js";

const TAKEN = "taken";
export const DELIVERED = "delivered";

const labelOf = (problems, id) => problems.find((problem) => problem.id === id)?.label ?? id;

function firstWords({ isFirst, isCertain }) {
  if (!isFirst) return "";
  return isCertain ? "★ first to solve" : "★ first so far";
}

// A button that is down if the balloon has come so far.
function markButton(text, isDown, action, name) {
  return button(text, action, { "aria-pressed": String(isDown), "data-mark": name });
}

export function balloonRow(balloon, { settings, colourOf, mark, print }) {
  const { team, problem, number, isBack } = balloon;
  const isTaken = balloon.mark !== "", isDelivered = balloon.mark === DELIVERED;
  const colour = colourOf(problem);
  const acts = [
    markButton("Taken", isTaken, () => mark(balloon, isTaken ? "" : TAKEN, TAKEN), TAKEN),
    markButton("Delivered", isDelivered, () => mark(balloon, isDelivered ? TAKEN : DELIVERED, DELIVERED), DELIVERED),
    button("Print", () => print(balloon), { "data-mark": "print" }),
  ];
  return row(
    { "data-balloon": `${team} ${problem}`, class: `${isBack ? "back" : ""} ${balloon.mark}`.trim() },
    cell({}, number), cell({}, clockText(balloon.released / 1000)),
    cell({ class: "name" }, freeText(nameIn(settings.teams, team))),
    cell({ class: "letter" }, freeText(labelOf(settings.list, problem))), cell({}, patch(colour), colour),
    cell({}, isBack ? "taken back" : firstWords(balloon)), cell({ class: "acts-on" }, ...acts),
  );
}

export function sheetOf(balloon, { contest, settings, colourOf }) {
  const colour = colourOf(balloon.problem);
  const line = `Balloon ${balloon.number}, ${clockText(balloon.released / 1000)}`;
  return element(
    "section", { class: "sheet" },
    element("p", {}, freeText(contest.name)),
    element("p", { class: "team" }, freeText(nameIn(settings.teams, balloon.team))),
    element("p", { class: "letter" }, freeText(labelOf(settings.list, balloon.problem))),
    element("p", {}, patch(colour), colour),
    element("p", {}, firstWords(balloon)),
    element("p", {}, line),
  );
}
