// Who solved each problem first, for the star alone: awards are the desk's. A board tells it by the minute, and the
// long lists where it doesn't; a contest that is scored tells it to the millisecond.

import { solvingOf } from "./scoring.js";
import { minuteOf } from "./times.js";

const FIRST = "first-to-solve-";

function cellsOf({ rows }) {
  return rows.flatMap(({ team_id: team, problems }) => problems.map((cell) => ({ ...cell, team })));
}

const problemsOf = (cells) => new Set(cells.map((cell) => cell.problem_id));

// The one team that solved a problem in a minute which no other team has reached, with that minute; null if there is no
// such team. Which of two teams in one minute was first a board doesn't tell.
function aloneAt(problem, cells) {
  const solved = cells.filter((cell) => cell.problem_id === problem && cell.solved);
  const [first, second] = solved.sort((one, other) => one.time - other.time);
  const isAlone = first !== undefined && (second === undefined || first.time < second.time);
  return isAlone ? { problem, team: first.team, minute: first.time } : null;
}

// Whether an attempt of another team at the problem waits, which may be an earlier one.
const isDoubtful = (cells, { problem, team }) =>
  cells.some((cell) => cell.problem_id === problem && cell.team !== team && cell.num_pending > 0);

// Those of whom the board alone doesn't tell whether they were first.
export function doubtful(board) {
  const cells = cellsOf(board);
  const found = [...problemsOf(cells)].map((problem) => aloneAt(problem, cells));
  return found.filter((one) => one !== null && isDoubtful(cells, one));
}

// Whether no submission of another team on the board, in the same minute or before, waits for its verdict.
export function isCertain({ problem, team, minute }, board, { submissions, judgements }) {
  const judged = new Set(judgements.map((one) => one.submission_id));
  const others = new Set(board.rows.map((row) => row.team_id).filter((id) => id !== team));
  const isEarlier = (one) => one.problem_id === problem && others.has(one.team_id)
    && minuteOf(one.contest_time) <= minute && !judged.has(one.id);
  return !submissions.some(isEarlier);
}

// The teams that were first at each problem: the award's once awards are shown, before that the one that was alone in
// its minute. While an attempt waits that may be an earlier one, `isSure` has to say so.
export function firstsOnBoard(board, awards, isSure) {
  const cells = cellsOf(board), found = new Map();
  for (const problem of problemsOf(cells)) {
    const award = awards.find(({ id }) => id === FIRST + problem), one = aloneAt(problem, cells);
    const isFirst = one !== null && (!isDoubtful(cells, one) || isSure(one));
    found.set(problem, award?.team_ids ?? (isFirst ? [one.team] : []));
  }
  return found;
}

// Which teams solved a problem first in a contest that is scored, as it is seen while these verdicts are held back; and
// whether that is certain: no earlier attempt waits.
export function firstsScored(scored, problem, isHeld) {
  const solves = scored.teams.flatMap(({ id }) => solvingOf(scored, id, problem, isHeld).slice(0, 1));
  const least = Math.min(...solves.map(({ time }) => time));
  const isOpen = (one) => one.time < least && (one.type === null || isHeld(one));
  const isCertain = !scored.teams.some(({ id }) => scored.attempts(id, problem).some(isOpen));
  return { teams: solves.filter(({ time }) => time === least).map(({ team }) => team), isCertain };
}
