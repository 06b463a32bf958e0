// A ceremony, step by step: from the board in the freeze to the last one, as ICPC ceremonies resolve it. The lowest
// team with something held back has its next problem revealed, and moves to its place. A place is certain once nothing
// of the team, nor of those that share its rank, is held back: whoever stands above can only rise.

import { cellOf, heldInFreeze, heldNever, rowsOf } from "../shared/scoring.js";

const isSame = (one, other) => JSON.stringify(one) === JSON.stringify(other);
const nameOf = (team, problem) => `${team} ${problem}`;

// A team's cells, each as it is in the freeze and at the end.
function cellsOf(scored, team) {
  const inFreeze = heldInFreeze(scored);
  return scored.problems.map(({ id }) => {
    const [held, full] = [inFreeze, heldNever].map((isHeld) => cellOf(scored, team, id, isHeld));
    return { problem: id, held, full, isHeld: !isSame(held, full) };
  });
}

// A ceremony of a contest that is scored, and of its awards.
export function ceremonyOf(scored, awards) {
  return { scored, awards, cells: new Map(scored.teams.map(({ id }) => [id, cellsOf(scored, id)])) };
}

// Where it begins: nothing is revealed, and no place is certain. The last step is none yet: later it has a team, and
// the problem that was revealed and the rank from which the team came, or no problem.
export const BEGINNING = { revealed: new Set(), certain: 0, last: null };

// How many cells are held back in the freeze.
export const heldCount = ({ cells }) => [...cells.values()].flat().filter((cell) => cell.isHeld).length;

// How many attempts have no verdict at the end either.
export function pendingCount({ cells }) {
  return [...cells.values()].flat().reduce((sum, { full }) => sum + full.num_pending, 0);
}

// Which verdicts are held back still at a step.
export function heldAt({ scored }, { revealed }) {
  const inFreeze = heldInFreeze(scored);
  return (attempt) => inFreeze(attempt) && !revealed.has(nameOf(attempt.team, attempt.problem));
}

// The rows of the board at a step.
export function rowsAt({ scored, cells }, { revealed }) {
  const shown = (team) => cells.get(team)
    .map(({ problem, held, full }) => (revealed.has(nameOf(team, problem)) ? full : held));
  return rowsOf(scored, shown);
}

// The first problem of a team that is still held back.
const nextProblem = ({ cells }, { revealed }, team) =>
  cells.get(team).find((cell) => cell.isHeld && !revealed.has(nameOf(team, cell.problem)));

export const awardsOf = ({ awards }, team) => awards.filter((award) => award.team_ids?.includes(team));

function withRevealed(state, certain, { team_id: team, rank }, problem) {
  const revealed = new Set(state.revealed).add(nameOf(team, problem));
  return { revealed, certain, last: { team, problem, from: rank } };
}

// The next step, or null at the end. It reveals one problem, or shows the awards of a team whose place is certain. Rows
// with neither become certain on the way.
export function nextOf(ceremony, state) {
  const rows = rowsAt(ceremony, state);
  let certain = state.certain;
  while (certain < rows.length) {
    const row = rows.at(-1 - certain);
    const isWaiting = (one) => one.rank === row.rank && nextProblem(ceremony, state, one.team_id);
    const waiting = rows.findLast(isWaiting);
    if (waiting) return withRevealed(state, certain, waiting, nextProblem(ceremony, state, waiting.team_id).problem);
    certain += 1;
    const { team_id: team } = row;
    if (awardsOf(ceremony, team).length > 0) return { ...state, certain, last: { team, problem: null } };
  }
  if (certain === state.certain) return null;
  return { ...state, certain, last: { team: rows[0].team_id, problem: null } };
}
