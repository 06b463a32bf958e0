// Which balloons there are, in the order in which they became known. This browser keeps the list, so it only grows:
// what a rejudging takes back stays in it, and what is released later stands behind all that is there.
//
// Each view has a list of its own: that of the public knows nothing of the jury's. What was taken and delivered is kept
// once, whoever looks. What not everybody may know the tab keeps alone, and forgets it with the token. A contest that
// is made anew begins with nothing.

import { firstsScored } from "../shared/firsts.js";
import { byBytes, heldInFreeze, solvingOf } from "../shared/scoring.js";
import { forgetHeld, keepHeld, namesHeld, recallHeld } from "../shared/tab_storage.js";
import { millisecondsOf } from "../shared/times.js";
import { forgetHere, keepHere, namesHere, recallHere } from "./browser_storage.js";

const HERE = { names: namesHere, recall: recallHere, keep: keepHere, forget: forgetHere };
const HELD = { names: namesHeld, recall: recallHeld, keep: keepHeld, forget: forgetHeld };
const storeOf = (view) => (view === "public" ? HERE : HELD);

const listStart = (contest, view) => `balloons ${contest} ${view} `;
const markName = (contest, { team, problem }) => `balloon ${contest} ${team} ${problem}`;
const isSame = (one, other) => one.team === other.team && one.problem === other.problem;

const releasedAt = ({ judgement }) => millisecondsOf(judgement.end_contest_time);

// The problem that a team solved, with the first release of a verdict that says so; none if it isn't solved.
function solveOf(scored, team, problem, isHeld) {
  const solving = solvingOf(scored, team, problem, isHeld);
  if (solving.length === 0) return [];
  return [{ team, problem, released: Math.min(...solving.map(releasedAt)) }];
}

// All that is solved, as it is seen.
function solvesOf(scored, isHeld) {
  return scored.teams.flatMap((team) => scored.problems.flatMap(({ id }) => solveOf(scored, team.id, id, isHeld)));
}

const byRelease = (one, other) => one.seen - other.seen || one.released - other.released
  || byBytes(one.team, other.team) || byBytes(one.problem, other.problem);

function keptList(contest, view) {
  const { names, recall } = storeOf(view);
  return names(listStart(contest, view)).map((name) => JSON.parse(recall(name))).sort(byRelease);
}

// The list of a view, to which what is solved and not in it yet is added: behind all that is, also if the clock was set
// back. What there is no room to keep is in it nevertheless.
function listWith(contest, view, solves, now) {
  const kept = keptList(contest, view), seen = Math.max(now, 1 + (kept.at(-1)?.seen ?? 0));
  const fresh = solves.filter((solve) => !kept.some((other) => isSame(solve, other))).sort(byRelease);
  const nameOf = ({ team, problem }) => `${listStart(contest, view)}${team} ${problem}`;
  const keepOne = (one) => storeOf(view).keep(nameOf(one), JSON.stringify({ ...one, seen }));
  return [...kept, ...fresh.map((one) => ({ ...one, seen, isKept: keepOne(one) }))];
}

function markOf(contest, balloon) {
  const name = markName(contest, balloon);
  return recallHeld(name) ?? recallHere(name) ?? "";
}

// Marks a balloon. Whether there was room to keep it.
export function mark(contest, balloon, word) {
  const name = markName(contest, balloon), store = balloon.isSecret ? HELD : HERE;
  for (const { forget } of [HERE, HELD]) forget(name);
  return word === "" || store.keep(name, word);
}

// The balloons of a view, each with its number, its mark, whether it was taken back, whether its team was the first,
// and whether not everybody may know of it.
export function balloonsOf(contest, view, { scored, isHeld, isThawed, now }) {
  const solves = solvesOf(scored, isHeld), known = solvesOf(scored, isThawed ? isHeld : heldInFreeze(scored));
  const first = new Map(scored.problems.map(({ id }) => [id, firstsScored(scored, id, isHeld)]));
  return listWith(contest, view, solves, now).map((one, place) => ({
    ...one, number: place + 1, isBack: !solves.some((other) => isSame(one, other)), mark: markOf(contest, one),
    isFirst: first.get(one.problem)?.teams.includes(one.team) ?? false,
    isCertain: first.get(one.problem)?.isCertain ?? false,
    isSecret: view !== "public" && !known.some((other) => isSame(one, other)),
  }));
}

// Forgets the lists and marks of a contest.
export function forgetBalloons(contest) {
  for (const { names, forget } of [HERE, HELD]) {
    for (const name of [...names(`balloons ${contest} `), ...names(`balloon ${contest} `)]) forget(name);
  }
}
