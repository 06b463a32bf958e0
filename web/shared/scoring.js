// Scores a contest from the objects of the Contest API 2023-06: cells, problems solved, time, rank, and the order of
// the rows. The rules are the desk's (docs/FORMATS.md, section 2). A page asks it only for what lies between two boards
// that the desk serves; tests hold it beside the desk's.

import { millisecondsOf, MINUTE } from "./times.js";

const USUAL_PENALTY = 20;

// Texts in the order of their UTF-8 bytes, which is that of their characters.
export function byBytes(one, other) {
  const [mine, its] = [one, other].map((text) => Array.from(text, (letter) => letter.codePointAt(0)));
  const place = mine.findIndex((code, at) => code !== its[at]);
  return place === -1 ? mine.length - its.length : mine[place] - (its[place] ?? -1);
}

const minutesOf = (penalty) => (typeof penalty === "string" ? millisecondsOf(penalty) / MINUTE : penalty);

// When the freeze begins, in milliseconds of contest time; never, without a freeze.
function freezeOf({ duration, scoreboard_freeze_duration: freeze = null }) {
  return freeze === null ? Infinity : millisecondsOf(duration) - millisecondsOf(freeze);
}

// The judgement that counts of each submission: of those with a verdict, the one that ended last.
function countedOf(judgements) {
  const endOf = ({ end_contest_time: end = null }) => (end === null ? -Infinity : millisecondsOf(end));
  const found = new Map();
  for (const one of judgements) {
    const isGood = (one.judgement_type_id ?? null) !== null && one.valid !== false && one.current !== false;
    const before = found.get(one.submission_id);
    if (isGood && (before === undefined || endOf(one) >= endOf(before))) found.set(one.submission_id, one);
  }
  return found;
}

// A submission as scoring takes it, with its verdict's type or null.
function attemptOf(submission, judgement, types) {
  const { id, team_id: team, problem_id: problem, contest_time: time } = submission;
  const type = judgement === null ? null : types.get(judgement.judgement_type_id);
  if (type === undefined) throw new Error(`there is no judgement type "${judgement.judgement_type_id}"`);
  return { id, team, problem, time: millisecondsOf(time), type, judgement };
}

// The attempts in the contest's time, by time. Those of one time stay as they are listed.
function attemptsOf({ contest, types, submissions, judgements }) {
  const known = new Map(types.map((type) => [type.id, type])), counted = countedOf(judgements);
  const all = submissions.map((one) => attemptOf(one, counted.get(one.id) ?? null, known));
  const length = millisecondsOf(contest.duration);
  return all.filter(({ time }) => time >= 0 && time < length).sort((one, other) => one.time - other.time);
}

// The teams that aren't hidden, neither by themselves nor by a group, by name and then by id.
function shownTeams(teams, groups) {
  const hiding = new Set(groups.filter((group) => group.hidden).map((group) => group.id));
  const isShown = (team) => !team.hidden && !(team.group_ids ?? []).some((id) => hiding.has(id));
  const named = teams.filter(isShown).map((team) => ({ ...team, name: team.display_name ?? team.name }));
  return named.sort((one, other) => byBytes(one.name, other.name) || byBytes(one.id, other.id));
}

const nameOfCell = (team, problem) => `${team} ${problem}`;

// What scoring needs of a contest's lists: the contest, judgement types, problems, groups, teams, submissions and
// judgements.
export function scoredOf(lists) {
  const attempts = Map.groupBy(attemptsOf(lists), ({ team, problem }) => nameOfCell(team, problem));
  const problems = [...lists.problems].sort((one, other) => one.ordinal - other.ordinal || byBytes(one.id, other.id));
  return {
    problems, teams: shownTeams(lists.teams, lists.groups), freeze: freezeOf(lists.contest),
    penalty: minutesOf(lists.contest.penalty_time ?? USUAL_PENALTY),
    attempts: (team, problem) => attempts.get(nameOfCell(team, problem)) ?? [],
  };
}

// Which verdicts are held back in the freeze: it goes by the time of the submission.
export const heldInFreeze = ({ freeze }) => (attempt) => attempt.time >= freeze;
export const heldNever = () => false;

// The attempts up to the one that is seen to solve the problem, which is told too, or null. One that is held back is
// seen without its verdict.
function seenOf(attempts, isHeld) {
  const place = attempts.findIndex((one) => one.type !== null && !isHeld(one) && one.type.solved);
  return place === -1 ? [attempts, null] : [attempts.slice(0, place + 1), attempts[place]];
}

// What a team's attempts at a problem come to, as a scoreboard serves it, and one member more: the minutes that it
// costs (`cost`), 0 if it isn't solved.
export function cellOf({ attempts, penalty }, team, problem, isHeld) {
  const [counted, solving] = seenOf(attempts(team, problem), isHeld);
  const judged = counted.filter((one) => one.type !== null && !isHeld(one));
  const cell = { problem_id: problem, num_judged: judged.length, num_pending: counted.length - judged.length };
  if (solving === null) return { ...cell, solved: false, cost: 0 };
  const penalised = judged.filter(({ type }) => type.penalty && !type.solved).length;
  const time = Math.floor(solving.time / MINUTE);
  return { ...cell, solved: true, time, cost: time + penalty * penalised };
}

// The attempts of a team that are seen to solve a problem, the one that counts first.
export const solvingOf = ({ attempts }, team, problem, isHeld) =>
  attempts(team, problem).filter((one) => one.type !== null && !isHeld(one) && one.type.solved);

// Problems solved, total and last minute of a row's cells.
function scoreOf(cells) {
  const solved = cells.filter((cell) => cell.solved);
  const time = solved.length === 0 ? null : Math.max(...solved.map((cell) => cell.time));
  const total = solved.reduce((sum, { cost }) => sum + cost, 0);
  return { num_solved: solved.length, time, total_time: total };
}

// Less than 0 if the first row is better, 0 if neither is.
const compareScores = ({ score: one }, { score: other }) =>
  other.num_solved - one.num_solved || one.total_time - other.total_time || one.time - other.time;

// The rows of a board whose cells are given, as a scoreboard serves them: by rank, name and id.
export function rowsOf({ teams }, cellsOfTeam) {
  const rows = teams.map(({ id }) => {
    const problems = cellsOfTeam(id);
    return { team_id: id, problems, score: scoreOf(problems) };
  });
  rows.sort(compareScores);
  let rank = 0;
  return rows.map((row, place) => {
    if (place === 0 || compareScores(rows[place - 1], row) !== 0) rank = place + 1;
    return { ...row, rank };
  });
}

// The rows of the board that is seen while these verdicts are held back.
export function boardRows(scored, isHeld) {
  return rowsOf(scored, (team) => scored.problems.map(({ id }) => cellOf(scored, team, id, isHeld)));
}
