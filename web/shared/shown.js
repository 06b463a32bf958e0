// What somebody was shown of a record when they decided something about it. A desk that goes on from an older copy
// gives ids again, so an id alone doesn't say that it is the same record still.

import { askAs, Refusal } from "./desk.js";

const FACTS = {
  submission: ({ time, team_id: team, problem_id: problem }) => [time, team, problem],
  clarification: ({ time, from_team_id: team, problem_id: problem }) => [time, team, problem],
  rejudging: ({ reason, members }) => [reason, ...members.map((member) => member.submission_id)],
};

const factsOf = (kind, record) => JSON.stringify(FACTS[kind](record));

export const isSame = (kind, one, other) => factsOf(kind, one) === factsOf(kind, other);

// What was shown of a record that the desk has under a path.
export const shownOf = (kind, path, record) => ({ kind, path, facts: factsOf(kind, record) });

// What was shown isn't there any more. `now` is what stands in its place, or null.
export class Replaced extends Refusal {
  constructor(path, now) {
    super(409, "OtherRecord");
    Object.assign(this, { path, now });
  }
}

// The record under a path, or null.
const recordAt = (who, path) => askAs(who, path).catch((refusal) => {
  if (!(refusal instanceof Refusal) || refusal.reason !== "NotFound") throw refusal;
  return null;
});

// Asks for what was shown, and throws a Replaced unless all of it stands as it was.
export async function holdShown(who, all) {
  for (const { kind, path, facts } of all) {
    const now = await recordAt(who, path);
    if (now === null || factsOf(kind, now) !== facts) throw new Replaced(path, now);
  }
}

// The submissions of one list that another has no more, or has other ones under their ids.
export function goneFrom(before, now) {
  const known = new Map(now.map((one) => [one.id, one]));
  return before.filter((one) => !known.has(one.id) || !isSame("submission", one, known.get(one.id)));
}

// What is remembered of a submission, to be told once it is gone.
export const briefOf = ({ id, time, contest_time, team_id, problem_id }) =>
  ({ id, time, contest_time, team_id, problem_id });
