// What a tab remembers of a team's submissions: which the desk had, which of these are gone, and the last programs that
// it answered, so that the team can send them again.

import { placeOf } from "../shared/contest.js";
import { briefOf, goneFrom } from "../shared/shown.js";
import { forget, keep, namesKept, recall } from "../shared/tab_storage.js";

const MOST = 5;

const nameOf = (what, { contest, account }) => `${what} ${placeOf(contest)} ${account.id}`;
const listIn = (name) => JSON.parse(recall(name) ?? "[]");

// The names of the programs that are kept, the oldest first.
const programNames = (page) => namesKept(`${nameOf("own program", page)} `).sort();

// Forgets the oldest program. Whether there was one.
export function forgetOldest(page) {
  const [oldest] = programNames(page);
  if (oldest !== undefined) forget(oldest);
  return oldest !== undefined;
}

// Keeps a text if there is room for it, perhaps once older programs are forgotten.
function keepSurely(page, name, text) {
  while (!keep(name, text)) if (!forgetOldest(page)) return;
}

// Keeps a submission that the desk has taken, and what was posted.
export function rememberProgram(page, submission, value) {
  const { id, time } = submission;
  while (programNames(page).length >= MOST) forgetOldest(page);
  keepSurely(page, `${nameOf("own program", page)} ${time} ${id}`, JSON.stringify({ id, time, value }));
  // One that had this id before, at another time, stays in the list: the desk has it no more, which is told.
  const others = listIn(nameOf("own list", page)).filter((one) => one.id !== id || one.time !== time);
  keepSurely(page, nameOf("own list", page), JSON.stringify([...others, briefOf(submission)]));
}

// What was posted as a submission, or null if it isn't kept.
export function programOf(page, { id, time }) {
  const kept = programNames(page).map((name) => JSON.parse(recall(name)));
  return kept.find((one) => one.id === id && one.time === time)?.value ?? null;
}

// The submissions that are gone, as the desk had them.
export const goneOf = (page) => listIn(nameOf("own gone", page));

// Takes the list of the team's submissions as it is now.
export function takeOwn(page, submissions) {
  const now = submissions.map(briefOf);
  const gone = goneFrom(listIn(nameOf("own list", page)), now);
  if (gone.length > 0) keepSurely(page, nameOf("own gone", page), JSON.stringify([...goneOf(page), ...gone]));
  keepSurely(page, nameOf("own list", page), JSON.stringify(now));
}

// Speaks no more of one that is gone.
export function forgetGone(page, { id, time }) {
  const others = goneOf(page).filter((one) => one.id !== id || one.time !== time);
  keep(nameOf("own gone", page), JSON.stringify(others));
}
