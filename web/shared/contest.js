// The contest that a page is of. It is known by its id and, once that has come, by its start: a contest that is made
// anew under the same id has another one, and one that goes on from an older copy may have none.

import { askAsPublic, persistently } from "./desk.js";
import { at, button, element } from "./elements.js";
import { showAway } from "./messages.js";

const WORDS = "Another contest is served here now, or this one was made anew, or goes on from an older copy. What " +
  "this page shows is of the one before. ";

// The contest that the desk keeps, with its path, once the desk answers. Anybody may ask for it. When it began is known
// once a page was told the state of its clock.
export async function contestHere() {
  const [{ id }] = await persistently(() => askAsPublic("contests"), showAway);
  showAway(null);
  return { id, path: `contests/${id}`, started: null };
}

// What a browser keeps of a contest stands under this. One that hasn't begun is known by its id alone.
export const placeOf = ({ id, started }) => `${id} ${started ?? "before"}`;

function showOther(isOther) {
  const there = at("other");
  if (!isOther) there?.remove();
  if (!isOther || there !== null) return;
  const load = button("Load the page anew", () => location.reload(), { id: "other-load" });
  document.querySelector("header").append(element("p", { id: "other", class: "bad", role: "alert" }, WORDS, load));
}

// Whether this is the state of another contest than the page is of.
export const isOther = (contest, { started }) => contest.started !== null && started !== contest.started;

// Takes the state of the clock as a page is told it, and says so if it is another contest's.
export function takeState(contest, state) {
  contest.started ??= state.started;
  showOther(isOther(contest, state));
}

// After a refusal looks whether the desk keeps a contest of another id now.
export async function lookForOther(contest, { reason }) {
  if (reason !== "NotFound") return;
  const [found] = await askAsPublic("contests").catch(() => [contest]);
  if (found.id !== contest.id) showOther(true);
}
