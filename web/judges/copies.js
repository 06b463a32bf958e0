// How old the newest copy of the contest is, as the unit that copies leaves it beside the pages (docs/FORMATS.md,
// section 7). Where nobody copies there is no such file, and nothing is shown.

import { askAsPublic, Refusal } from "../shared/desk.js";
import { at } from "../shared/elements.js";

// Every so many seconds the file is asked for. A copy comes every half minute: one that is so old is the last.
const SECONDS = 60;
const OLD = 180;

// What the file says; null if there is none, and what it said before if nothing can be asked.
const copiedNow = (before) => askAsPublic("copied.json").catch((refusal) => {
  if (!(refusal instanceof Refusal)) throw refusal;
  return refusal.reason === "NotTheDesk" ? null : before;
});

// Shows the age of a copy by the desk's clock.
function showAge(copied, now) {
  const age = copied === null ? 0 : (Date.parse(now) - Date.parse(copied.time)) / 1000;
  const minutes = Math.floor(age / 60);
  at("copied").hidden = age < OLD;
  at("copied").textContent = `The newest copy of the contest is ${minutes} minutes old: copies have stopped. ` +
    "Tell the director.";
}

// Begins to look for copies. Gives what shows the newest, by the desk's clock.
export function beginCopies() {
  let copied = null;
  const look = async () => { copied = await copiedNow(copied); };
  look();
  setInterval(look, SECONDS * 1000);
  return (now) => showAge(copied, now);
}
