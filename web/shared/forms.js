// Forms: what may be chosen, how long a text may be, and that each is sent once at a time.

import { at, element, fill } from "./elements.js";
import { tell } from "./messages.js";

// A row as a choice. What is chosen is its id.
export const choice = (row, text) => element("option", { value: row.id }, text(row));

// Choices of which none is taken at first: a form that asks for one isn't sent until somebody has chosen.
export function choicesOfNone(select, rows, text) {
  fill(select, [choice({ id: "" }, () => "choose .."), ...rows.map((row) => choice(row, text))]);
}

// Whether a text has no more bytes than it may have. If it has, that is told: many letters take two to four bytes.
export function isWithin(text, most) {
  const bytes = new TextEncoder().encode(text).length;
  const [has, may] = [bytes, most].map((number) => number.toLocaleString("en"));
  if (bytes > most) tell(`The text has ${has} bytes, and may have ${may}. Many letters take two to four bytes.`, true);
  return bytes <= most;
}

const BUSY = "The last one is still on its way: this one isn't sent yet. Press again once it is answered.";

// Does what a form asks for, once at a time, whenever somebody sends it off. What was told before is told no more.
// Whoever sends it off meanwhile is told that, in whatever way the form says.
export function onSubmit(form, action, tellBusy = (text) => tell(text, true)) {
  let isBusy = false;
  at(form).addEventListener("submit", async (event) => {
    event.preventDefault();
    if (isBusy) {
      tellBusy(BUSY);
      return;
    }
    isBusy = true;
    tell("");
    try {
      await action(event.submitter);
    } finally {
      isBusy = false;
    }
  });
}
