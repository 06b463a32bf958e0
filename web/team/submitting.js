// The form by which a team submits a program.

import { isSure } from "../shared/confirmation.js";
import { at } from "../shared/elements.js";
import { choicesOfNone, isWithin, onSubmit } from "../shared/forms.js";
import { tell } from "../shared/messages.js";
import { labelIn, problemText } from "../shared/settings.js";
import { rememberProgram } from "./own_programs.js";

const FILE_LIMIT = 1_048_576, NAME_LIMIT = 200;
const UNREADABLE = "This file can't be read: it has changed since you chose it, or it is gone. Nothing was sent. " +
  "Choose the file again.";
const EMPTY = "This file is empty. Submit it nevertheless?";

// The settings may not be read yet when a post of before is answered.
export const SUBMISSION = {
  name: "submission", buttons: "#submit-button",
  words: (submission) => `The desk has your submission ${submission.id}.`,
  about: ({ value: { problem_id: problem } }, { settings }) =>
    `Your submission to problem ${labelIn(settings?.problems ?? new Map(), problem)}`,
  answered: (submission, { value }, page) => rememberProgram(page, submission, value),
};

// The bytes of the file that was chosen, in base64; or null if it isn't to be sent, which is told.
async function chosenFile() {
  const [file] = at("file").files;
  if (file.size > FILE_LIMIT) {
    tell(`This file has ${file.size.toLocaleString("en")} bytes, and may have 1,048,576. Nothing was sent.`, true);
    return null;
  }
  if (file.size === 0 && !(await isSure("Submit it", EMPTY))) return null;
  try {
    const bytes = new Uint8Array(await file.arrayBuffer());
    return btoa(Array.from(bytes, (byte) => String.fromCharCode(byte)).join(""));
  } catch {
    at("file").value = "";
    tell(UNREADABLE, true);
    return null;
  }
}

export async function sendSubmission(page, value) {
  const submission = await page.outbox.post(SUBMISSION, `${page.path}/submissions`, value);
  page.renew.all();
  return submission;
}

async function submit(page) {
  const value = { problem_id: at("problem").value, language_id: at("language").value };
  if (!at("entry-label").hidden && at("entry").value) value.entry_point = at("entry").value;
  if (!isWithin(value.entry_point ?? "", NAME_LIMIT)) return;
  const data = await chosenFile();
  if (data === null) return;
  const submission = await sendSubmission(page, { ...value, files: [{ data }] });
  // Nothing of a submission goes over to the next one.
  if (submission !== null) at("submit").reset();
  showEntry(page);
}

// Some languages need an entry point.
function showEntry({ settings: { languages } }) {
  at("entry-label").hidden = !languages.get(at("language").value)?.entry_point_required;
}

export function showSubmitChoices(page) {
  const { problems, languages } = page.settings;
  choicesOfNone(at("problem"), [...problems.values()], problemText);
  choicesOfNone(at("language"), [...languages.values()], (language) => language.name);
  showEntry(page);
}

export function beginSubmitting(page) {
  onSubmit("submit", () => submit(page));
  at("language").addEventListener("change", () => showEntry(page));
}
