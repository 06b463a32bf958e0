// The keys of the judging page: one for each verdict, and some for what is done with it.

// Keys for verdicts, in the order of the judgement types. `n` and `s` stand for the next submission and for saving.
const VERDICT_KEYS = [..."1234567890abcdefghijklmopqrtuvwxyz"];

export const keyOfVerdict = (place) => VERDICT_KEYS[place] ?? null;

// Which key was pressed, by what it writes, or by its place on keyboards of other scripts, where letters aren't Latin
// and digits want Shift.
function nameOf({ key, code }) {
  if (/^[0-9a-z]$/i.test(key)) return key.toLowerCase();
  const [, letter] = /^(?:Key|Digit)([A-Z0-9])$/.exec(code) ?? [];
  return letter?.toLowerCase() ?? key;
}

// What has keys of its own: fields to write in and choices; and for Enter buttons and links.
const FIELDS = "select, textarea, dialog, input:not([type=radio])";
const PRESSED = "button, a";

function isForPage(event) {
  const { target } = event;
  if (event.defaultPrevented || event.isComposing || event.repeat) return false;
  if (event.ctrlKey || event.altKey || event.metaKey || target.closest(FIELDS)) return false;
  return !(event.key === "Enter" && target.closest(PRESSED));
}

// Does what a key stands for, if somebody presses it while `isOn` says that keys count and no field takes it.
export function onKeys(isOn, actionOf) {
  document.addEventListener("keydown", (event) => {
    if (!isOn() || !isForPage(event) || document.querySelector("dialog")) return;
    const action = actionOf(nameOf(event));
    if (action === null) return;
    event.preventDefault();
    action();
  });
}
