// Tells people what came of what they did, and why nothing comes.

import { Refusal } from "./desk.js";
import { at } from "./elements.js";

export function tell(text, isBad = false) {
  const place = at("told");
  place.textContent = text;
  place.className = isBad ? "bad" : "";
}

// Tells why nothing comes of the desk, or that all is well.
export function showAway(refusal) {
  at("away").hidden = refusal === null;
  at("away").textContent = refusal?.message ?? "";
}

// Does what a person asked for, and tells why it isn't done if the desk refuses it. What came of it, or null.
export async function doing(action) {
  try {
    return await action();
  } catch (refusal) {
    if (!(refusal instanceof Refusal)) throw refusal;
    tell(refusal.message, true);
    return null;
  }
}
