// What this browser keeps also after a tab is closed, for all its tabs. Each contest has a folder of its own. Nothing
// is kept here that not everybody may know, and no token.

import { FOLDER } from "../shared/tab_storage.js";

const START = `${FOLDER} `;

export const recallHere = (name) => localStorage.getItem(START + name);
export const forgetHere = (name) => localStorage.removeItem(START + name);

// Whether a text is kept: a browser has room for some millions of letters.
export function keepHere(name, text) {
  try {
    localStorage.setItem(START + name, text);
    return true;
  } catch (fault) {
    if (fault.name !== "QuotaExceededError") throw fault;
    return false;
  }
}

// The names of what is kept that begin so.
export function namesHere(start) {
  const names = Object.keys(localStorage).filter((name) => name.startsWith(START + start));
  return names.map((name) => name.slice(START.length));
}

// Does something whenever another tab kept or forgot something.
export const onOtherTabs = (action) => addEventListener("storage", action);
