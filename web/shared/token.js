// The token of who is signed in to a tab: how long it is kept, and what goes with it.

import { forget, HELD, keep, namesKept, OWN, recall } from "./tab_storage.js";

const TOKEN = "token", READ = "read", USED = "used";
// So long, in milliseconds, a token lasts after a page of the tab was open last; how often an open page says so.
const LASTS = 600_000;
const BEAT = 15_000;

// The token of who is signed in, or null. With it goes what its account has read, and what it alone may know.
export const token = () => recall(TOKEN);

function sayUsed() {
  if (token() !== null) keep(USED, String(Date.now()));
}

// Whether a token is kept.
export function keepToken(text) {
  const isKept = keep(TOKEN, text);
  sayUsed();
  return isKept;
}

export function forgetToken() {
  for (const name of [TOKEN, USED, READ, ...namesKept(HELD)]) forget(name);
}

export function signOut() {
  forgetToken();
  for (const name of namesKept(OWN)) forget(name);
}

// A browser opens a tab again that was closed, or all of them once it is started. Whoever does that needn't be whose
// token it is, so the token is forgotten if no page was open for a while.
function endOldUse() {
  const gone = Math.abs(Date.now() - Number(recall(USED)));
  if (token() !== null && gone > LASTS) signOut();
}

// This isn't left to a call of each page: every page loads this module, and none may forget it.
endOldUse();
sayUsed();
setInterval(sayUsed, BEAT);
addEventListener("pagehide", sayUsed);

// What an account has read in this tab, by names; null if nothing is known of that.
export function readIn(account) {
  const kept = JSON.parse(recall(READ) ?? "{}");
  return kept.account === account ? kept.names : null;
}

// Whether it is kept what an account has read. Nobody's is once somebody has signed out.
export const keepRead = (account, names) => token() === null || keep(READ, JSON.stringify({ account, names }));
