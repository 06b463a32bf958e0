// What a tab keeps until it is closed, and a browser may bring back with it. Each contest has a folder of its own, and
// so a token and posts of its own.

export const FOLDER = location.pathname.replace(/[^/]*$/, "");
// What only an account may know stands under names that begin so, and goes with the token. What is a team's own stands
// under others, and goes once somebody signs out: a token that is replaced doesn't take it away (token.js).
export const HELD = "held ", OWN = "own ";

export const recall = (name) => sessionStorage.getItem(`${FOLDER} ${name}`);
export const forget = (name) => sessionStorage.removeItem(`${FOLDER} ${name}`);

// Whether a text is kept: a tab has room for some millions of letters.
export function keep(name, text) {
  try {
    sessionStorage.setItem(`${FOLDER} ${name}`, text);
    return true;
  } catch (fault) {
    if (fault.name !== "QuotaExceededError") throw fault;
    return false;
  }
}

// The names of what is kept that begin so.
export function namesKept(start) {
  const names = Object.keys(sessionStorage).filter((name) => name.startsWith(`${FOLDER} ${start}`));
  return names.map((name) => name.slice(FOLDER.length + 1));
}

export const recallHeld = (name) => recall(HELD + name);
export const keepHeld = (name, text) => keep(HELD + name, text);
export const forgetHeld = (name) => forget(HELD + name);
export const namesHeld = (start) => namesKept(HELD + start).map((name) => name.slice(HELD.length));
