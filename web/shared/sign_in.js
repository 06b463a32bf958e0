// The form for a token, and what is behind it once the desk takes one.

import { persistently, Refusal } from "./desk.js";
import { at } from "./elements.js";
import { tell } from "./messages.js";
import { forgetToken, keepToken, signOut, token } from "./token.js";

const FULL = "This tab has no room to keep the token. Close it, and open this page in another one.";

function show(isIn) {
  at("sign-in").hidden = isIn;
  at("inside").hidden = !isIn;
  at("sign-out").hidden = token() === null;
}

// Each load of a page is for one account, or for nobody.
function enterAs(text) {
  forgetToken();
  if (keepToken(text)) location.reload();
  else tell(FULL, true);
}

function leave() {
  signOut();
  location.reload();
}

// Shows the form or what is behind it. `check` asks something of the desk by the token; once that is answered, `begin`
// begins the page. A token that no account has is forgotten. One that isn't for this page stays: the tab may show
// others again.
export async function signIn(check, begin) {
  const first = token();
  at("sign-in").addEventListener("submit", (event) => {
    event.preventDefault();
    enterAs(at("token").value.trim());
  });
  at("sign-out").addEventListener("click", leave);
  // A page that the browser kept as it was, and shows again, may be of somebody who has signed out since.
  addEventListener("pageshow", () => { if (token() !== first) location.reload(); });
  if (first === null) return show(false);
  try {
    await persistently(check, (refusal) => tell(refusal.message, true));
  } catch (refusal) {
    if (!(refusal instanceof Refusal)) throw refusal;
    if (refusal.reason === "UnknownToken") forgetToken();
    tell(refusal.message, true);
    return show(false);
  }
  tell("");
  show(true);
  return begin();
}
