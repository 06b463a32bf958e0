// Sends posts. Each stays in the tab, under a key of its own, until the desk itself has answered it: a page that is
// loaded anew sends the same post again, and the desk answers a repeat by its first reply. So nothing is lost, and
// nothing comes twice.
//
// A post belongs to the account that made it, and to the contest. Another account that signs in to the same tab neither
// sends it nor takes it away; it goes out once its own account signs in there again, also by another token. A contest
// that was made anew isn't sent what was for the one before. Of a token nothing stays after sign-out but this: a post
// that adds an account, or replaces its token, has that token in it, until it is answered.
//
// Before each try the page asks whether this is the contest still, and whether what a person decided about is what they
// were shown.

import { isOther, placeOf } from "./contest.js";
import { askAs, change, persistently, Refusal } from "./desk.js";
import { tell } from "./messages.js";
import { holdShown } from "./shown.js";
import { forget, keep, namesKept, recall } from "./tab_storage.js";
import { token } from "./token.js";

const FULL = "This tab has no room to keep what you send. Leave the page open until it is answered.";
const START = "unanswered ";

const hexadecimal = (byte) => byte.toString(16).padStart(2, "0");
const newKey = () => Array.from(crypto.getRandomValues(new Uint8Array(16)), hexadecimal).join("");

function turnOff(buttons, isOff) {
  for (const pressed of document.querySelectorAll(buttons)) pressed.disabled = isOff;
}

const isRefused = ({ isFinal, reason }) => isFinal || reason === "OtherContest";

// What an account of a contest posts. `owner` is the page: its contest, its account, and what kinds of posts need of
// it. `makeRoom` forgets something that the tab keeps, and says whether there was anything.
export class Outbox {
  #owner;
  #makeRoom;
  #who = token();
  #last = Promise.resolve();

  constructor(owner, makeRoom = () => false) {
    this.#owner = owner;
    this.#makeRoom = makeRoom;
  }

  // Under which name a post is kept.
  #nameOf({ key }) {
    const { contest, account } = this.#owner;
    return `${START}${placeOf(contest)} ${account.id} ${key}`;
  }

  // What was posted before the start is for the contest of that id.
  #isOfContest(name) {
    const { contest } = this.#owner;
    const places = [placeOf(contest), placeOf({ id: contest.id, started: null })];
    return places.some((place) => name.startsWith(`${START}${place} `));
  }

  // What the account posted and has no answer to, in the order in which it was made, each with its name.
  #kept() {
    const isMine = (name) => name.split(" ").at(-2) === this.#owner.account.id;
    const found = namesKept(START).filter(isMine).map((name) => [name, JSON.parse(recall(name))]);
    return found.sort(([, one], [, other]) => one.time - other.time);
  }

  // Keeps a post if the tab has room for it. If not, it is sent nevertheless, but not once the page is gone.
  #keep(name, made) {
    const text = JSON.stringify(made);
    while (!keep(name, text)) if (!this.#makeRoom()) return;
  }

  async #sendOnce(made) {
    const { contest } = this.#owner;
    if (isOther(contest, await askAs(this.#who, `${contest.path}/state`))) throw new Refusal(409, "OtherContest");
    await holdShown(this.#who, made.shown);
    return change(this.#who, made);
  }

  // Tries once. What a refusal leaves open may be known from elsewhere.
  async #tried(kind, made) {
    try {
      return await this.#sendOnce(made);
    } catch (refusal) {
      const reply = refusal instanceof Refusal ? await kind.otherwise?.(refusal, made, this.#owner) : null;
      if ((reply ?? null) === null) throw refusal;
      return reply;
    }
  }

  // Sends a post until the desk has answered it, and tells how that ended. What came of it, or null if it was refused.
  async #send(kind, name, made) {
    tell(recall(name) === null ? FULL : "Sending ..");
    const tellWaiting = ({ message }) => tell(`Sending .. ${message}`);
    try {
      const reply = await persistently(() => this.#tried(kind, made), tellWaiting, isRefused);
      forget(name);
      kind.answered?.(reply, made, this.#owner);
      tell(kind.words(reply, made, this.#owner));
      return reply;
    } catch (refusal) {
      if (!(refusal instanceof Refusal)) throw refusal;
      if (refusal.isFinal) forget(name);
      tell(kind.about === undefined ? refusal.message : `${kind.about(made, this.#owner)}: ${refusal.message}`, true);
      kind.refused?.(refusal, made, this.#owner);
      return null;
    } finally {
      turnOff(kind.buttons, false);
    }
  }

  // Posts go out one after the other, as they were made. The buttons of each are off until it is answered.
  #sendInTurn(kind, name, made) {
    turnOff(kind.buttons, true);
    const sent = this.#last.then(() => this.#send(kind, name, made));
    this.#last = sent.catch(() => null);
    return sent;
  }

  // Posts a value of a kind, which says a name, the buttons that are off meanwhile (a selector) and what is told of the
  // reply. It may say what is told to be refused, and what else is done then. `shown` is what was decided about. It
  // goes out in the name of who is signed in now.
  post(kind, path, value, { method = "POST", shown = [] } = {}) {
    const made = { kind: kind.name, method, path, value, shown, key: newKey(), time: Date.now() };
    const name = this.#nameOf(made);
    this.#keep(name, made);
    return this.#sendInTurn(kind, name, made);
  }

  // Sends what the account posted before, of these kinds, and has no answer to yet. Whether there was anything.
  async sendKept(kinds) {
    const mine = this.#kept().filter(([name]) => this.#isOfContest(name));
    const known = mine.flatMap(([name, made]) => {
      const kind = kinds.find((one) => one.name === made.kind);
      return kind === undefined ? [] : [[kind, name, made]];
    });
    await Promise.all(known.map((one) => this.#sendInTurn(...one)));
    return known.length > 0;
  }

  // What the account posted to another contest, or to this one before it was made anew, and has no answer to; each
  // with the name under which it is kept.
  keptForOthers() {
    return this.#kept().filter(([name]) => !this.#isOfContest(name));
  }

  // Goes on by another token of the same account.
  goOnBy(text) {
    this.#who = text;
  }
}
