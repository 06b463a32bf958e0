// Finds out who was first where the board alone doesn't tell it: the long lists do. They are asked for seldom, until
// they tell it.

import { askAsPublic, Refusal } from "../shared/desk.js";
import { doubtful, isCertain } from "../shared/firsts.js";

// The long lists are asked for within so many seconds once they are needed, and then so seldom, or twice that: a hall
// of pages behind one address asks for them at different moments.
const LIST_SPREAD = 5;
const LIST_SECONDS = 60;

const nameOf = ({ problem, team, minute }) => `${problem} ${team} ${minute}`;

// The long lists of a contest, or null if they don't come now. Without them the star waits, and the board goes on.
async function listsOf(path) {
  const asked = ["/submissions", "/judgements"].map((name) => askAsPublic(path + name));
  const replies = await Promise.all(asked).catch((refusal) => {
    if (!(refusal instanceof Refusal)) throw refusal;
    return null;
  });
  return replies === null ? null : { submissions: replies[0], judgements: replies[1] };
}

// For the contest of a path.
export class FirstFinder {
  #path;
  #certain = new Set();
  // When the long lists are due, by the page's own clock; null while nothing is wanted of them.
  #due = null;

  constructor(path) {
    this.#path = path;
  }

  // Whether it is found that this one was first.
  isFound(one) {
    return this.#certain.has(nameOf(one));
  }

  #areListsDue() {
    const now = performance.now();
    this.#due ??= now + LIST_SPREAD * 1000 * Math.random();
    if (now < this.#due) return false;
    this.#due = now + LIST_SECONDS * 1000 * (1 + Math.random());
    return true;
  }

  // Looks for those of a board that aren't found yet.
  async find(board) {
    const open = doubtful(board).filter((one) => !this.isFound(one));
    if (open.length === 0) this.#due = null;
    if (open.length === 0 || !this.#areListsDue()) return;
    const lists = await listsOf(this.#path);
    const found = lists === null ? [] : open.filter((one) => isCertain(one, board, lists));
    for (const one of found) this.#certain.add(nameOf(one));
  }
}
