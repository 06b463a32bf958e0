// What is new for a team: words of the jury, and verdicts. Each is marked, and counted in the title of the page, until
// somebody marks it as read. What was read the tab keeps, for the account that read it.

import { at, button, element, fill, freeText } from "../shared/elements.js";
import { tell } from "../shared/messages.js";
import { countTitle } from "../shared/title.js";
import { keepRead, readIn } from "../shared/token.js";

const FULL = "This tab has no room to keep what was read: it is new again once the page is loaded anew.";

// A name that nothing else has, also if a contest is made anew and gives the same ids again.
const nameOf = ({ id, time, end_time: end }) => `${id} ${time ?? end}`;

const buttonsThere = () => [...document.querySelectorAll("[data-read]")];

// The news of an account. `showAgain` shows anew what may be marked.
export class News {
  #account;
  #showAgain;
  // What was read, by names; null until it is known. And all that is new, the newest last.
  #read = null;
  #news = [];

  constructor(account, showAgain) {
    [this.#account, this.#showAgain] = [account, showAgain];
    at("news-look").addEventListener("click", () => this.#look());
  }

  // Takes what the jury wrote, and the verdicts on the team's own submissions, each with a text for it. Who signs in to
  // a tab hasn't read what the jury wrote, but finds the verdicts that are there as they stand.
  take(words, verdicts) {
    this.#read ??= readIn(this.#account) ?? verdicts.map(({ one }) => nameOf(one));
    keepRead(this.#account, this.#read);
    const all = [...words, ...verdicts];
    const named = all.map(({ one, text }) => ({ name: nameOf(one), text, time: one.time ?? one.end_time }));
    this.#news = named.filter(({ name }) => !this.#read.includes(name));
    this.#news.sort((one, other) => Number(one.time > other.time) - Number(one.time < other.time));
    this.#show();
  }

  // What marks something as new, to be put into it; nothing if it is none.
  marks(one) {
    const name = nameOf(one);
    if (!this.#news.some((other) => other.name === name)) return [];
    return [button(`Mark ${one.id} as read`, () => this.#markRead(name), { class: "small", "data-read": name })];
  }

  #show() {
    const last = this.#news.at(-1);
    countTitle(this.#news.length);
    at("news").hidden = last === undefined;
    if (last === undefined) return;
    fill(at("news-words"), [element("strong", {}, `${this.#news.length} new. `), freeText(last.text)]);
  }

  // The newest is looked at first.
  #look() {
    const there = buttonsThere(), last = this.#news.at(-1)?.name;
    const newest = there.find(({ dataset: { read: name } }) => name === last) ?? there[0];
    newest?.scrollIntoView({ block: "center" });
    newest?.focus({ preventScroll: true });
  }

  // Marks one as read, and goes on to the next one if somebody does that by keys.
  #markRead(name) {
    const place = buttonsThere().indexOf(document.activeElement);
    this.#read.push(name);
    if (!keepRead(this.#account, this.#read)) tell(FULL, true);
    this.#news = this.#news.filter((one) => one.name !== name);
    this.#show();
    this.#showAgain();
    if (place >= 0) (buttonsThere()[place] ?? buttonsThere()[0] ?? at("news-rest")).focus();
  }
}
