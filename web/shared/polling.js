// Asks for what a page shows, each path as often as timetable.js says, and shows what is known whenever something came.

import { lookForOther } from "./contest.js";
import { ask, pause, Refusal } from "./desk.js";
import { showAway } from "./messages.js";

// A page that nobody looks at asks every so many seconds, so that its title tells what is new.
const HIDDEN = 30;
// What wasn't answered is asked for again after so many seconds, or twice as many.
const AGAIN = 5;

// When it was asked for last, by the page's own clock, and what that makes of its next time.
const NEW = { asked: -Infinity, spread: 1, again: null, isKnown: false };
const HASTE = 10;
// Quick rounds are spread a little; a long list comes every so many seconds as it is said.
const spreadOf = ({ seconds }) => (seconds < HASTE ? 0.9 + 0.2 * Math.random() : 1);

// A pause that ends early if somebody comes to look at the page. One without an end ends so alone.
async function pauseUnlessLookedAt(milliseconds) {
  const over = new AbortController(), { signal } = over;
  const looked = new Promise((go) => document.addEventListener("visibilitychange", go, { signal }));
  await Promise.race([looked, ...(milliseconds === Infinity ? [] : [pause(milliseconds)])]);
  over.abort();
}

// Rounds of asking, one after the other, so nothing older comes after something newer.
class Rounds {
  #contest;
  #show;
  #askNow;
  #whenHidden;
  #known = new Map();
  #last = Promise.resolve();
  #isSoon = false;

  constructor(contest, timetable, show, { askNow = ask, whenHidden = HIDDEN }) {
    [this.#contest, this.#show, this.#askNow, this.#whenHidden] = [contest, show, askNow, whenHidden];
    this.beats = timetable.map((beat) => ({ sooner: beat.seconds, ...beat, ...NEW }));
  }

  // When a beat is due, by the page's own clock.
  #dueAt({ asked, seconds, sooner, spread, again }) {
    const usual = again ?? (this.#isSoon ? sooner : seconds) * spread;
    const after = document.hidden ? Math.max(usual, this.#whenHidden) : usual;
    return after === Infinity ? Infinity : asked + 1000 * after;
  }

  // Asks for these paths, and shows all that is known.
  async #askFor(paths) {
    const pathOf = (path) => (/^(\/|$)/.test(path) ? this.#contest.path + path : path);
    const replies = await Promise.all(paths.map((path) => this.#askNow(pathOf(path))));
    paths.forEach((path, place) => this.#known.set(path, replies[place]));
  }

  // A round of these beats. Nothing is shown before all is known.
  async #round(due) {
    if (due.length === 0) return;
    const beats = this.beats.filter((beat) => due.includes(beat) || !beat.isKnown);
    const asked = performance.now(), paths = beats.flatMap((beat) => beat.paths);
    for (const beat of beats) Object.assign(beat, { asked, spread: spreadOf(beat), again: null });
    try {
      await this.#askFor(paths);
      for (const beat of beats) beat.isKnown = true;
      this.#isSoon = (await this.#show(this.#known, new Set(paths))) === true;
      showAway(null);
    } catch (refusal) {
      if (!(refusal instanceof Refusal)) throw refusal;
      for (const beat of beats) beat.again = AGAIN * (1 + Math.random());
      showAway(refusal);
      lookForOther(this.#contest, refusal);
    }
  }

  #inTurn(choose) {
    const done = this.#last.then(() => this.#round(choose()));
    this.#last = done.catch(() => null);
    return done;
  }

  // What asks at once for the beats that are chosen. Who asks again before a round has begun needs no other one.
  atOnce(choose) {
    let begun = null;
    return () => {
      begun ??= this.#inTurn(() => {
        begun = null;
        return choose();
      });
      return begun;
    };
  }

  async goOn() {
    for (;;) {
      const next = Math.min(...this.beats.map((beat) => this.#dueAt(beat))) - performance.now();
      await pauseUnlessLookedAt(Math.max(next, 0));
      await this.#inTurn(() => this.beats.filter((beat) => this.#dueAt(beat) <= performance.now()));
    }
  }
}

// Begins to ask for what a page of the contest shows, as its part of timetable.js says. `show` is given all that is
// known, by path, and the paths that came just now, and says whether more is wanted sooner. `how` may say how a path is
// asked for (`askNow`), and how often at least while nobody looks at the page (`whenHidden`). Gives what asks at once:
// for all, and for what is quick.
export function beginPolling(contest, timetable, show, how = {}) {
  const rounds = new Rounds(contest, timetable, show, how);
  rounds.goOn();
  return { all: rounds.atOnce(() => rounds.beats), quick: rounds.atOnce(() => rounds.beats.slice(0, 1)) };
}
