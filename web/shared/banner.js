// The line above a page's parts that says where the contest is: its name, its clock, and what people should know.

import { at, fill, freeText } from "./elements.js";
import { clockText, secondsOf } from "./times.js";
import { nameTitle } from "./title.js";

const TICK = 500;
const FROZEN = "verdicts since the freeze are shown to their own team and the jury alone.";

// Where the contest is, in a word, and what people should know of it.
function stateWords(state, contest) {
  if (contest.start_time === null) return ["before", "The start isn't set yet."];
  if (state.started === null) return ["before", "The contest hasn't started yet."];
  if (state.end_of_updates !== null) return ["final", "These are the final results."];
  const isFrozen = state.frozen !== null && state.thawed === null;
  const ended = "The contest has ended.";
  if (isFrozen && state.ended !== null) return ["frozen", `${ended} The board is still frozen: ${FROZEN}`];
  if (isFrozen) return ["frozen", `The board is frozen: ${FROZEN}`];
  if (state.ended !== null) return ["ended", `${ended} The results aren't final yet.`];
  return ["running", ""];
}

function showBanner(contest, state) {
  const [kind, words] = stateWords(state, contest);
  fill(at("name"), [freeText(contest.name)]);
  nameTitle(contest.name);
  at("banner").textContent = words;
  at("banner").className = kind;
  at("banner").hidden = words === "";
}

// What the clock says that was told so many seconds of the contest at a moment, by the page's own clock.
function clockWords({ contestTime, since, length }) {
  if (contestTime === null) return "";
  const gone = contestTime + (performance.now() - since) / 1000;
  if (gone < 0) return `starts in ${clockText(gone)}`;
  return gone >= length ? clockText(length) : `${clockText(gone)} of ${clockText(length)}`;
}

// Begins the line, whose clock goes on by itself. Gives what shows a contest in it, and where a board says that it is.
export function beginBanner() {
  let clock = null;
  const tick = () => {
    if (clock !== null) at("clock").textContent = clockWords(clock);
  };
  setInterval(tick, TICK);
  return (contest, board) => {
    showBanner(contest, board.state);
    const contestTime = board.contest_time === null ? null : secondsOf(board.contest_time);
    clock = { contestTime, since: performance.now(), length: secondsOf(contest.duration) };
    tick();
  };
}
