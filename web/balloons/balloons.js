// Balloons: each problem that a team solved, with its colour. Without a token the page shows what anybody may know; an
// analyst or the jury chooses whether it goes on in the freeze. What was taken and delivered stays in this browser.

import { beginBanner } from "../shared/banner.js";
import { isSure } from "../shared/confirmation.js";
import { contestHere, isOther, placeOf, takeState } from "../shared/contest.js";
import { ask, askAsPublic } from "../shared/desk.js";
import { at, byId, fill } from "../shared/elements.js";
import { makeHead } from "../shared/head.js";
import { followHeadHeight } from "../shared/head_height.js";
import { tell } from "../shared/messages.js";
import { beginPolling } from "../shared/polling.js";
import { heldInFreeze, heldNever, scoredOf } from "../shared/scoring.js";
import { signIn } from "../shared/sign_in.js";
import { keepHeld, recallHeld } from "../shared/tab_storage.js";
import { listParts } from "../shared/tables.js";
import { TIMETABLE } from "../shared/timetable.js";
import { colourChoice, colourOf } from "./balloon_colours.js";
import { balloonsOf, forgetBalloons, mark } from "./balloon_list.js";
import { balloonRow, DELIVERED, sheetOf } from "./balloon_rows.js";
import { onOtherTabs } from "./browser_storage.js";

const HEADS = ["No.", "Released", "Team", "Problem", "Colour", "", ""];
const TEAMS = "This is a team's token: the page shows what anybody may know.";
const FULL = "There is no room to keep this: what is marked now is lost once the page is loaded anew. Forget the " +
  "list, or use another browser.";
const FORGET = "Forget which balloons were there, taken and delivered? Colours stay. That can't be taken back.";

makeHead("clock", "who", "sign-out", "banner", "away", "told");
followHeadHeight();
const showState = beginBanner();
const here = await contestHere();
// The state of the page: whether who is signed in may see the freeze; the contest and the state of its clock, with the
// desk's time; and the contest as it was scored last, or null.
const page = { isJury: false, contest: null, state: null, now: 0, scored: null };

const view = () => (page.isJury ? `jury-${at("until").value}` : "public");
const untilName = () => `until ${here.id}`;

// How far the list goes, in words.
function rangeWords() {
  const { scored, state, isJury } = page;
  if (scored.freeze === Infinity) return "This contest has no freeze.";
  if (state.thawed !== null && !isJury) return "The freeze is lifted: all is here.";
  if (!isJury) return "What anybody may know: nothing that was sent in from the freeze on.";
  return at("until").value === "end" ? "To the end: nobody outside of the jury may learn of what came in the freeze."
    : "Until the freeze: nothing that was sent in from then on.";
}

function shown() {
  const { scored, state, now } = page;
  const isHeld = view() === "jury-freeze" ? heldInFreeze(scored) : heldNever;
  return balloonsOf(placeOf(here), view(), { scored, isHeld, isThawed: state.thawed !== null, now });
}

function tools() {
  const { contest, scored: { teams, problems } } = page;
  return {
    contest, settings: { teams: byId(teams), list: problems },
    colourOf: (problem) => colourOf(contest.id, problems, problem), mark: setMark, print: printOne,
  };
}

function showList() {
  if (page.scored === null) return;
  at("range").textContent = rangeWords();
  const isOpen = (balloon) => !at("only-open").checked || balloon.mark !== DELIVERED, using = tools();
  const all = shown(), rows = all.filter(isOpen).map((balloon) => balloonRow(balloon, using));
  if (all.some(({ isKept }) => isKept === false)) tell(FULL, true);
  fill(at("balloons"), listParts(HEADS, rows));
}

function show() {
  if (page.scored === null) return;
  showList();
  const { contest: { id }, scored: { problems } } = page;
  fill(at("colours"), problems.map((problem) => colourChoice(id, problems, problem, showList)));
}

// The button that was pressed is another one afterwards, which has the focus then.
function setMark(balloon, word, name) {
  if (!mark(placeOf(here), balloon, word)) tell(FULL, true);
  showList();
  document.querySelector(`[data-balloon="${balloon.team} ${balloon.problem}"] [data-mark="${name}"]`)?.focus();
}

function print(balloons) {
  const using = tools();
  fill(at("sheets"), balloons.map((balloon) => sheetOf(balloon, using)));
  window.print();
}

// A row may stand longer than what was known of its balloon when it was made.
const printOne = ({ number }) => print(shown().filter((balloon) => balloon.number === number));

function printAll() {
  const open = shown().filter((balloon) => balloon.mark === "" && !balloon.isBack);
  if (open.length === 0) tell("Every balloon was taken.");
  else print(open);
}

async function forget() {
  if (!(await isSure("Forget it", FORGET))) return;
  forgetBalloons(placeOf(here));
  show();
}

// The board comes every few seconds, for its clock; the long lists seldom.
function take(known, came) {
  const [contest, board] = ["", "/scoreboard"].map((name) => known.get(name));
  showState(contest, board);
  takeState(here, board.state);
  if (isOther(here, board.state)) return;
  Object.assign(page, { contest, state: board.state, now: Date.parse(board.time) });
  if (!came.has("/submissions")) return;
  const names = ["/judgement-types", "/problems", "/groups", "/teams", "/submissions", "/judgements"];
  const [types, problems, groups, teams, submissions, judgements] = names.map((name) => known.get(name));
  if (page.scored === null) at("until").value = recallHeld(untilName()) ?? "freeze";
  page.scored = scoredOf({ contest, types, problems, groups, teams, submissions, judgements });
  show();
}

// Whose token it is. A team learns no more than anybody here, and stays signed in.
async function check() {
  const account = await ask(`${here.path}/account`);
  page.isJury = account.type !== "team";
  at("who").textContent = `${account.username} (${account.type})`;
}

await signIn(check, () => {
  at("inside").hidden = !page.isJury;
  if (!page.isJury) tell(TEAMS);
});
at("until").addEventListener("change", () => {
  keepHeld(untilName(), at("until").value);
  show();
});
at("only-open").addEventListener("change", showList);
at("print-all").addEventListener("click", printAll);
at("forget").addEventListener("click", forget);
onOtherTabs(show);
beginPolling(here, TIMETABLE.balloons, take, { askNow: page.isJury ? ask : askAsPublic, whenHidden: Infinity });
