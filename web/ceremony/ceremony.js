// The ceremony's page. It reads the whole contest once, as the event feed of the desk or of a file, and asks for
// nothing afterwards: a desk that is away in the middle of it stops nothing.

import { beginBanner } from "../shared/banner.js";
import { contestHere } from "../shared/contest.js";
import { ask, askBytes, persistently, Refusal } from "../shared/desk.js";
import { at, element, fill } from "../shared/elements.js";
import { onSubmit } from "../shared/forms.js";
import { makeHead } from "../shared/head.js";
import { followHeadHeight } from "../shared/head_height.js";
import { tell } from "../shared/messages.js";
import { scoredOf } from "../shared/scoring.js";
import { signIn } from "../shared/sign_in.js";
import { keep, recall } from "../shared/tab_storage.js";
import { FeedFault, listsOf } from "./feed.js";
import { BEGINNING, ceremonyOf, heldCount, nextOf, pendingCount } from "./resolving.js";
import { showStep } from "./stage.js";

const KEPT = "ceremony";
const NEXT = [" ", "Enter", "ArrowRight", "PageDown"], BACK = ["Backspace", "ArrowLeft", "PageUp"];
const NOT_ENDED = "The contest hasn't ended. The ceremony is for what comes after it.";
const UNREADABLE = "This file can't be read: it has changed since you chose it, or it is gone. Choose it again.";
const NO_AWARDS = "It has no awards: the jury is shown them once the results are final. Places are shown alone.";
// What is known of a contest whose feed doesn't say where it is.
const ENDED = { started: "", ended: "", frozen: null, thawed: null, end_of_updates: null };

makeHead("clock", "sign-out", "banner", "away", "told");
followHeadHeight();
const showState = beginBanner();
// The state of the page: the path of the contest at the desk, once it was asked; the contest and its ceremony, once a
// feed was read; and all steps up to the one that is shown.
const page = { path: null, contest: null, ceremony: null, steps: [] };

function keepPlace() {
  const { contest, steps } = page;
  keep(KEPT, JSON.stringify({ id: contest.id, start: contest.start_time, count: steps.length - 1 }));
}

// How many steps this tab had shown of the same contest.
function keptCount() {
  const { contest } = page;
  const kept = JSON.parse(recall(KEPT) ?? "null");
  return kept?.id === contest.id && kept.start === contest.start_time ? kept.count : 0;
}

function readyLines(ceremony) {
  const { teams, problems } = ceremony.scored, held = heldCount(ceremony), pending = pendingCount(ceremony);
  const size = `Teams: ${teams.length}. Problems: ${problems.length}.`;
  const lines = [[`${size} Results that the freeze holds back: ${held}.`, ""]];
  if (ceremony.awards.length === 0) lines.push([NO_AWARDS, ""]);
  if (pending > 0) lines.push([`Submissions without a verdict, which they don't get here: ${pending}.`, "bad"]);
  return lines.map(([text, kind]) => element("p", { class: kind }, text));
}

// Shows what a feed has, and whether to begin.
function makeReady(text) {
  const lists = listsOf(text);
  const contest = { ...lists.contest, name: lists.contest.formal_name ?? lists.contest.name };
  const state = lists.state ?? ENDED;
  showState(contest, { state, contest_time: contest.duration });
  if ((state.ended ?? null) === null) throw new FeedFault(NOT_ENDED);
  const ceremony = ceremonyOf(scoredOf(lists), lists.awards);
  Object.assign(page, { contest, ceremony });
  fill(at("facts"), readyLines(ceremony));
  const count = keptCount();
  at("go-on").hidden = count === 0;
  at("go-on").textContent = `Go on after step ${count}`;
  at("ready").hidden = false;
}

// Whatever is wrong with a feed is told in words.
function takeFeed(text) {
  try {
    makeReady(text);
    at("sources").hidden = true;
    at("inside").hidden = false;
  } catch (fault) {
    tell(fault instanceof FeedFault ? fault.message : `This feed can't be scored: ${fault.message}.`, true);
  }
}

async function takeFile() {
  const [file] = at("feed").files;
  const text = await file.text().catch(() => null);
  if (text === null) at("feed").value = "";
  if (text === null) tell(UNREADABLE, true);
  else takeFeed(text);
}

// Goes on or back to so many steps, at once.
function goTo(isEnough) {
  const { ceremony, steps } = page;
  let next = nextOf(ceremony, steps.at(-1));
  while (next !== null && !isEnough()) {
    steps.push(next);
    next = nextOf(ceremony, next);
  }
}

function begin(isEnough) {
  page.steps = [BEGINNING];
  goTo(isEnough);
  tell("");
  document.body.classList.add("on-stage");
  at("ready").hidden = true;
  at("stage").hidden = false;
  showStep(page.ceremony, page.steps.at(-1), null);
  keepPlace();
}

// Whether all places but the first so many are certain, and nothing is held back of them.
function isDownTo(place) {
  const { ceremony, steps } = page, { certain } = steps.at(-1);
  return ceremony.scored.teams.length - certain <= place;
}

function goOn() {
  const { ceremony, steps } = page;
  const next = nextOf(ceremony, steps.at(-1));
  if (next === null) return;
  steps.push(next);
  showStep(ceremony, next, steps.at(-2));
  keepPlace();
}

function goBack() {
  const { ceremony, steps } = page;
  if (steps.length === 1) return;
  const left = steps.pop();
  showStep(ceremony, steps.at(-1), left);
  keepPlace();
}

// A key that is held down is one step, and one on a button is a click of that.
function onKey(event) {
  const isNext = NEXT.includes(event.key), isStep = isNext || BACK.includes(event.key);
  if (at("stage").hidden || !isStep || event.ctrlKey || event.altKey || event.metaKey) return;
  const isClick = event.target instanceof HTMLButtonElement && [" ", "Enter"].includes(event.key);
  if (!isClick || event.repeat) event.preventDefault();
  if (isClick || event.repeat) return;
  if (isNext) goOn();
  else goBack();
}

function beginAsAsked() {
  const place = at("from-place").valueAsNumber;
  begin(() => !(place >= 0) || isDownTo(place));
}

// This page is for the accounts of the jury, and for analysts.
async function check() {
  page.path = (await contestHere()).path;
  const account = await ask(`${page.path}/account`);
  if (account.type === "team") throw new Refusal(403, "RoleForbids");
}

async function readDesk() {
  const bytes = await persistently(() => askBytes(`${page.path}/event-feed`), (refusal) => tell(refusal.message, true));
  tell("");
  takeFeed(new TextDecoder().decode(bytes));
}

at("feed").addEventListener("change", takeFile);
at("next").addEventListener("click", goOn);
at("back").addEventListener("click", goBack);
at("go-on").addEventListener("click", () => begin(() => page.steps.length > keptCount()));
document.addEventListener("keydown", onKey);
onSubmit("begin", beginAsAsked);
signIn(check, readDesk);
