// The submission that a judge looks at, and its verdict, by keys or by buttons. The next one that waits opens by
// itself.

import { ask, askBytes, pause, persistently, Refusal } from "../shared/desk.js";
import { at, element, fill, freeText } from "../shared/elements.js";
import { onSubmit } from "../shared/forms.js";
import { doing, tell } from "../shared/messages.js";
import { labelIn, nameIn } from "../shared/settings.js";
import { isSame, Replaced, shownOf } from "../shared/shown.js";
import { keyOfVerdict, onKeys } from "./keys.js";
import { hideProgram, save, showProgram } from "./program.js";
import { isMine, isToVerify, takeProposals } from "./proposals.js";
import { nextFor, onFilter, showFilters } from "./waiting_filter.js";
import { showWaiting } from "./waiting_list.js";

export const VERDICT = {
  name: "verdict", buttons: "#propose, #verify",
  words: (reply, { path, value: { submission_id: id, judgement_type_id: type } }) =>
    `${id}: ${type} is ${path.endsWith("proposals") ? "proposed" : "verified"}.`,
  about: ({ value: { submission_id: id } }) => id,
  refused: (refusal, { value: { submission_id: id } }, jury) => {
    if (refusal instanceof Replaced) takeReplaced(jury, id, refusal.now);
    else tellBeside(jury, id, refusal.message);
  },
};
const NONE = "Nothing waits for you. The next submission opens by itself.";
const NOT_CHOSEN = "Choose a verdict first, by its key or a click.";
const REPLACED = "This is another submission than the one that was open under this id: the desk goes on from an " +
  "older copy. Nothing that was chosen before counts.";
const GONE = "isn't there any more: the desk goes on from an older copy.";
// So long, in milliseconds, a verdict waits to be told what others propose.
const GLANCE = 2_000;

// What is looked at is `jury.opened`: the submission, its bytes once they are here, and the state of its verdict when
// it was opened. It is null if nothing is; then the next one opens by itself, unless somebody has closed the last one
// (`jury.isClosed`).
const isOpen = ({ opened }, id) => opened?.submission.id === id;
const canJudge = (jury) => jury.account.type !== "analyst";
const proposedBy = (proposal) => (proposal === null ? "" : `${proposal.account_id} ${proposal.judgement_type_id}`);

// Tells something of a submission beside it, if it is the one that is looked at.
function tellBeside(jury, id, text) {
  if (isOpen(jury, id)) at("verdict-told").textContent = text;
}

// Whether a submission has its verdict, and what is proposed for it, in words.
function stateText(jury, id) {
  const { waiting } = jury, proposal = waiting.proposalFor(id), verdict = waiting.verdictOf(id);
  if (waiting.isJudged(id)) return `It has its verdict${verdict === null ? "" : `: ${verdict}`}.`;
  if (proposal === null) return "Nothing is proposed yet.";
  if (isMine(jury, proposal)) return `You proposed ${proposal.judgement_type_id}. Another judge has to verify it.`;
  return `${proposal.account_id} proposes ${proposal.judgement_type_id}.`;
}

// Shows the state, which stands out if it has changed since the submission was opened; and what Enter does.
function showVerdictState(jury) {
  const { submission: { id }, state } = jury.opened;
  const text = stateText(jury, id), isOver = jury.waiting.isJudged(id), place = at("verdict-proposal");
  place.textContent = text;
  place.classList.toggle("changed", text !== state);
  const enters = { propose: !isOver && !isToVerify(jury, id), verify: !isOver && isToVerify(jury, id), next: isOver };
  for (const [name, is] of Object.entries(enters)) at(name).querySelector("[data-enter]").hidden = !is;
}

function close(jury) {
  jury.opened = null;
  at("verdict").hidden = true;
}

const chosen = () => document.querySelector("#verdict-types :checked")?.value ?? null;

function choose(type) {
  for (const choice of document.querySelectorAll("#verdict-types input")) choice.checked = choice.value === type;
}

// The first verdict on a submission, if there is one by now.
const verdictMeanwhile = (jury, id) => ask(`${jury.path}/judgements/${id}.1`).catch((refusal) => {
  if (!(refusal instanceof Refusal)) throw refusal;
  return null;
});

async function noteVerdictMeanwhile(jury, id) {
  const judgement = await verdictMeanwhile(jury, id);
  if (judgement !== null) jury.waiting.markJudged(id, judgement.judgement_type_id);
}

function showHead({ settings }, submission) {
  const label = freeText(labelIn(settings.problems, submission.problem_id));
  const team = freeText(nameIn(settings.teams, submission.team_id));
  const language = freeText(nameIn(settings.languages, submission.language_id));
  fill(at("verdict-title"), [`${submission.id}, problem `, label, ", ", language, ", ", team]);
  const { entry_point: entry } = submission;
  at("verdict-entry").textContent = entry === undefined ? "" : `Entry point ${entry}.`;
}

// Shows a submission, and no verdict: neither the last one that was given nor the one that is proposed is chosen by
// itself.
async function open(jury, submission) {
  const { id } = submission;
  jury.opened = { submission, bytes: null, state: stateText(jury, id) };
  jury.isClosed = false;
  jury.waiting.markLooked(id);
  showHead(jury, submission);
  choose(null);
  hideProgram();
  at("verdict-told").textContent = "";
  at("verdict").hidden = false;
  showVerdictState(jury);
  showList(jury);
  if ([document.body, null].includes(document.activeElement)) at("program").focus({ preventScroll: true });
  const bytes = await doing(() => persistently(() => askBytes(`${jury.path}/submissions/${id}/files`)));
  if (bytes === null || jury.opened?.submission !== submission) return;
  jury.opened.bytes = bytes;
  showProgram(bytes);
}

// What is open isn't what stands under its id now, which opens in its place. What was chosen is dropped.
function openAnew(jury, now) {
  const { id } = jury.opened.submission;
  close(jury);
  if (now === null) {
    tell(`${id} ${GONE}`, true);
    return;
  }
  open(jury, now);
  tellBeside(jury, id, REPLACED);
}

// Takes what stands under an id now, or null, in the place of what this page has shown of it.
function takeReplaced(jury, id, now) {
  jury.waiting.takeSubmission(id, now);
  if (isOpen(jury, id)) openAnew(jury, now);
}

// Goes to a submission because somebody asks for it.
function goTo(jury, submission) {
  tell("");
  document.activeElement?.blur();
  open(jury, submission);
  at("verdict").scrollIntoView({ block: "nearest" });
}

// The list of what waits, with what is open marked in it.
const showList = (jury) => showWaiting(jury, jury.opened?.submission.id ?? null, (id) => lookAt(jury, id));

function lookAt(jury, id) {
  const submission = jury.waiting.submissionOf(id);
  if (submission !== null) goTo(jury, submission);
}

// Opens what waits next for this judge behind the one that was looked at.
function openNext(jury) {
  const next = nextFor(jury, jury.opened?.submission.id ?? null);
  if (next !== null) return goTo(jury, next);
  close(jury);
  showList(jury);
  return tell(NONE);
}

// Whether another judge has proposed something that this one hasn't been shown. What can't be asked now isn't waited
// for: the desk refuses what doesn't fit.
async function isOvertaken(jury, id) {
  const proposed = () => proposedBy(jury.waiting.proposalFor(id)), shown = proposed();
  const asked = ask("jury/proposals").catch(() => null);
  const rows = await Promise.race([asked, pause(GLANCE).then(() => null)]);
  if (rows !== null) takeProposals(jury, rows);
  return isToVerify(jury, id) && proposed() !== shown;
}

function tellOvertaken(jury, id) {
  const { account_id: who, judgement_type_id: type } = jury.waiting.proposalFor(id);
  showVerdictState(jury);
  tellBeside(jury, id, `${who} proposed ${type} meanwhile. Nothing was sent.`);
}

// Proposes or verifies the verdict that is chosen.
async function giveVerdict(jury, step) {
  const { submission } = jury.opened, { id } = submission, type = chosen();
  if (type === null) {
    tellBeside(jury, id, NOT_CHOSEN);
    return;
  }
  tellBeside(jury, id, "");
  if (step === "proposals" && (await isOvertaken(jury, id))) {
    tellOvertaken(jury, id);
    return;
  }
  const shown = [shownOf("submission", `${jury.path}/submissions/${id}`, submission)];
  const value = { submission_id: id, judgement_type_id: type };
  const reply = await jury.outbox.post(VERDICT, `jury/${step}`, value, { shown });
  if (reply !== null) {
    jury.waiting.takeVerdict(reply);
    if (isOpen(jury, id)) goOn(jury);
  }
  // Nobody waits for this: the next verdict may be given meanwhile.
  jury.renewAll();
}

// Goes on to the next one, and leaves what was told of the last one.
function goOn(jury) {
  const told = at("told").textContent;
  openNext(jury);
  tell(jury.opened === null ? `${told} ${NONE}` : told);
}

// Shows what waits anew, and what has changed of the submission that is looked at. If none is, the next one opens.
export async function renewJudging(jury) {
  const id = jury.opened?.submission.id ?? null, now = jury.waiting.knownOf(id);
  if (id !== null && (now === null || !isSame("submission", now, jury.opened.submission))) openAnew(jury, now);
  else if (id !== null && !jury.waiting.isJudged(id)) await noteVerdictMeanwhile(jury, id);
  if (jury.opened !== null) showVerdictState(jury);
  showList(jury);
  if (jury.opened !== null || jury.isClosed || !canJudge(jury) || at("judging").hidden) return;
  const next = nextFor(jury, null);
  if (next !== null) open(jury, next);
}

// A choice for each judgement type, with its key.
function verdictChoice(type, place) {
  const key = keyOfVerdict(place);
  const input = element("input", { type: "radio", name: "verdict", value: type.id });
  const marks = key === null ? [] : [element("kbd", {}, key)];
  return element("label", { "data-verdict": type.id }, input, ...marks, freeText(`${type.id}: ${type.name}`));
}

export function showVerdictChoices(jury) {
  fill(at("verdict-types"), [...jury.settings.types.values()].map(verdictChoice));
  showFilters(jury);
}

function download({ opened }) {
  if (opened?.bytes) save(`${opened.submission.id}.${opened.submission.language_id}`, opened.bytes);
}

function enter(jury) {
  const { id } = jury.opened.submission;
  if (jury.waiting.isJudged(id)) openNext(jury);
  else at("verdict").requestSubmit(at(isToVerify(jury, id) ? "verify" : "propose"));
}

// Closes what is open until somebody looks at another one.
function leave(jury) {
  jury.isClosed = true;
  close(jury);
  showList(jury);
  at("waiting-title").focus();
}

function actionOf(jury, key) {
  const actions = { Enter: enter, Escape: leave, n: openNext, s: download };
  const type = [...jury.settings.types.keys()].find((_, place) => keyOfVerdict(place) === key);
  if (type !== undefined) return () => choose(type);
  return Object.hasOwn(actions, key) ? () => actions[key](jury) : null;
}

export function beginJudging(jury) {
  at("download").addEventListener("click", () => download(jury));
  at("next").addEventListener("click", () => openNext(jury));
  at("leave").addEventListener("click", () => leave(jury));
  const give = (pressed) => giveVerdict(jury, pressed?.value ?? "proposals");
  onSubmit("verdict", give, (text) => tellBeside(jury, jury.opened?.submission.id, text));
  onKeys(() => jury.opened !== null && canJudge(jury) && !at("judging").hidden, (key) => actionOf(jury, key));
  onFilter(() => {
    if (jury.opened === null && nextFor(jury, null) !== null) openNext(jury);
    else showList(jury);
  });
}
