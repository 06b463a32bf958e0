// Clarifications: what teams ask, and what the jury answers, or tells a team, a group or all.

import { clarificationItem } from "../shared/clarification_item.js";
import { isSure } from "../shared/confirmation.js";
import { at, button, byId, element, fill, freeText } from "../shared/elements.js";
import { choice, isWithin, onSubmit } from "../shared/forms.js";
import { tell } from "../shared/messages.js";
import { ABOUT_ALL, nameIn, problemText } from "../shared/settings.js";
import { isSame, Replaced, shownOf } from "../shared/shown.js";

export const ANSWER = {
  name: "answer", buttons: "#answer-button", words: (clarification) => `Sent as ${clarification.id}.`,
  about: ({ value: { reply_to_id: asked } }) => (asked === undefined ? "Your text" : `Your answer to ${asked}`),
  refused: (refusal, { value: { reply_to_id: asked, text } }, { writing }) => {
    if (refusal instanceof Replaced) dropAnswer(writing, asked, refusal.now, text);
  },
};
const TEXT_LIMIT = 4_096;
const ALL = "all", TEAM = "team ", GROUP = "group ";

// What somebody writes, at first: the question that is being answered, or null; to whom the text is written, as it was
// at its first letter; all clarifications that were shown last, by ids; and texts that wait, by the id of the question
// that they answer, each with that question, its addressee and the problem that it is about.
export const newWriting = () => ({ question: null, writtenTo: null, latest: new Map(), drafts: new Map() });

// To whom an answer goes unless somebody chooses another: whoever asked, or heard what is answered.
function addresseeOf(clarification) {
  const { from_team_id: from, to_team_id: team, to_group_id: group } = clarification;
  if (group) return GROUP + group;
  return (from ?? team) === null ? ALL : TEAM + (from ?? team);
}

// Shows the form for an answer to a question, or for a word of the jury's own, with what was written there before.
function show(writing, next) {
  const draft = writing.drafts.get(next?.id);
  fill(at("answer-title"), next === null ? ["Write"] : [`Answer ${next.id}: `, freeText(next.text)]);
  at("answer-to").value = draft?.to ?? (next === null ? ALL : addresseeOf(next));
  at("answer-problem").value = draft?.about ?? next?.problem_id ?? "";
  at("answer-text").value = draft?.text ?? "";
  Object.assign(writing, { question: next, writtenTo: draft?.to ?? null });
  at("answer").scrollIntoView({ block: "nearest" });
}

// A text goes to nobody but whom it was written to: it waits while something else is answered.
function answerTo(writing, next) {
  const { question, writtenTo, drafts } = writing, text = at("answer-text").value;
  const to = writtenTo ?? at("answer-to").value;
  if (text) drafts.set(question?.id, { question, text, to, about: at("answer-problem").value });
  else drafts.delete(question?.id);
  show(writing, next);
}

function clear(writing) {
  for (const id of [writing.question?.id, undefined]) writing.drafts.delete(id);
  show(writing, null);
}

// What was asked under an id isn't asked any more: what stands there now takes its place, or nothing. A text that was
// for it is told, and goes to nobody.
function dropAnswer(writing, id, now, text) {
  writing.drafts.delete(id);
  if (writing.question?.id === id) {
    at("answer-text").blur();
    show(writing, now);
  }
  const written = text === "" ? "Look at it again." : `Nothing was sent of what you wrote: "${text}"`;
  tell(`${id} isn't the question that it was: the desk goes on from an older copy. ${written}`, true);
}

// Drops what was written for questions that aren't there any more, or are other ones now.
function dropReplaced(writing, clarifications) {
  const { question, drafts } = writing;
  const open = question === null ? [] : [{ question, text: at("answer-text").value }];
  const waiting = [...drafts.values()].filter((draft) => draft.question !== null && draft.question.id !== question?.id);
  for (const { question: { id }, question: asked, text } of [...open, ...waiting]) {
    const now = clarifications.find((one) => one.id === id) ?? null;
    if (now === null || !isSame("clarification", now, asked)) dropAnswer(writing, id, now, text);
  }
}

// The newest first; how many questions no shown clarification replies to.
export function showClarifications({ settings, writing }, clarifications) {
  dropReplaced(writing, clarifications);
  writing.latest = byId(clarifications);
  const replied = new Set(clarifications.map((one) => one.reply_to_id));
  const open = clarifications.filter((one) => one.from_team_id !== null && !replied.has(one.id));
  const items = clarifications.map((one) => {
    const reply = button("Answer", () => answerTo(writing, writing.latest.get(one.id)), { "data-answer": one.id });
    const word = open.includes(one) ? [freeText("No answer yet. ")] : [];
    return clarificationItem(settings, one, clarifications, ...word, reply);
  });
  fill(at("clarifications"), items.reverse());
  return open.length;
}

// All, each group and each team.
export function showAnswerChoices({ settings: { teams, groups, problems } }) {
  const named = (kind, rows) => [...rows.values()].map(({ id, name }) => choice({ id: kind + id }, () => name));
  fill(at("answer-to"), [
    choice({ id: ALL }, () => "all"),
    ...(groups.size ? [element("optgroup", { label: "A group" }, ...named(GROUP, groups))] : []),
    element("optgroup", { label: "A team" }, ...named(TEAM, teams)),
  ]);
  fill(at("answer-problem"), [ABOUT_ALL, ...problems.values()].map((problem) => choice(problem, problemText)));
}

function toWhom(to) {
  if (to.startsWith(TEAM)) return { to_team_id: to.slice(TEAM.length) };
  return to.startsWith(GROUP) ? { to_group_id: to.slice(GROUP.length) } : {};
}

function addresseeText(to, { settings: { teams, groups } }) {
  if (to === ALL) return ["all"];
  const [kind, word, rows] = to.startsWith(TEAM) ? [TEAM, "the team ", teams] : [GROUP, "the group ", groups];
  return [word, freeText(nameIn(rows, to.slice(kind.length)))];
}

// Whether a text goes to whom it was written to, or somebody says that it is to go to another.
function isMeant(jury, to) {
  const { writtenTo } = jury.writing;
  if (writtenTo === null || writtenTo === to) return true;
  const [then, now] = [writtenTo, to].map((one) => addresseeText(one, jury));
  return isSure("Send it", "This was written to ", ...then, ". Send it to ", ...now, "?");
}

async function send(jury) {
  const { question: asked } = jury.writing, to = at("answer-to").value, text = at("answer-text").value;
  if (!isWithin(text, TEXT_LIMIT) || !(await isMeant(jury, to))) return;
  const value = { text, ...toWhom(to) };
  if (at("answer-problem").value) value.problem_id = at("answer-problem").value;
  if (asked !== null) value.reply_to_id = asked.id;
  const shown = asked === null ? [] : [shownOf("clarification", `${jury.path}/clarifications/${asked.id}`, asked)];
  const answer = await jury.outbox.post(ANSWER, `${jury.path}/clarifications`, value, { shown });
  if (answer !== null) forgetDraft(jury.writing, asked, text);
  jury.renew();
}

// What is sent waits no longer, also if somebody writes something else by now.
function forgetDraft(writing, asked, text) {
  const { question, drafts } = writing;
  if (drafts.get(asked?.id)?.text === text) drafts.delete(asked?.id);
  if (question?.id === asked?.id && at("answer-text").value === text) show(writing, null);
}

export function beginAnswers(jury) {
  const { writing } = jury;
  at("answer-none").addEventListener("click", () => clear(writing));
  at("answer-text").addEventListener("input", () => {
    if (at("answer-text").value === "") writing.writtenTo = null;
    else writing.writtenTo ??= at("answer-to").value;
  });
  onSubmit("answer", () => send(jury));
}
