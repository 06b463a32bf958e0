// A team's page: it submits, reads its verdicts and asks the jury. Its two forms stand in files of their own; this one
// reads the contest and shows what comes.

import { beginBanner } from "../shared/banner.js";
import { showBoard } from "../shared/board.js";
import { clarificationItem } from "../shared/clarification_item.js";
import { contestHere, isOther, takeState } from "../shared/contest.js";
import { ask, Refusal } from "../shared/desk.js";
import { at, fill, freeText } from "../shared/elements.js";
import { isCertain } from "../shared/firsts.js";
import { makeHead } from "../shared/head.js";
import { followHeadHeight } from "../shared/head_height.js";
import { beginPolling } from "../shared/polling.js";
import { Outbox } from "../shared/posts.js";
import { hasTeamsOf, readSettings } from "../shared/settings.js";
import { signIn } from "../shared/sign_in.js";
import { submissionCells, verdictCell, verdictWords } from "../shared/submission_cells.js";
import { listParts, row } from "../shared/tables.js";
import { TIMETABLE } from "../shared/timetable.js";
import { News } from "./news.js";
import { forgetOldest, takeOwn } from "./own_programs.js";
import { beginQuestions, QUESTION, showQuestionChoices } from "./questions.js";
import { beginSubmitting, showSubmitChoices, SUBMISSION } from "./submitting.js";
import { showTeamLeft } from "./team_left.js";

makeHead("clock", "who", "sign-out", "banner", "away", "told", "news");
followHeadHeight();
const showState = beginBanner();
// The state of the page, which each of its parts is handed.
const contest = await contestHere();
const page = {
  // The contest, who is signed in, what sends the posts, and the settings.
  contest, path: contest.path, account: null, outbox: null, settings: null,
  // What was shown last, what of it is new, and what asks the desk anew.
  shown: { clarifications: [], submissions: [], verdicts: new Map(), row: null }, news: null, renew: null,
};

function showSubmissions() {
  const { settings, shown, news } = page;
  const rows = shown.submissions.map((one) => {
    const verdict = shown.verdicts.get(one.id);
    const marks = verdict === undefined ? [] : news.marks(verdict);
    const cell = verdictCell(settings, verdict?.judgement_type_id);
    cell.append(...(marks.length ? [" ", ...marks] : []));
    const about = marks.length ? { class: "new" } : {};
    return row({ "data-id": one.id, ...about }, ...submissionCells(settings, one, false), cell);
  });
  fill(at("submissions"), listParts(["Id", "Time", "Problem", "Language", "Verdict"], rows.reverse()));
}

function showClarifications() {
  const { settings, shown: { clarifications }, news } = page;
  const items = clarifications.map((one) => {
    const marks = news.marks(one);
    const item = clarificationItem(settings, one, clarifications, ...marks);
    item.classList.toggle("new", marks.length > 0);
    return item;
  });
  fill(at("clarifications"), items.reverse());
}

// What the jury wrote and each verdict, with what is told of it.
function takeNews() {
  const { settings, shown, news } = page;
  const words = shown.clarifications.filter((one) => one.from_team_id === null);
  const told = ({ submission_id: id, judgement_type_id: type }) => `${id}: ${verdictWords(settings, type)}`;
  const verdicts = [...shown.verdicts.values()].map((one) => ({ one, text: told(one) }));
  news.take(words.map((one) => ({ one, text: `The jury: ${one.text}` })), verdicts);
}

function showOwn() {
  showSubmissions();
  showClarifications();
}

// Whether lists are wanted sooner: a submission waits for its verdict, or the team's row has changed since they came. A
// hidden team has no row.
function isWaiting(row) {
  const { shown } = page;
  return row === undefined || row !== shown.row || shown.submissions.some((one) => !shown.verdicts.has(one.id));
}

// Takes the long lists, and the row of the team that came with them.
function takeLists(submissions, judgements, row, isOfOther) {
  const { shown } = page;
  // The desk shows the files of a team's own submissions alone.
  shown.submissions = submissions.filter((one) => "files" in one);
  const own = new Set(shown.submissions.map((one) => one.id));
  const verdicts = judgements.filter((one) => own.has(one.submission_id));
  shown.verdicts = new Map(verdicts.map((one) => [one.submission_id, one]));
  shown.row = row;
  if (!isOfOther) takeOwn(page, shown.submissions);
  showTeamLeft(page);
}

async function show(known, came) {
  const names = ["", "/scoreboard", "/clarifications", "/submissions", "/judgements", "/awards"];
  const [found, board, clarifications, submissions, judgements, awards] = names.map((name) => known.get(name));
  showState(found, board);
  takeState(contest, board.state);
  if (!hasTeamsOf(page.settings, board)) await showSettings();
  const { team_id: team } = page.account;
  const isSure = (one) => isCertain(one, board, { submissions, judgements });
  showBoard(at("board"), page.settings, { board, awards, isSure, team });
  page.shown.clarifications = clarifications;
  const row = JSON.stringify(board.rows.find((one) => one.team_id === team)?.problems);
  if (came.has("/submissions")) takeLists(submissions, judgements, row, isOther(contest, board.state));
  takeNews();
  showOwn();
  return isWaiting(row);
}

async function showSettings() {
  page.settings = await readSettings(page.path);
  showSubmitChoices(page);
  showQuestionChoices(page);
}

async function begin() {
  page.outbox = new Outbox(page, () => forgetOldest(page));
  page.news = new News(page.account.id, showOwn);
  page.renew = beginPolling(contest, TIMETABLE.team, show);
  beginSubmitting(page);
  beginQuestions(page);
  if (await page.outbox.sendKept([SUBMISSION, QUESTION])) await page.renew.all();
}

// This page is for the accounts of teams. It says from the first moment whose it is.
async function check() {
  const account = await ask(`${page.path}/account`);
  if (account.type !== "team") throw new Refusal(403, "NoTeam");
  const names = [`teams/${account.team_id}`, "state"];
  const [{ name }, state] = await Promise.all(names.map((one) => ask(`${page.path}/${one}`)));
  page.account = account;
  takeState(contest, state);
  fill(at("who"), [freeText(name)]);
}

signIn(check, begin);
