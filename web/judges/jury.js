// The jury's page. What each part of it does stands in a file of its own; this one reads the contest and shows the
// parts.

import { beginBanner } from "../shared/banner.js";
import { awardItem, showBoard } from "../shared/board.js";
import { contestHere, isOther, takeState } from "../shared/contest.js";
import { ask, Refusal } from "../shared/desk.js";
import { at, button, fill } from "../shared/elements.js";
import { isCertain } from "../shared/firsts.js";
import { makeHead } from "../shared/head.js";
import { followHeadHeight } from "../shared/head_height.js";
import { beginPolling } from "../shared/polling.js";
import { Outbox } from "../shared/posts.js";
import { hasTeamsOf, readSettings } from "../shared/settings.js";
import { signIn } from "../shared/sign_in.js";
import { TIMETABLE } from "../shared/timetable.js";
import { ACCOUNT, beginAdding, NAME, showAddingChoices, TEAM, TOKEN } from "./adding.js";
import { ANSWER, beginAnswers, newWriting, showAnswerChoices, showClarifications } from "./answers.js";
import { beginClock, CLOCK, EXTENSION, showMoments } from "./clock.js";
import { beginCopies } from "./copies.js";
import { showJudged } from "./judged.js";
import { beginJudging, renewJudging, showVerdictChoices, VERDICT } from "./judging.js";
import { showJuryLeft, takeGone } from "./jury_left.js";
import { takeProposals } from "./proposals.js";
import { beginRejudgings, REJUDGING, showRejudgings } from "./rejudgings.js";
import { Waiting } from "./waiting.js";

const KINDS = [ANSWER, VERDICT, REJUDGING, CLOCK, EXTENSION, TEAM, ACCOUNT, TOKEN, NAME];

makeHead("clock", "who", "sign-out", "banner", "away", "copied", "told");
followHeadHeight();
const showState = beginBanner();
// The state of the page, which each of its parts is handed.
const contest = await contestHere();
const jury = {
  // The contest, who is signed in, and what sends the posts.
  contest, path: contest.path, account: null, outbox: null,
  // The settings, and whether they are to be read again.
  settings: null, isBehind: false,
  // What is known of the submissions; which one is open (judging.js); the long lists, as they came last.
  waiting: new Waiting(), opened: null, isClosed: false, lists: null,
  // What is written (answers.js), and the rejudgings that were shown last, by ids.
  writing: newWriting(), rejudgings: new Map(),
  // What asks the desk anew: for what is quick, and for all; and what shows the age of copies.
  renew: null, renewAll: null, showCopies: null,
};

function showTabs() {
  const sections = [...document.querySelectorAll("section[data-tab]")];
  const show = (name) => {
    for (const section of sections) section.hidden = section.dataset.tab !== name;
    for (const tab of at("tabs").children) tab.setAttribute("aria-pressed", tab.textContent.startsWith(name));
    showJudged(jury);
  };
  const tabOf = ({ dataset: { tab } }) => button(tab, () => show(tab), { id: `tab-${tab}` });
  fill(at("tabs"), sections.map(tabOf));
  show(sections[0].dataset.tab);
}

async function showSettings() {
  jury.settings = await readSettings(jury.path);
  jury.isBehind = false;
  showVerdictChoices(jury);
  showAnswerChoices(jury);
  showAddingChoices(jury);
}

// Shows what is known, and the long lists if they have just come.
async function show(known, came) {
  const names = ["", "/state", "/scoreboard", "/clarifications", "/awards", "jury/proposals", "jury/rejudgings"];
  const [found, state, board, clarifications, awards, proposals, rejudgings] = names.map((name) => known.get(name));
  if (jury.isBehind || !hasTeamsOf(jury.settings, board)) await showSettings();
  showState(found, board);
  takeState(jury.contest, state);
  const [submissions, judgements] = ["/submissions", "/judgements"].map((name) => known.get(name));
  const isSure = (one) => isCertain(one, board, { submissions, judgements });
  showBoard(at("board"), jury.settings, { board, awards, isSure });
  fill(at("award-list"), awards.map((award) => awardItem(award, jury.settings.teams)));
  if (came.has("/submissions")) {
    const gone = jury.waiting.takeLists(submissions, judgements);
    if (!isOther(jury.contest, state)) takeGone(jury, gone, submissions);
    showJuryLeft(jury, KINDS);
    jury.lists = { submissions, judgements };
    showJudged(jury);
  }
  takeProposals(jury, proposals);
  await renewJudging(jury);
  const unanswered = showClarifications(jury, clarifications);
  showRejudgings(jury, rejudgings);
  showMoments(found, state);
  jury.showCopies(board.time);
  at("tab-Questions").textContent = `Questions (${unanswered})`;
}

async function begin() {
  jury.outbox = new Outbox(jury);
  showTabs();
  beginJudging(jury);
  beginAnswers(jury);
  beginRejudgings(jury);
  beginClock(jury);
  beginAdding(jury);
  jury.showCopies = beginCopies();
  const { all, quick } = beginPolling(contest, TIMETABLE.jury, show);
  [jury.renewAll, jury.renew] = [all, quick];
  if (await jury.outbox.sendKept(KINDS)) await all();
}

// This page is for the accounts of the jury. What an analyst may not do isn't shown (desk.css).
async function check() {
  const [account, state] = await Promise.all(["/account", "/state"].map((name) => ask(jury.path + name)));
  if (account.type === "team") throw new Refusal(403, "RoleForbids");
  jury.account = account;
  takeState(contest, state);
  at("who").textContent = `${account.username} (${account.type})`;
  document.body.dataset.account = account.type;
}

signIn(check, begin);
