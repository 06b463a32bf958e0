// What a team sent that the desk hasn't: submissions that were answered and are gone, and posts without an answer to a
// contest that isn't served any more. The team sends them again by its own act.

import { button, freeText } from "../shared/elements.js";
import { showLeft } from "../shared/left.js";
import { labelIn } from "../shared/settings.js";
import { forget } from "../shared/tab_storage.js";
import { shortTime } from "../shared/times.js";
import { forgetGone, goneOf, programOf } from "./own_programs.js";
import { QUESTION, sendQuestion } from "./questions.js";
import { sendSubmission, SUBMISSION } from "./submitting.js";

const OLDER = "It isn't there any more: the desk goes on from an older copy.";
const CHOOSE = "Submit its file once more.";
const NEVER = "It was sent to the contest that was here before, and never answered.";
// By the name of a kind of post, the kind, and what sends what such a post had.
const KINDS = { submission: [SUBMISSION, sendSubmission], question: [QUESTION, sendQuestion] };

function itemOf(name, words, value, { send, drop }) {
  const again = button("Send it again", () => { drop(); send(value); }, { "data-left": "send" });
  const forgets = button("Forget it", drop, { "data-left": "forget" });
  return { name, words, acts: value === null ? [forgets] : [again, forgets] };
}

function goneItem(page, one, show) {
  const value = programOf(page, one), label = freeText(labelIn(page.settings.problems, one.problem_id));
  const time = shortTime(one.contest_time), what = value === null ? CHOOSE : "";
  const words = ["Your submission to problem ", label, ` of ${time}, ${one.id}. ${OLDER} ${what}`];
  const drop = () => { forgetGone(page, one); show(); };
  return itemOf(`${one.id} ${one.time}`, words, value, { send: (again) => sendSubmission(page, again), drop });
}

function otherItem(page, [name, made], show) {
  const time = new Date(made.time).toLocaleTimeString(), [kind, send] = KINDS[made.kind] ?? [];
  const words = [freeText(kind?.about(made, page) ?? "Something"), `, ${time}. ${NEVER}`];
  const drop = () => { forget(name); show(); };
  return itemOf(name, words, made.value, { send: (again) => send(page, again), drop });
}

// Shows all of it.
export function showTeamLeft(page) {
  const show = () => showTeamLeft(page);
  const gone = goneOf(page).map((one) => goneItem(page, one, show));
  const others = page.outbox.keptForOthers().map((one) => otherItem(page, one, show));
  showLeft([...gone, ...others]);
}
