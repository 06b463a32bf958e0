// Rejudgings: opened for a reason, given verdicts, applied as a whole or cancelled.

import { isSure } from "../shared/confirmation.js";
import { at, button, byId, element, fill, freeText } from "../shared/elements.js";
import { isWithin, onSubmit } from "../shared/forms.js";
import { tell } from "../shared/messages.js";
import { Replaced, shownOf } from "../shared/shown.js";

export const REJUDGING = {
  name: "rejudging", buttons: "#rejudging button", words: wordsOf,
  about: ({ path, value }) => (path === OPENING ? value.submission_ids.join(" ") : `Rejudging ${path.split("/")[2]}`),
  refused: (refusal, { value }, jury) => {
    const isOfMember = refusal instanceof Replaced && refusal.path.includes("/submissions/");
    if (isOfMember) jury.waiting.takeSubmission(value.submission_id, refusal.now);
  },
};
const NAME_LIMIT = 200;
const OPENING = "jury/rejudgings";
const UNKNOWN = "The list of submissions hasn't this one yet. Look again in a moment.";

// What is told once a step is done: of a verdict, of the opening, or of how the rejudging ended.
function wordsOf(rejudging, { path, value }) {
  const which = `Rejudging ${rejudging.id}`;
  if (path === OPENING) return `${which} is open.`;
  return path.endsWith("/verdicts") ? `${which}: ${value.judgement_type_id} for ${value.submission_id}.`
    : `${which} is ${rejudging.state}.`;
}

// Posts to a rejudging, which has to be the one that is shown.
function doNow(jury, id, step, value, shown = []) {
  const path = `${OPENING}/${id}`, all = [shownOf("rejudging", path, jury.rejudgings.get(id)), ...shown];
  return jury.outbox.post(REJUDGING, `${path}/${step}`, value, { shown: all }).then(jury.renewAll);
}

// Gives a member its verdict. The list that has the member says what stands under its id.
function give(jury, rejudging, id, type) {
  const submission = jury.waiting.knownOf(id);
  if (submission === null) {
    tell(UNKNOWN, true);
    return jury.renewAll();
  }
  const shown = [shownOf("submission", `${jury.path}/submissions/${id}`, submission)];
  return doNow(jury, rejudging, "verdicts", { submission_id: id, judgement_type_id: type }, shown);
}

// A member, and a choice of its verdict while the rejudging is open.
function memberItem(jury, rejudging, member) {
  const { submission_id: id, judgement_type_id: given, ready } = member;
  const said = given === null ? "no verdict yet" : `${given}${ready ? "" : ", to be verified"}`;
  const line = element("li", { "data-member": id }, `${id}: ${said} `);
  if (rejudging.state !== "open") return line;
  const giveIt = (type) => give(jury, rejudging.id, id, type);
  const buttonOf = (type) => button(type, () => giveIt(type), { class: "small", "data-type": type });
  line.append(...[...jury.settings.types.keys()].map(buttonOf));
  return line;
}

async function apply(jury, { id, members }) {
  const question = `Apply rejudging ${id}? Its ${members.length} new verdicts count from then on.`;
  if (await isSure("Apply all", question)) await doNow(jury, id, "apply");
}

async function cancel(jury, { id }) {
  const question = `Cancel rejudging ${id}? Its verdicts count for nothing then, and that can't be taken back.`;
  if (await isSure("Cancel the rejudging", question)) await doNow(jury, id, "cancel");
}

function rejudgingItem(jury, rejudging) {
  const { id } = rejudging;
  const steps = () => [
    button("Apply all", () => apply(jury, jury.rejudgings.get(id)), { "data-step": "apply" }),
    button("Cancel", () => cancel(jury, jury.rejudgings.get(id)), { "data-step": "cancel" }),
  ];
  return element(
    "li", { "data-id": id, class: rejudging.state },
    element("p", { class: "address" }, `Rejudging ${id}, ${rejudging.state}: `, freeText(rejudging.reason)),
    element("ul", {}, ...rejudging.members.map((member) => memberItem(jury, rejudging, member))),
    ...(rejudging.state === "open" ? steps() : []),
  );
}

// Shows the rejudgings, which are what was shown last from then on.
export function showRejudgings(jury, rejudgings) {
  jury.rejudgings = byId(rejudgings);
  fill(at("rejudgings"), rejudgings.map((rejudging) => rejudgingItem(jury, rejudging)).reverse());
}

async function open(jury) {
  const reason = at("rejudge-reason").value;
  if (!isWithin(reason, NAME_LIMIT)) return;
  const ids = at("rejudge-ids").value.split(/[\s,]+/).filter((id) => id);
  const rejudging = await jury.outbox.post(REJUDGING, OPENING, { reason, submission_ids: ids });
  if (rejudging !== null) at("rejudge").reset();
  jury.renew();
}

export function beginRejudgings(jury) {
  onSubmit("rejudge", () => open(jury));
}
