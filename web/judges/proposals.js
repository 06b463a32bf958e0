// What judges propose: whose it is, who has to verify it, and what is told if another's takes its place.

import { tell } from "../shared/messages.js";

export const isMine = (jury, proposal) => proposal !== null && proposal.account_id === jury.account.id;

// Whether a proposal waits for this judge.
export function isToVerify(jury, id) {
  const proposal = jury.waiting.proposalFor(id);
  return proposal !== null && !isMine(jury, proposal);
}

// Takes the last proposals, and tells if another verdict stands now where this judge's stood.
export function takeProposals(jury, rows) {
  for (const { before, now } of jury.waiting.takeProposals(rows)) {
    if (!isMine(jury, before) || isMine(jury, now)) continue;
    const [mine, theirs] = [before, now].map((proposal) => proposal.judgement_type_id);
    if (mine !== theirs) tell(`${now.submission_id}: ${now.account_id} proposed ${theirs} after your ${mine}.`, true);
  }
}
