// What a judge's page knows of the submissions: which of them wait, what is proposed, and which it has shown.

import { byId } from "../shared/elements.js";
import { goneFrom } from "../shared/shown.js";

export class Waiting {
  // The submissions, by their ids; those that were found to be others since the list came; those without a verdict that
  // is known of, the oldest first; the last proposal for each; the verdicts that are known of, null for one of which no
  // more is known; and which submissions this page has shown.
  #known = new Map();
  #replaced = [];
  #waiting = [];
  #proposals = new Map();
  #judged = new Map();
  #looked = new Set();

  all = () => this.#waiting;
  knownOf = (id) => this.#known.get(id) ?? null;
  isJudged = (id) => this.#judged.has(id);
  verdictOf = (id) => this.#judged.get(id) ?? null;
  submissionOf = (id) => this.#waiting.find((one) => one.id === id) ?? null;
  proposalFor = (id) => this.#proposals.get(id) ?? null;
  isLooked = (id) => this.#looked.has(id);

  // A submission has its verdict, of this type if that is known.
  markJudged(id, type) {
    this.#judged.set(id, type ?? this.verdictOf(id));
    this.#waiting = this.#waiting.filter((one) => one.id !== id);
  }

  markLooked(id) {
    this.#looked.add(id);
  }

  // Takes the last proposals. If one is gone, its submission has got a verdict. Gives each that was there and isn't
  // gone, with the one that stands there now.
  takeProposals(rows) {
    const last = new Map(rows.map((proposal) => [proposal.submission_id, proposal]));
    const [gone, staying] = [false, true].map((is) => [...this.#proposals].filter(([id]) => last.has(id) === is));
    for (const [id] of gone) this.markJudged(id, null);
    this.#proposals = last;
    return staying.map(([id, before]) => ({ before, now: last.get(id) }));
  }

  // Takes the long lists. What was known of before and is gone, or is another one now.
  takeLists(submissions, judgements) {
    const gone = [...this.#replaced, ...goneFrom([...this.#known.values()], submissions)];
    for (const { id } of gone) this.#looked.delete(id);
    this.#replaced = [];
    this.#known = byId(submissions);
    this.#judged = new Map(judgements.map(({ submission_id: id, judgement_type_id: type }) => [id, type]));
    this.#waiting = submissions.filter(({ id }) => !this.#judged.has(id));
    return gone;
  }

  // Takes what stands under an id now, or null. Of the submission that stood there before nothing holds any more.
  takeSubmission(id, now) {
    if (this.#known.has(id)) this.#replaced.push(this.#known.get(id));
    if (now === null) this.#known.delete(id);
    else this.#known.set(id, now);
    for (const held of [this.#judged, this.#proposals, this.#looked]) held.delete(id);
    const standing = now === null ? [] : [now];
    this.#waiting = this.#waiting.flatMap((one) => (one.id === id ? standing : [one]));
  }

  // Takes what came of a verdict that this page posted: it is released, or stands as a proposal.
  takeVerdict(reply) {
    const { submission_id: id, judgement_type_id: type, released } = reply;
    if (released === false) this.#proposals.set(id, reply);
    else this.markJudged(id, type);
  }
}
