// The list of what waits for a verdict, as its filters let it through.

import { at, button, fill } from "../shared/elements.js";
import { submissionCells } from "../shared/submission_cells.js";
import { cell, listParts, row } from "../shared/tables.js";
import { passes } from "./waiting_filter.js";

const HEADS = ["Id", "Time", "Team", "Problem", "Language", "Proposed", ""];

function saidOf({ waiting }, id) {
  const proposal = waiting.proposalFor(id);
  if (proposal !== null) return `${proposal.judgement_type_id} by ${proposal.account_id}`;
  return waiting.isLooked(id) ? "looked at" : "";
}

function rowOf(jury, one, { open, look }) {
  const cells = submissionCells(jury.settings, one, true);
  const press = cell({}, button("Look", () => look(one.id), { "data-look": one.id }));
  const isOpen = one.id === open ? { "aria-current": "true" } : {};
  return row({ "data-id": one.id, ...isOpen }, ...cells, cell({}, saidOf(jury, one.id)), press);
}

// Shows the list, with the one that is open marked. Whoever was in a row that is gone goes on in the one at its place.
export function showWaiting(jury, open, look) {
  const place = [...document.querySelectorAll("#waiting [data-look]")].indexOf(document.activeElement);
  const all = jury.waiting.all(), shown = all.filter((one) => passes(jury, one));
  fill(at("waiting"), listParts(HEADS, shown.map((one) => rowOf(jury, one, { open, look }))));
  const more = shown.length === all.length ? "" : ` of ${all.length}`;
  at("waiting-title").textContent = `What waits (${shown.length}${more})`;
  at("tab-Judging").textContent = `Judging (${all.length})`;
  if (place < 0 || document.activeElement !== document.body) return;
  const left = document.querySelectorAll("#waiting [data-look]");
  (left[Math.min(place, left.length - 1)] ?? at("waiting-title")).focus();
}
