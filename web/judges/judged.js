// The submissions that are judged, each of which can be put into a rejudging. They may be ten thousand, so the list is
// made only while somebody looks at it.

import { at, button, byId, fill } from "../shared/elements.js";
import { submissionCells, verdictCell } from "../shared/submission_cells.js";
import { cell, listParts, row } from "../shared/tables.js";

const HEADS = ["Id", "Time", "Team", "Problem", "Language", "Verdict", ""];

// Shows the long lists as they came last, the last verdict first.
export function showJudged(jury) {
  if (jury.lists === null || at("judged").hidden) return;
  const { submissions, judgements } = jury.lists;
  const known = byId(submissions);
  const visible = judgements.filter((judgement) => known.has(judgement.submission_id)).reverse();
  const rows = visible.map(({ submission_id: id, judgement_type_id: type }) => {
    const add = button("Rejudge", () => addToRejudging(id), { "data-rejudge": id });
    const cells = submissionCells(jury.settings, known.get(id), true);
    return row({ "data-id": id }, ...cells, verdictCell(jury.settings, type), cell({}, add));
  });
  fill(at("judgements"), listParts(HEADS, rows));
}

function addToRejudging(id) {
  const ids = at("rejudge-ids");
  if (!ids.value.split(/\s+/).includes(id)) ids.value = `${ids.value} ${id}`.trim();
  at("tab-Rejudgings").click();
}
