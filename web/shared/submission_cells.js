// A submission and its verdict, as a team and the jury are shown them in a row of a table.

import { freeText } from "./elements.js";
import { labelIn, nameIn } from "./settings.js";
import { cell } from "./tables.js";
import { shortTime } from "./times.js";

export function verdictWords(settings, typeId) {
  const type = settings.types.get(typeId);
  return type ? `${type.id}: ${type.name}` : typeId;
}

// A verdict; none is a submission that waits.
export function verdictCell(settings, typeId) {
  if (typeId === undefined || typeId === null) return cell({ class: "pending" }, freeText("waits"));
  const kind = settings.types.get(typeId)?.solved ? "solved" : "tried";
  return cell({ class: kind }, freeText(verdictWords(settings, typeId)));
}

// A submission's cells, with its team if the table has that.
export function submissionCells(settings, submission, hasTeam) {
  const team = cell({ class: "name" }, freeText(nameIn(settings.teams, submission.team_id)));
  return [
    cell({}, submission.id), cell({}, shortTime(submission.contest_time)), ...(hasTeam ? [team] : []),
    cell({}, freeText(labelIn(settings.problems, submission.problem_id))),
    cell({}, freeText(nameIn(settings.languages, submission.language_id))),
  ];
}
