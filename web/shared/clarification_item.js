// A clarification, as a team and the jury are shown it.

import { element, freeText } from "./elements.js";
import { labelIn, nameIn } from "./settings.js";
import { shortTime } from "./times.js";

// To whom the jury writes.
function heardText(settings, { to_team_id: team, to_group_id: group }) {
  if (group) return ["the group ", freeText(nameIn(settings.groups, group))];
  return [team === null ? "all" : freeText(nameIn(settings.teams, team))];
}

// From whom, to whom, about what.
function addressText(settings, clarification) {
  const { from_team_id: from, problem_id: problem } = clarification;
  const asks = () => [freeText(nameIn(settings.teams, from)), " asks"];
  const who = from !== null ? asks() : ["The jury to ", ...heardText(settings, clarification)];
  const about = problem === null ? [] : [", about ", freeText(labelIn(settings.problems, problem))];
  return [...who, ...about];
}

// A clarification, above it the question that it answers if that is among those that are shown.
export function clarificationItem(settings, clarification, all, ...more) {
  const asked = all.find((one) => one.id === clarification.reply_to_id);
  const time = shortTime(clarification.contest_time);
  return element(
    "li", { class: clarification.from_team_id === null ? "jury" : "asked", "data-id": clarification.id },
    element("p", { class: "address" }, `${time}  `, ...addressText(settings, clarification)),
    ...(asked ? [element("blockquote", { dir: "auto" }, asked.text)] : []),
    element("p", { class: "text", dir: "auto" }, clarification.text),
    ...more,
  );
}
