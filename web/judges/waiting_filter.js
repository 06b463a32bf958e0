// Which of the submissions that wait a judge wants to see, and which comes next for them.

import { at, fill } from "../shared/elements.js";
import { choice } from "../shared/forms.js";
import { problemText } from "../shared/settings.js";
import { isMine, isToVerify } from "./proposals.js";

const ANY = { id: "" };
const SHOWN = {
  all: () => true,
  verify: isToVerify,
  unseen: ({ waiting }, id) => waiting.proposalFor(id) === null && !waiting.isLooked(id),
};

// Whether a submission is wanted.
export function passes(jury, { id, problem_id: problem, language_id: language }) {
  const [wanted, spoken] = [at("filter-problem").value, at("filter-language").value];
  const isOf = (wanted === "" || wanted === problem) && (spoken === "" || spoken === language);
  return isOf && SHOWN[at("filter-shown").value](jury, id);
}

// The next submission for this judge behind the one that was looked at last, and then from the first on; or null. What
// the judge proposed waits for another one.
export function nextFor(jury, last) {
  const { waiting } = jury, all = waiting.all();
  const place = all.findIndex((one) => one.id === last);
  const turned = [...all.slice(place + 1), ...all.slice(0, place + 1)];
  const isFor = (one) => one.id !== last && !isMine(jury, waiting.proposalFor(one.id)) && passes(jury, one);
  return turned.find(isFor) ?? null;
}

// The choices of the filters.
export function showFilters({ settings: { problems, languages } }) {
  const words = (row, text) => (row === ANY ? "all" : text(row));
  const choices = (rows, text) => [ANY, ...rows.values()].map((row) => choice(row, () => words(row, text)));
  fill(at("filter-problem"), choices(problems, problemText));
  fill(at("filter-language"), choices(languages, ({ name }) => name));
}

// Does something whenever a filter is set to something else.
export function onFilter(action) {
  for (const field of at("filter").querySelectorAll("select")) field.addEventListener("change", action);
  at("filter").addEventListener("submit", (event) => event.preventDefault());
}
