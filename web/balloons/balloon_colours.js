// The colours of balloons: each problem has one of a palette, by its place among the problems, until somebody takes
// another one in this browser.

import { element } from "../shared/elements.js";
import { keepHere, recallHere } from "./browser_storage.js";

const PALETTE = [
  ["red", "#d32f2f"], ["blue", "#1e63d0"], ["yellow", "#f6d32d"], ["green", "#2e8b3d"], ["orange", "#f08a24"],
  ["purple", "#7b3fb3"], ["white", "#ffffff"], ["black", "#222222"], ["pink", "#f48fb1"], ["light blue", "#7ec8f0"],
  ["gold", "#c9a227"], ["silver", "#b8bcc2"], ["brown", "#7a4a2b"], ["turquoise", "#1aa6a0"], ["lime", "#a4cf3f"],
  ["navy", "#1b2a5c"],
];

const keptUnder = (contest, problem) => `colour ${contest} ${problem}`;

// The name of a problem's colour.
export function colourOf(contest, problems, problem) {
  const place = problems.findIndex(({ id }) => id === problem);
  return recallHere(keptUnder(contest, problem)) ?? PALETTE[place % PALETTE.length][0];
}

// A patch of a colour, beside which its name stands.
export function patch(colour) {
  const made = element("span", { class: "patch", "aria-hidden": "true" });
  made.style.setProperty("background", PALETTE.find(([name]) => name === colour)?.[1] ?? "transparent");
  return made;
}

// A choice of a problem's colour. `show` is called once another one is taken.
export function colourChoice(contest, problems, problem, show) {
  const taken = colourOf(contest, problems, problem.id);
  const options = PALETTE.map(([name]) => element("option", name === taken ? { selected: "" } : {}, name));
  const select = element("select", { "data-colour": problem.id }, ...options);
  select.addEventListener("change", () => {
    keepHere(keptUnder(contest, problem.id), select.value);
    show();
  });
  return element("label", {}, problem.label, select);
}
