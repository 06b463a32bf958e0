// The head of a page, behind its title. Until the desk has answered, all of it is empty or hidden, so nobody sees that
// it comes with the scripts, and it stands here once. What has to be seen before scripts come, or if they never do,
// stands in each page: the title, and what is told without JavaScript or to a browser that is too old (too_old.js).

import { at, element } from "./elements.js";

const PARTS = {
  "clock": () => element("p", { id: "clock" }),
  "who": () => element("p", { id: "who" }),
  "sign-out": () => element("button", { id: "sign-out", type: "button", hidden: "" }, "Sign out"),
  "banner": () => element("p", { id: "banner", hidden: "" }),
  "away": () => element("p", { id: "away", class: "bad", hidden: "" }),
  "told": () => element("p", { id: "told", role: "status" }),
};

// Makes the head of these parts, in this order. One that the page has itself goes to its place among them.
export function makeHead(...names) {
  document.querySelector("header").append(...names.map((name) => at(name) ?? PARTS[name]()));
}
