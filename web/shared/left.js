// What a page had and the desk has no more, or never got: a list above all else, until somebody has read it.

import { at, element, fill } from "./elements.js";

// Each with a name that no other has, its words and its buttons.
export function showLeft(items) {
  const itemOf = ({ name, words, acts }) => element("li", { "data-id": name }, element("p", {}, ...words), ...acts);
  at("left").hidden = items.length === 0;
  fill(at("left-list"), items.map(itemOf));
}
