// Parts of tables, each with its role: a narrow screen shows rows as lines, and they are rows also for programs that
// read a page aloud.

import { element } from "./elements.js";

export const columnHead = (text, attributes = {}) =>
  element("th", { role: "columnheader", scope: "col", ...attributes }, text);
export const rowHead = (child, attributes = {}) =>
  element("th", { role: "rowheader", scope: "row", ...attributes }, child);
export const cell = (attributes, ...children) => element("td", { role: "cell", ...attributes }, ...children);
export const row = (attributes, ...cells) => element("tr", { role: "row", ...attributes }, ...cells);

// What a table holds: its head, and its rows.
export function tableParts(heads, rows) {
  const head = element("thead", { role: "rowgroup" }, row({}, ...heads));
  return [head, element("tbody", { role: "rowgroup" }, ...rows)];
}

// The same with heads of one text each.
export const listParts = (texts, rows) => tableParts(texts.map((text) => columnHead(text)), rows);
