// The file of a submission: its lines with their numbers, and the same bytes to be saved.

import { at, element, fill } from "../shared/elements.js";

const SHOWN = 60_000;
// Marks of the direction of writing, which can make a program look other than it is, by their names in Unicode.
const MARKS = new Map([
  ["\u061c", "ALM"], ["\u200e", "LRM"], ["\u200f", "RLM"], ["\u202a", "LRE"], ["\u202b", "RLE"], ["\u202c", "PDF"],
  ["\u202d", "LRO"], ["\u202e", "RLO"], ["\u2066", "LRI"], ["\u2067", "RLI"], ["\u2068", "FSI"], ["\u2069", "PDI"],
]);
const EACH_MARK = new RegExp(`([${[...MARKS.keys()].join("")}])`);

function linesOf(bytes) {
  if (bytes.includes(0)) return [`${bytes.length} bytes that are no text`];
  const lines = new TextDecoder().decode(bytes.subarray(0, SHOWN)).split(/\r\n|\r|\n/);
  if (lines.at(-1) === "" && lines.length > 1) lines.pop();
  return bytes.length > SHOWN ? [...lines, ".."] : lines;
}

// A line in which each mark of direction is shown by its name and moves nothing.
function lineElement(line) {
  const markOf = (mark) => element("span", { class: "mark", "data-mark": MARKS.get(mark) }, mark);
  const parts = line.split(EACH_MARK).filter((part) => part !== "");
  return element("span", { class: "line" }, ...parts.map((part) => (MARKS.has(part) ? markOf(part) : part)));
}

// Numbers and the names of marks aren't part of the text (jury.css), so whoever copies it copies the file.
export function showProgram(bytes) {
  fill(at("program"), linesOf(bytes).map(lineElement));
  at("program").scrollTo(0, 0);
}

export function hideProgram() {
  fill(at("program"), []);
}

// Saves bytes under a name.
export function save(name, bytes) {
  const link = element("a", { download: name });
  link.href = URL.createObjectURL(new Blob([bytes], { type: "application/octet-stream" }));
  link.click();
  setTimeout(() => URL.revokeObjectURL(link.href), 60_000);
}
