// Reads an event feed: what stands at its end, as lists of the Contest API's objects. How events change what stands is
// said in docs/FORMATS.md, section 9; feeds of the Contest API 2020-03, 2022-07 and 2023-06 are read.

const READ = [
  "contest", "judgement-types", "problems", "groups", "teams", "submissions", "judgements", "awards", "state",
];
// Of these there is one object, whatever its name is.
const SINGLE = "state";

// A line can't be read, or all lines say no contest.
export class FeedFault extends Error {}

// The name of an object: its own, else that of its event. None if neither has one.
const nameOf = (event, data) => data?.id ?? event.id ?? null;

const isObject = (value) => typeof value === "object" && value !== null && !Array.isArray(value);

function valueOf(line) {
  const event = JSON.parse(line);
  if (!isObject(event) || typeof event.type !== "string") throw new FeedFault("isn't an event");
  return event;
}

// Takes an object away, or all.
function takeAway(rows, event) {
  const name = nameOf(event, event.data);
  if (name === null) rows.clear();
  else rows.delete(name);
}

// Puts an object in: at the place of the one with its name, or behind all.
function putIn(rows, name, data) {
  if (name === null || !isObject(data)) throw new FeedFault("names no object");
  rows.set(name, data);
}

function change(rows, type, event) {
  const { data } = event;
  if (type === SINGLE) rows.set(SINGLE, data);
  else if (event.op === "delete" || data === null) takeAway(rows, event);
  else if (Array.isArray(data)) {
    rows.clear();
    for (const one of data) putIn(rows, one?.id ?? null, one);
  } else putIn(rows, nameOf(event, data), { ...data, id: nameOf(event, data) });
}

function readLine(line, standing) {
  const event = valueOf(line);
  const type = event.type === "contests" ? "contest" : event.type;
  if (READ.includes(type)) change(standing.get(type), type, event);
}

// What stands at the end of a feed: the contest, its state or null, and each list by its name.
export function listsOf(text) {
  const standing = new Map(READ.map((type) => [type, new Map()]));
  for (const [place, line] of text.split("\n").entries()) {
    try {
      if (line.trim() !== "") readLine(line, standing);
    } catch (fault) {
      throw new FeedFault(`Line ${place + 1} of the feed can't be read: ${fault.message}.`);
    }
  }
  const rowsOf = (type) => [...standing.get(type).values()];
  const [contest] = rowsOf("contest");
  if (contest === undefined) throw new FeedFault("No line of it says a contest: this is no event feed.");
  return {
    contest, state: rowsOf(SINGLE)[0] ?? null, types: rowsOf("judgement-types"), problems: rowsOf("problems"),
    groups: rowsOf("groups"), teams: rowsOf("teams"), submissions: rowsOf("submissions"),
    judgements: rowsOf("judgements"), awards: rowsOf("awards"),
  };
}
