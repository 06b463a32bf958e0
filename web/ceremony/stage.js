// What a ceremony shows of a step: the board, whose rows move to their places, and a line on what happened.

import { showBoard } from "../shared/board.js";
import { at, byId, element, fill, freeText } from "../shared/elements.js";
import { firstsScored } from "../shared/firsts.js";
import { labelIn, nameIn } from "../shared/settings.js";
import { awardsOf, heldAt, nextOf, rowsAt } from "./resolving.js";

const MOVE = { duration: 900, easing: "ease-in-out" };
const FLASH = [{ filter: "brightness(2.5)" }, { filter: "none" }];
// So many rows of certain places are seen below the one that is next.
const BELOW = 2;

const tableRows = () => [...at("board").querySelectorAll("tbody tr")];

// Where the row of each team stands on the page.
function placesOf(rows) {
  const shown = tableRows();
  return new Map(shown.map((row, place) => [rows[place].team_id, row.getBoundingClientRect().top + scrollY]));
}

// Scrolls so far that the next row to be shown stands near the bottom.
function scrollToNext(rows, certain) {
  const next = tableRows().at(-1 - Math.min(certain, rows.length - 1));
  if (next === undefined) return;
  const { bottom, height } = next.getBoundingClientRect();
  const room = at("shown").getBoundingClientRect().top - BELOW * height;
  scrollTo({ top: scrollY + bottom - room, behavior: "instant" });
}

// Moves rows to their places, of those that are seen on the way.
function move(rows, before) {
  if (matchMedia("(prefers-reduced-motion: reduce)").matches) return;
  const shown = tableRows(), after = placesOf(rows);
  for (const [place, { team_id: team }] of rows.entries()) {
    const from = before.get(team), to = after.get(team);
    const isSeen = Math.max(from, to) > scrollY && Math.min(from, to) < scrollY + innerHeight;
    if (from === to || !isSeen) continue;
    shown[place].animate([{ transform: `translateY(${from - to}px)` }, { transform: "none" }], MOVE);
  }
}

function cellElement(ceremony, rows, { team, problem }) {
  const row = tableRows()[rows.findIndex((one) => one.team_id === team)];
  const place = ceremony.scored.problems.findIndex(({ id }) => id === problem);
  return row.querySelectorAll("td.cell")[place];
}

// The cell that was revealed stands out, and so does the one that the next step reveals.
function markCells(ceremony, rows, state) {
  const next = nextOf(ceremony, state)?.last;
  if (state.last?.problem) cellElement(ceremony, rows, state.last).classList.add("revealed");
  if (next?.problem) cellElement(ceremony, rows, next).classList.add("next");
}

const rowOf = (rows, team) => rows.find((one) => one.team_id === team);

function revealWords(settings, rows, { team, problem, from }) {
  const { rank, problems } = rowOf(rows, team);
  const { solved } = problems.find((cell) => cell.problem_id === problem);
  const moved = rank === from ? `place ${rank}` : `place ${from} → ${rank}`;
  const label = freeText(labelIn(settings.problems, problem));
  const came = element("b", {}, label, solved ? ": solved" : ": not solved");
  return [came, ", ", moved, " · ", freeText(nameIn(settings.teams, team))];
}

function placeWords(ceremony, settings, rows, team) {
  const won = awardsOf(ceremony, team).flatMap(({ citation }) => [" · ", freeText(citation)]);
  return [element("b", {}, `Place ${rowOf(rows, team).rank}`), " · ", freeText(nameIn(settings.teams, team)), ...won];
}

function showLine(ceremony, settings, rows, last) {
  const isPlace = last !== null && last.problem === null;
  at("shown").className = isPlace ? "certain" : "";
  if (last === null) fill(at("shown"), []);
  else if (isPlace) fill(at("shown"), placeWords(ceremony, settings, rows, last.team));
  else fill(at("shown"), revealWords(settings, rows, last));
}

// Shows a step in the place of another one, or of none.
export function showStep(ceremony, state, earlier) {
  const { scored, awards } = ceremony;
  const rows = rowsAt(ceremony, state);
  const settings = { problems: byId(scored.problems), teams: byId(scored.teams) };
  const places = earlier === null ? new Map() : placesOf(rowsAt(ceremony, earlier));
  // What still moves is where it goes to.
  for (const one of document.getAnimations()) one.finish();
  const isSure = ({ problem }) => firstsScored(scored, problem, heldAt(ceremony, state)).isCertain;
  showBoard(at("board"), settings, { board: { rows }, awards, isSure, team: state.last?.team ?? null });
  for (const row of tableRows().slice(rows.length - state.certain)) row.classList.add("certain");
  markCells(ceremony, rows, state);
  showLine(ceremony, settings, rows, state.last);
  scrollToNext(rows, state.certain);
  if (earlier === null) return;
  move(rows, places);
  if (state.last?.problem) cellElement(ceremony, rows, state.last).animate(FLASH, MOVE);
}
