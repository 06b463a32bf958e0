// Slips for the teams: the file of accounts is read on this machine, and nothing of it is sent or kept. The names of
// the teams come from the desk.

import { contestHere } from "../shared/contest.js";
import { askAsPublic, persistently } from "../shared/desk.js";
import { at, byId, element, fill, freeText } from "../shared/elements.js";
import { makeHead } from "../shared/head.js";
import { tell } from "../shared/messages.js";
import { recordsOf } from "./csv.js";

const HEADER = "id,role,team_id,token";
const UNREADABLE = "This file can't be read: it has changed since you chose it, or it is gone. Choose it again.";
const NO_TEXT = "This file isn't text in UTF-8. Choose the file from which accounts are imported.";
const NO_ACCOUNTS = `This isn't a file of accounts: its first line has to be ${HEADER}.`;
const WHAT_TO_DO = "Open this address in a browser, type the token, and press \"Sign in\". Your team's name is shown " +
  "then: if it is another, tell us at once. Show the token to nobody.";
const HOW_TO_TYPE = "Digits are underlined. Large and small letters differ. There are no spaces.";

// The token letter by letter: digits are underlined, so that nobody takes 1 for l, or 0 for O.
function tokenElement(token) {
  const pieces = token.match(/\d+|\D+/g) ?? [];
  const parts = pieces.map((piece) => (/\d/.test(piece) ? element("span", { class: "digit" }, piece) : piece));
  return element("p", { class: "token" }, ...parts);
}

function slipOf(team, token) {
  return element(
    "section", { class: "slip", "data-team": team.id },
    element("h2", {}, freeText(team.name)),
    element("p", { class: "address" }, at("address").value),
    tokenElement(token),
    element("p", {}, WHAT_TO_DO),
    element("p", {}, element("small", {}, HOW_TO_TYPE)),
  );
}

// The accounts of a file, each with the number of its record; or null if it isn't such a file.
function accountsIn(text) {
  const [header, ...records] = recordsOf(text);
  if (header?.join(",") !== HEADER) return null;
  return records.map((fields, place) => {
    const [id, role, team, token] = fields;
    return { number: place + 1, isWhole: fields.length === 4, id, role, team, token };
  });
}

// What a director should know of a file: records at fault, accounts that get no slip, teams that have none.
function notesOf(accounts, teams) {
  const isOfTeam = ({ isWhole, role }) => isWhole && role === "team";
  const broken = accounts.filter(({ isWhole }) => !isWhole);
  const unknown = accounts.filter((one) => isOfTeam(one) && !teams.has(one.team));
  const others = accounts.filter((one) => one.isWhole && one.role !== "team");
  const lacking = [...teams.values()].filter(({ id }) => !accounts.some((one) => isOfTeam(one) && one.team === id));
  return [
    ...broken.map(({ number }) => [`Record ${number} hasn't four fields: it gets no slip.`, "bad"]),
    ...unknown.map(({ number, team }) => [`Record ${number}: the desk has no team ${team}. It gets no slip.`, "bad"]),
    ...lacking.map(({ id, name }) => [`${name} (${id}) has no account in this file.`, "bad"]),
    ...(others.length ? [[`No slip for who is no team: ${others.map(({ id }) => id).join(", ")}.`, ""]] : []),
  ];
}

makeHead("away", "told");
// The state of the page: the contest, once the desk has said which it keeps, and the accounts of the file that was read
// last. A file may be chosen before that.
const page = { contest: contestHere(), accounts: [] };

async function show() {
  const { accounts } = page, { path } = await page.contest;
  const teams = byId(await persistently(() => askAsPublic(`${path}/teams`), (refusal) => tell(refusal.message, true)));
  const slips = accounts.filter(({ isWhole, role, team }) => isWhole && role === "team" && teams.has(team));
  fill(at("notes"), notesOf(accounts, teams).map(([text, kind]) => element("li", { class: kind }, freeText(text))));
  fill(at("slips"), slips.map(({ team, token }) => slipOf(teams.get(team), token)));
  at("print").disabled = slips.length === 0;
  tell(`Slips: ${slips.length}.`);
}

// The text of the file that was chosen, or null if there is none, which is told.
async function chosenText() {
  const [file] = at("accounts").files;
  try {
    return new TextDecoder("utf-8", { fatal: true }).decode(await file.arrayBuffer());
  } catch (fault) {
    tell(fault instanceof TypeError ? NO_TEXT : UNREADABLE, true);
    at("accounts").value = "";
    return null;
  }
}

async function takeFile() {
  fill(at("slips"), []);
  fill(at("notes"), []);
  at("print").disabled = true;
  const text = await chosenText();
  if (text === null) return;
  page.accounts = accountsIn(text) ?? [];
  if (page.accounts.length === 0) tell(NO_ACCOUNTS, true);
  else await show();
}

at("address").value = new URL("team.html", location.href).href;
at("accounts").addEventListener("change", takeFile);
at("address").addEventListener("change", () => { if (page.accounts.length > 0) show(); });
at("print").addEventListener("click", () => window.print());
