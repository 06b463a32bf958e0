// What an administrator does about teams and accounts while the contest goes on: it adds a team, or an account with a
// token that is made here, gives an account a new token, and corrects the name of a team.

import { isSure } from "../shared/confirmation.js";
import { askAs, Refusal } from "../shared/desk.js";
import { at, element, fill, freeText } from "../shared/elements.js";
import { choice, choicesOfNone, onSubmit } from "../shared/forms.js";
import { nameIn } from "../shared/settings.js";
import { keepToken } from "../shared/token.js";

// Nobody confuses two of these letters: 12 of them are 60 bits.
const LETTERS = "abcdefghijkmnpqrstuvwxyz23456789";
const ROLES = [
  { id: "team", name: "a team" }, { id: "judge", name: "a judge" }, { id: "admin", name: "an administrator" },
  { id: "analyst", name: "an analyst, who reads all and does nothing" },
];
const NO_TEAM = { id: "", name: "none" };
const ONCE = "It is shown this once.";

export const TEAM = {
  name: "team", buttons: "#team-button", words: (team) => `${team.name} takes part, as ${team.id}.`,
  about: ({ value: { id } }) => `The team ${id}`,
};
// The desk keeps no token, so it is told here and never again.
export const ACCOUNT = {
  name: "account", buttons: "#account-button",
  words: (account, { value }) => `The token of ${account.id} is ${value.token} . ${ONCE}`,
  about: ({ value: { id } }) => `The account ${id}`,
};
export const TOKEN = {
  name: "token", buttons: "#replace-button",
  words: (account, { value }, jury) =>
    `The new token of ${account.id} is ${value.token} .${forWhom(account, jury)} ${ONCE}`,
  about: ({ value: { account_id: id } }) => `The token of ${id}`,
  otherwise: takenAlready,
  answered: goOnByOwn,
};
export const NAME = {
  name: "name", buttons: "#correct-button", words: (team) => `${team.id} is called ${team.name}.`,
  about: ({ value: { team_id: id } }) => `The name of ${id}`,
};

const isOwn = ({ account_id: id }, jury) => id === jury.account.id;

// Whoever replaces its own token, and loses the reply, is known by the new one alone. The account, if the desk knows it
// by that; else null.
async function takenAlready({ reason }, { value }, jury) {
  if (reason !== "UnknownToken" || !isOwn(value, jury)) return null;
  return askAs(value.token, `${jury.path}/account`).catch((refusal) => {
    if (!(refusal instanceof Refusal)) throw refusal;
    return null;
  });
}

// The page goes on by its account's new token.
function goOnByOwn(_, { value }, jury) {
  if (!isOwn(value, jury)) return;
  keepToken(value.token);
  jury.outbox.goOnBy(value.token);
}

// For whom an account is. The settings may not be read yet when a post of before is answered.
const forWhom = ({ team_id: team }, { settings }) =>
  (team === null ? "" : ` It is for ${nameIn(settings?.teams ?? new Map(), team)}.`);

const newToken = () => Array.from(crypto.getRandomValues(new Uint8Array(12)), (byte) => LETTERS[byte % 32]).join("");

export function showAddingChoices(jury) {
  const rows = [...jury.settings.teams.values()], nameOf = ({ name }) => name;
  fill(at("account-role"), ROLES.map((role) => choice(role, nameOf)));
  fill(at("account-team"), [NO_TEAM, ...rows].map((team) => choice(team, nameOf)));
  choicesOfNone(at("correct-team"), rows, nameOf);
  askForTeam();
}

// An account for a team has one, and no other has.
function askForTeam() {
  const isForTeam = at("account-role").value === "team";
  at("account-team").required = isForTeam;
  at("account-team").disabled = !isForTeam;
}

async function addTeam(jury) {
  const groups = at("team-groups").value.split(/[\s,]+/).filter((id) => id);
  const [id, name] = [at("team-id").value, at("team-name").value];
  const value = { id, name, group_ids: groups, hidden: at("team-hidden").checked };
  if (!(await isSure("Add it", `Add the team ${name}? It can't be taken back.`))) return;
  if ((await jury.outbox.post(TEAM, "jury/teams", value)) === null) return;
  at("team").reset();
  // The next renewal reads the settings again: a hidden team is on no board.
  jury.isBehind = true;
  jury.renew();
}

async function addAccount(jury) {
  const value = { id: at("account-id").value, role: at("account-role").value, token: newToken() };
  const team = value.role === "team" ? at("account-team").value : "";
  if (team !== "") value.team_id = team;
  const whose = team === "" ? "" : ` of ${nameIn(jury.settings.teams, team)}`;
  if (!(await isSure("Add it", `Add the account ${value.id}${whose}? It can't be taken back.`))) return;
  if ((await jury.outbox.post(ACCOUNT, "jury/accounts", value)) === null) return;
  at("account").reset();
  askForTeam();
}

// Whoever replaces its own token writes the new one down first.
async function replaceToken(jury) {
  const value = { account_id: at("replace-account").value, token: newToken() };
  const question = [`Replace the token of ${value.account_id}? The one that it has is unknown from then on.`];
  const own = [" This is your own. Write the new one down first: ", element("b", {}, value.token)];
  if (isOwn(value, jury)) question.push(...own);
  if (!(await isSure("Replace it", ...question))) return;
  if ((await jury.outbox.post(TOKEN, "jury/tokens", value)) !== null) at("replace").reset();
}

async function correctName(jury) {
  const value = { team_id: at("correct-team").value, name: at("correct-name").value };
  const names = [nameIn(jury.settings.teams, value.team_id), value.name].map((name) => freeText(name));
  if (!(await isSure("Correct it", "Call the team ", names[0], " from now on ", names[1], "?"))) return;
  if ((await jury.outbox.post(NAME, "jury/names", value)) === null) return;
  at("correct").reset();
  jury.isBehind = true;
  jury.renew();
}

export function beginAdding(jury) {
  onSubmit("team", () => addTeam(jury));
  onSubmit("account", () => addAccount(jury));
  at("account-role").addEventListener("change", askForTeam);
  onSubmit("replace", () => replaceToken(jury));
  onSubmit("correct", () => correctName(jury));
}
