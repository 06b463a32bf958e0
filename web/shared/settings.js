// The contest's settings, each list by the ids of its rows. They are read again once a team is on the board that wasn't
// there before.

import { ask } from "./desk.js";
import { byId } from "./elements.js";

export async function readSettings(path) {
  const names = ["problems", "languages", "teams", "groups", "judgement-types"];
  const lists = await Promise.all(names.map((name) => ask(`${path}/${name}`)));
  const [problems, languages, teams, groups, types] = lists.map(byId);
  return { problems, languages, teams, groups, types };
}

// Whether the settings were read, and have each team of a board.
export function hasTeamsOf(settings, board) {
  return settings !== null && board.rows.every((row) => settings.teams.has(row.team_id));
}

// What a question may be about: a problem, or none.
export const ABOUT_ALL = { id: "", label: "", name: "the contest" };
export const problemText = (problem) => (problem.id ? `${problem.label}: ${problem.name}` : problem.name);

// The name of a row that an id names, as it stands if no row has it.
export const nameIn = (rows, id) => rows.get(id)?.name ?? id;
export const labelIn = (problems, id) => problems.get(id)?.label ?? id;
