// The board for the hall and the public, of what anybody may read. `scoreboard.html#hall` goes down a long board by
// itself; `scoreboard.html?group=north` shows the teams of the group with that id, ranked among each other.

import { beginBanner } from "../shared/banner.js";
import { awardItem, showBoard } from "../shared/board.js";
import { contestHere, isOther, takeState } from "../shared/contest.js";
import { askAsPublic } from "../shared/desk.js";
import { at, byId, element, fill, freeText } from "../shared/elements.js";
import { makeHead } from "../shared/head.js";
import { followHeadHeight } from "../shared/head_height.js";
import { beginPolling } from "../shared/polling.js";
import { TIMETABLE } from "../shared/timetable.js";
import { FirstFinder } from "./first_finder.js";
import { beginGoingDown } from "./hall.js";

makeHead("clock", "banner", "away");
followHeadHeight();
const showState = beginBanner();
const contest = await contestHere(), { path } = contest;
const group = new URLSearchParams(location.search).get("group");
const finder = new FirstFinder(path);

// Links to the whole board and to each group's, but for the one that is shown.
function showGroups(groups) {
  const linkOf = ({ id, name }) => {
    if (id === group) return element("span", { "aria-current": "page" }, freeText(name));
    const query = id === null ? "?" : `?group=${encodeURIComponent(id)}`;
    return element("a", { href: query + location.hash }, freeText(name));
  };
  fill(at("groups"), [{ id: null, name: "All teams" }, ...groups].map(linkOf));
  at("groups").hidden = groups.length === 0;
}

function showAwards(awards, teams) {
  at("awards").hidden = awards.length === 0;
  fill(at("award-list"), awards.map((award) => awardItem(award, teams)));
}

// Nobody may be near the screen of a hall: it goes over to another contest by itself.
function goOver(state) {
  takeState(contest, state);
  if (isOther(contest, state)) location.reload();
}

// All is asked as the public asks it, also in a tab in which somebody is signed in, who stays so: what hangs in a hall
// shows nothing that its team or the jury alone may see.
async function show(known) {
  const names = ["", "/scoreboard", "/problems", "/teams", "/awards", "/groups"];
  const [found, whole, problems, teams, awards, groups] = names.map((name) => known.get(name));
  goOver(whole.state);
  showGroups(groups);
  const board = group === null ? whole : await askAsPublic(`${path}/groups/${encodeURIComponent(group)}/scoreboard`);
  const settings = { problems: byId(problems), teams: byId(teams) };
  showState(found, board);
  finder.find(whole);
  showBoard(at("board"), settings, { board, awards, whole, isSure: (one) => finder.isFound(one) });
  showAwards(awards, settings.teams);
}

beginPolling(contest, TIMETABLE.scoreboard, show, { askNow: askAsPublic, whenHidden: Infinity });
beginGoingDown();
