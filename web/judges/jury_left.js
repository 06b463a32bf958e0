// What the jury is told of a desk that goes on from an older copy: which submissions are gone or are others now, and
// which posts of its account were never answered by the contest that was here before.

import { placeOf } from "../shared/contest.js";
import { at, button, freeText } from "../shared/elements.js";
import { showLeft } from "../shared/left.js";
import { labelIn, nameIn } from "../shared/settings.js";
import { briefOf, goneFrom } from "../shared/shown.js";
import { forget, forgetHeld, keepHeld, recallHeld } from "../shared/tab_storage.js";
import { shortTime } from "../shared/times.js";

const SHOWN = 20;
const OLDER = "These submissions are gone, or others have their ids now: the desk goes on from an older copy. Trust " +
  "no id that you wrote down, and look anew at what you have open. ";
const NEVER = "It was sent to the contest that was here before, and never answered.";

const goneName = ({ contest }) => `gone ${placeOf(contest)}`;
const lastName = ({ contest }) => `last ${placeOf(contest)}`;
const listIn = (name) => JSON.parse(recallHeld(name) ?? "[]");

// Takes what is gone of the list of submissions, and the list as it is now. The tab keeps the last one, which an older
// copy hasn't: so a page that is loaded anew learns of it too.
export function takeGone(jury, gone, submissions) {
  const all = gone.length > 0 ? gone : goneFrom(listIn(lastName(jury)), submissions);
  keepHeld(lastName(jury), JSON.stringify(submissions.slice(-1).map(briefOf)));
  if (all.length === 0) return;
  keepHeld(goneName(jury), JSON.stringify([...listIn(goneName(jury)), ...all.map(briefOf)]));
  at("rejudge-ids").value = "";
}

function goneWords({ settings }, { id, contest_time: time, team_id: team, problem_id: problem }, place) {
  const about = [labelIn(settings.problems, problem), ", ", nameIn(settings.teams, team)].map((text) => freeText(text));
  return [place === 0 ? "" : ", ", `${id} (`, ...about, `, ${shortTime(time)})`];
}

function goneItem(jury, again) {
  const all = listIn(goneName(jury)), rest = all.length - SHOWN;
  const drop = () => { forgetHeld(goneName(jury)); again(); };
  const words = [OLDER, ...all.slice(0, SHOWN).flatMap((one, place) => goneWords(jury, one, place))];
  if (rest > 0) words.push(`, and ${rest} more`);
  return { name: "gone", words, acts: [button("I have read it", drop, { "data-left": "gone" })] };
}

function otherItem(jury, [name, made], kinds, again) {
  const time = new Date(made.time).toLocaleTimeString();
  const about = kinds.find((kind) => kind.name === made.kind)?.about(made, jury) ?? "Something";
  const drop = () => { forget(name); again(); };
  const words = [freeText(about), `, ${time}. ${NEVER}`];
  return { name, words, acts: [button("Forget it", drop, { "data-left": "forget" })] };
}

// Shows all of it. `kinds` are the kinds of posts of this page.
export function showJuryLeft(jury, kinds) {
  const again = () => showJuryLeft(jury, kinds);
  const gone = listIn(goneName(jury)).length > 0 ? [goneItem(jury, again)] : [];
  showLeft([...gone, ...jury.outbox.keptForOthers().map((one) => otherItem(jury, one, kinds, again))]);
}
