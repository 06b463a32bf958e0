// What an administrator sets: the start, how long the contest lasts, the thaw and final results.

import { isSure } from "../shared/confirmation.js";
import { ask } from "../shared/desk.js";
import { at, element, fill } from "../shared/elements.js";
import { onSubmit } from "../shared/forms.js";
import { doing } from "../shared/messages.js";
import { clockText, secondsOf } from "../shared/times.js";

export const CLOCK = {
  name: "clock", buttons: "#times button",
  words: (_, { method }) => (method === "PATCH" ? "The clock is set." : "The results are final."),
  about: ({ method }) => (method === "PATCH" ? "The clock" : "Final results"),
};
export const EXTENSION = {
  name: "extension", buttons: "#times button", words: (contest) => `The contest ${endText(contest, contest.duration)}.`,
  about: ({ value: { duration } }) => `A duration of ${duration}`,
};
const MOMENTS = [
  ["started", "Started"], ["frozen", "Frozen"], ["ended", "Ended"], ["finalized", "Final results"],
  ["thawed", "Thawed"], ["end_of_updates", "Nothing changes any more"],
];
const SHORTER = "It can't be made shorter again.";
const FINAL = "Make the results final? That can't be taken back.";

// A moment by this machine's clock, with the name of its time zone at that moment.
const timeText = (time) => new Date(time).toLocaleString(undefined, { dateStyle: "medium", timeStyle: "long" });

// When a contest ends that lasts so long; how long it lasts, if no start is set.
function endText({ start_time: start }, duration) {
  const seconds = secondsOf(duration);
  return start === null ? `lasts ${clockText(seconds)}` : `ends at ${timeText(Date.parse(start) + seconds * 1000)}`;
}

export function showMoments(contest, state) {
  const rows = [["Start that is set", contest.start_time], ["Thaw that is set", contest.scoreboard_thaw_time]];
  const all = [...rows, ...MOMENTS.map(([name, text]) => [text, state[name]])];
  const parts = ([text, time]) => [
    element("dt", {}, text), element("dd", {}, time === null ? "not yet" : timeText(time)),
  ];
  fill(at("moments"), all.flatMap(parts));
}

async function set(jury, member, field) {
  const value = { [member]: new Date(at(field).value).toISOString() };
  await jury.outbox.post(CLOCK, jury.path, value, { method: "PATCH" });
  jury.renew();
}

async function start(jury) {
  const question = `Let the contest begin at ${timeText(at("start-time").value)}? Once it has begun, that can't be ` +
    "taken back.";
  if (await isSure("Set the start", question)) await set(jury, "start_time", "start-time");
}

// Hours and minutes get their seconds: all else goes to the desk as it stands.
const durationOf = (text) => (/^\d+:\d\d$/.test(text) ? `${text}:00` : text);

async function extend(jury) {
  const duration = durationOf(at("extension-duration").value);
  const found = await doing(() => Promise.all([ask(jury.path), ask(`${jury.path}/state`)]));
  if (found === null) return;
  const [contest, { frozen }] = found;
  const stays = frozen === null ? "" : ` The freeze stays at ${timeText(frozen)}.`;
  const question = `Extend the contest? It ${endText(contest, duration)} then.${stays} ${SHORTER}`;
  if (!(await isSure("Extend it", question))) return;
  if ((await jury.outbox.post(EXTENSION, "jury/extension", { duration })) !== null) at("extension").reset();
  jury.renew();
}

async function thaw(jury) {
  const moment = timeText(at("thaw-time").value);
  const question = `Lift the freeze at ${moment}? Everybody sees everything then, and that can't be taken back.`;
  if (await isSure("Set the thaw", question)) await set(jury, "scoreboard_thaw_time", "thaw-time");
}

async function finalize(jury) {
  if (!(await isSure("Make them final", FINAL))) return;
  await jury.outbox.post(CLOCK, "jury/finalize");
  jury.renew();
}

export function beginClock(jury) {
  at("zone").textContent = Intl.DateTimeFormat().resolvedOptions().timeZone;
  onSubmit("start", () => start(jury));
  onSubmit("extension", () => extend(jury));
  onSubmit("thaw", () => thaw(jury));
  onSubmit("finalize", () => finalize(jury));
}
