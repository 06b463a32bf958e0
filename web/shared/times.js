// Times of a contest, as `3:02:45.000`: read, and written for people.

const RELTIME = /^(-?)(\d+):(\d\d):(\d\d)(?:\.(\d\d\d))?$/;
export const MINUTE = 60_000;

// The milliseconds of a relative time.
export function millisecondsOf(text) {
  const found = RELTIME.exec(text);
  if (found === null) throw new Error(`"${text}" is no time of a contest`);
  const [, sign, hours, minutes, seconds, more = "0"] = found;
  const time = ((Number(hours) * 60 + Number(minutes)) * 60 + Number(seconds)) * 1000 + Number(more);
  return sign === "-" ? -time : time;
}

// The whole seconds of it.
export const secondsOf = (text) => Math.trunc(millisecondsOf(text) / 1000);

// The minute that it is in, such as 182 of `3:02:45.000`.
export const minuteOf = (text) => Math.floor(millisecondsOf(text) / MINUTE);

// Seconds as `3:02:45`, whichever sign they have.
export function clockText(seconds) {
  const whole = Math.floor(Math.abs(seconds));
  const two = (number) => String(number).padStart(2, "0");
  return `${Math.floor(whole / 3600)}:${two(Math.floor(whole / 60) % 60)}:${two(whole % 60)}`;
}

// A time without its milliseconds.
export const shortTime = (text) => text.replace(/\.\d+$/, "");
