// Asks the desk. The pages hold no rule of a contest: what is allowed, and who sees what, is the desk's to say.

import { isAway, isFinal, nameOf, wordsOf } from "./refusals.js";
import { token } from "./token.js";

// So long, in milliseconds, a page waits for a reply: longer than nginx waits for the queue before a desk, and that for
// the desk. And longer for what it sends, of which a slow link carries so many bytes in one.
const PATIENCE = 75_000;
const SLOW_BYTES = 10;
const AGAIN = 2_000;
// So many bytes the desk takes at once.
const BODY_LIMIT = 2_097_152;

// What was asked isn't done. If `isAway` is true nobody has said so, and the same has to be asked again. If `isFinal`
// is false, what was posted isn't refused for good.
export class Refusal extends Error {
  constructor(status, name) {
    super(wordsOf(status, name));
    Object.assign(this, { reason: name, isAway: isAway(name), isFinal: isFinal(name) });
  }
}

// What the desk answers, read to its end, or a Refusal is thrown. A reply that breaks off is none.
async function answer(path, read, who, { headers = {}, bytes = null, ...how } = {}) {
  const all = { ...headers };
  // A field of a request has no other characters, so this is nobody's token.
  if (/[^\x21-\x7e]/.test(who ?? "")) throw new Refusal(401, "UnknownToken");
  if (who !== null) all.Authorization = `Bearer ${who}`;
  const signal = AbortSignal.timeout(PATIENCE + (bytes?.length ?? 0) / SLOW_BYTES);
  const noReply = () => {
    throw new Refusal(503, "NoReply");
  };
  const sent = { ...how, body: bytes, cache: "no-store", credentials: "omit", signal, headers: all };
  const given = await fetch(path, sent).catch(noReply);
  if (given.ok) return read(given).catch(noReply);
  throw new Refusal(given.status, nameOf(given.status, await given.json().catch(() => null)));
}

const asValue = (given) => given.json();
const asBuffer = (given) => given.arrayBuffer();

export const askAs = (who, path) => answer(path, asValue, who);
export const ask = (path) => askAs(token(), path);
export const askAsPublic = (path) => askAs(null, path);
export const askBytes = async (path) => new Uint8Array(await answer(path, asBuffer, token()));

// Sends what is to be changed, in the name of whose token this is. The desk answers a repeat of a key by its first
// reply. What is larger than the desk takes isn't sent: nginx would refuse that in words of its own.
export async function change(who, { method, path, value, key }) {
  const bytes = new TextEncoder().encode(value === undefined ? "" : JSON.stringify(value));
  if (bytes.length > BODY_LIMIT) throw new Refusal(413, "BodyTooLarge");
  return answer(path, asValue, who, { method, bytes, headers: { "Idempotency-Key": key } });
}

export const pause = (milliseconds) => new Promise((go) => setTimeout(go, milliseconds));

// Does something until it is done or refused, and tells each time why it waits. What is refused is said by the desk,
// unless it is to be something else.
export async function persistently(action, tellWaiting = () => {}, isRefused = (refusal) => !refusal.isAway) {
  for (;;) {
    try {
      return await action();
    } catch (refusal) {
      if (!(refusal instanceof Refusal) || isRefused(refusal)) throw refusal;
      tellWaiting(refusal);
    }
    await pause(AGAIN * (1 + Math.random() / 2));
  }
}
