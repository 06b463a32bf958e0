// What the desk refuses, or nginx before it, in words for people: what it was, and what to do. The desk's names are
// those of docs/FORMATS.md, sections 4 and 8.

const TELL = "If it comes again, tell the director.";

const WORDS = {
  AddressForbids: "This isn't taken from the network that you are in. Go to the jury's room.",
  AlreadyReleased: "This submission has its verdict already. A rejudging changes it.",
  Away: "The desk doesn't answer at the moment. This page goes on asking.",
  BodyTooLarge: "This is too large: a file may have 1,048,576 bytes, and all that is sent at once 2,097,152. Send " +
    "less.",
  ClockRefused: "The desk doesn't set the clock so, at this moment. Look at what has come already, at what " +
    "waits for a verdict, and at open rejudgings.",
  Encoding: `The desk can't read what was sent. Load the page anew. ${TELL}`,
  EntryPointMissing: "This language needs an entry point, such as the name of the main class. Type it, and submit " +
    "again.",
  HeadTooLarge: "The desk can't read what was sent: it is too long. Is the token what stands on your slip?",
  InRejudging: "One of these submissions is in another open rejudging. Apply or cancel that one first.",
  KeyReused: "Something else was sent under this key, or stands under this id. Take another id, or another token.",
  Malformed: "The desk can't read this: a text isn't of its form, as an id with a space in it. Look at what you typed.",
  Memory: "The desk has no memory left. This page goes on asking. Tell the director.",
  Method: `The desk doesn't take this. Load the page anew. ${TELL}`,
  NoReply: "The desk doesn't answer at the moment. This page goes on asking.",
  NoTeam: "This account is the jury's. Its page is jury.html.",
  NothingToVerify: "Nothing was proposed for this submission. Propose a verdict.",
  NotFound: "There is no such thing, or it isn't shown to you. Load the page anew.",
  NotOpen: "The contest doesn't take this at this moment. The clock says when it begins and ends.",
  NotTheDesk: "Another server answers in the desk's place, or a portal of the network. This page goes on asking. " +
    TELL,
  OtherContest: "Another contest is served here now, or this one was made anew. This wasn't sent to it. Load the " +
    "page anew.",
  OtherRecord: "Under this id there is something else now than what you were shown. Nothing was sent. Look at it " +
    "again.",
  RejudgingClosed: "This rejudging is applied or cancelled. Open another one.",
  RejudgingIncomplete: "A verdict is missing, or waits for a second judge. Give that first.",
  RoleForbids: "Your account may not do this. Sign in by the account that may.",
  SameJudge: "You proposed this verdict yourself: another judge has to verify it. Go on with the next one.",
  StoreFault: "The desk can't read or write its file. This page goes on asking. Tell the director.",
  TeamLimit: "The limit is reached: the desk takes no more of these. Tell the director.",
  TooManyRequests: "The desk gets too many requests from here. This page tries again by itself.",
  TypeDiffers: "The last proposal names another verdict. Look again: verify that one, or propose yours.",
  UnknownReference: "One of the ids that were given isn't known. Look for one that is mistyped.",
  UnknownToken: "No account has this token. Type the one on your slip, or ask the director whether it was replaced.",
};

// What a page says by itself is in no reply.
const OF_PAGES = ["NoReply", "NoTeam", "NotTheDesk", "OtherContest", "OtherRecord"];
// By these nobody has said that what was asked isn't done: the same has to be asked again.
const WAITS = ["Away", "Memory", "NoReply", "NotTheDesk", "StoreFault", "TooManyRequests"];
// By these nothing that was posted is refused: its account may come by another token, from another place, or find its
// contest again.
const STANDS = [...WAITS, "AddressForbids", "OtherContest", "UnknownToken"];
const TOO_MANY = 429;

// The name of a reply that refuses. The desk's own is JSON which says the status once more; so says nginx in its place.
// All else is of another server, but for what any nginx says while it gets no answer, or too many requests.
export function nameOf(status, reply) {
  const name = reply?.code === status ? reply.message : null;
  if (Object.hasOwn(WORDS, name) && !OF_PAGES.includes(name)) return name;
  if (status === TOO_MANY) return "TooManyRequests";
  return status >= 500 ? "Away" : "NotTheDesk";
}

export const wordsOf = (status, name) => `${WORDS[name]} (${status} ${name})`;
export const isAway = (name) => WAITS.includes(name);
export const isFinal = (name) => !STANDS.includes(name);
