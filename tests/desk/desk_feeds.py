#!/usr/bin/env -S python3 -B
"""Holds the event feed that `desk feed` prints, and the one that `desk serve` answers, beside what they must be.

    desk_feeds.py [--program PATH] [--made N] [--requests N] [--every N] [--seed N]

N contests (40) come of N requests each (300) that every role makes of `desk serve`, by a seed: submissions, verdicts, rejudgings,
clarifications, late teams, other names, a start, an extension and a thaw that are set, and at last final results where these are
taken. At moments beside the start, the freeze, the end, the thaw and the final results, `desk feed` prints for anyone, for the jury
and for each team what lib/desk_opinion.py says, and so answers `desk serve` each account that has its first token. `desk audit --jury`
of the jury's feed prints the name and the rows of `desk board` for the jury, and beside the jury's scoreboard it finds them the same.
examples/package makes a package of such a contest with an analyst's token, which no command shows in its words, and none where a request
fails. Then come feeds whose output takes so many bytes and no more, other outputs that fail, and what is refused. At the end each Nth
call for memory (7th) of a feed is refused, each alone: the answer is E25, after the front of the feed that was written by then, or the
feed.

Takes faketime, curl, jq and a C compiler. Ends with the line `N passed, M failed`; the exit status is 0 if M is 0.
"""

import json
import os
import shutil
import sys

from lib import clock, demo, desk_opinion, feed_opinion, program
from lib.clock import text_of
from lib.demo import AT_REHEARSAL, START
from lib.desk_opinion import moment
from lib.import_opinion import compact, digest_of
from lib.program import DONE, FAULT, FILE, ROOT, Program, compiled, limited_to, ran, ran_refused, refused, refused_in_turn
from lib.rehearsal import END, FREEZE, contest_of, files_of, sent
from lib.requester import Requester, closing, prolonging
from lib.server import Server
from lib.sqlite import dump

JURY = {"role": "judge", "team": None}
DAY = 44_000_000  # milliseconds that all requests of a contest take
LATEST = START + 72 * 3_600_000  # a start that was set may lie years ahead
NO_ID = "error: '{}' of '--audience' is no team's id\n"
NO_MOMENT = "error: '9:30' of '--at' is no moment, as 2024-03-02T10:30:00Z\n"


def requests_of(chance, contest, count):
    """A moment and a request, again and again: `send` tells the contest after the one before."""
    now = START - 600_000
    for step in range(count):
        now, asked = now + chance.random.randint(0, DAY // count), chance.request(contest)
        if step == count * 6 // 10:
            now, asked = prolonging(chance, contest, now)
        contest = yield now, asked
    for asked in closing(contest):
        yield max([now, *(mark for mark in moments_of(contest) if mark < LATEST)]), asked


def day(desk, number):
    """A folder in which cup.db keeps the rehearsal after a day of requests, and the contest as the second opinion has it then."""
    contest, folder = contest_of(number % 2 == 1), demo.made(desk, files_of(number % 2 == 1))
    server, answered = Server(desk, folder), None
    requests = requests_of(Requester(f"{desk.options.seed}/{number}"), contest, desk.options.requests)
    try:
        while True:
            now, asked = requests.send(answered)
            server.at(text_of(now))
            wanted, contest = answered_to(contest, now, asked)
            given, answered = server.ask(sent(*asked)), contest
            desk.note(given.startswith(b"HTTP/1.1 %s " % wanted.encode()), f"{asked} at {moment(now)}: {given}, wanted {wanted}")
    except StopIteration:
        server.stop()
    return folder, contest


def answered_to(contest, now, asked):
    """The status, and the contest after it."""
    answer, contest = desk_opinion.handled(contest, now, *asked)
    return answer.partition(" ")[0], contest


def moments_of(contest):
    """Moments at which something begins to be shown, each with the one before it."""
    start = START if contest["start"] is None else contest["start"]
    end = start + contest["duration"]
    marks = [mark for mark in (start, end - contest["freeze"], end, contest["thaw"], contest["finalized"]) if mark is not None]
    return sorted({one for mark in marks for one in (mark - 1, mark) if one < LATEST})


def audiences_of(contest):
    """Who may be named, and who that is."""
    teams = [(team["id"], {"role": "team", "team": team["id"]}) for team in contest["teams"]]
    return [("public", None), ("jury", JURY), *teams]


def callers_of(contest):
    """Who may ask: the public, and each account that has the token which it had at first."""
    named = [(f"token-{account['id']}", account) for account in contest["accounts"]]
    return [("public", None), *((token, account) for token, account in named if account["digest"] == digest_of(token.encode()))]


def same_printed(desk, number, folder, contest, now):
    """What `desk feed` prints at a moment."""
    for who, caller in audiences_of(contest):
        words = ("feed", "cup.db", "--audience", who, "--at", moment(now))
        wanted = str(desk_opinion.event_feed(contest, now, caller))
        desk.answers(f"contest {number}, {' '.join(words)}", (0, wanted, ""), folder, *words)


def same_audited(desk, number, folder, contest, now):
    """What `desk audit` reads in the jury's feed: the jury's board, whatever its second line says of the moment."""
    words, what = ("cup.db", "--audience", "jury", "--at", moment(now)), f"contest {number} at {moment(now)}"
    feed, board = desk.run(folder, "feed", *words)[1].encode(), desk.run(folder, "board", *words)
    status, out, err = ran([desk.path, "audit", "--jury"], input=feed)
    desk.same(f"{what}: the audit", (status, without_title(out.decode()), err), (0, without_title(board[1]), b""))
    there = desk_opinion.scoreboard(contest, now, JURY)
    (folder / "board.json").write_text(compact(there), encoding="utf-8")
    given = ran([desk.path, "audit", "--jury", "--against", "board.json"], input=feed, cwd=folder)
    desk.same(f"{what}: the audit beside the scoreboard", given, (0, f"the same: {len(there['rows'])} teams\n".encode(), b""))


def without_title(board):
    """The lines of a board without its second, which says whose it is and when."""
    name, _, *rows = board.split("\n")
    return [name, *rows]


def same_answered(desk, number, server, contest, now):
    """What `desk serve` answers at a moment."""
    server.at(text_of(now))
    for who, caller in callers_of(contest):
        head, _, body = server.ask(sent(who, None, "GET", f"{AT_REHEARSAL}/event-feed", "")).decode().partition("\r\n\r\n")
        wanted = desk_opinion.event_feed(contest, now, caller)
        is_right = head.startswith("HTTP/1.1 200 OK\r\n") and "\r\nContent-Type: application/x-ndjson\r\n" in head and body == wanted
        desk.note(is_right, f"contest {number}, {who} at {moment(now)}: {head!r} {body!r}, wanted {wanted!r}")


def try_made(desk):
    """Made contests, as each who may look is shown them."""

    def one(number):
        folder, contest = day(desk, number)
        for now in moments_of(contest):
            same_printed(desk, number, folder, contest, now)
            same_audited(desk, number, folder, contest, now)
        server = Server(desk, folder)
        for now in moments_of(contest):
            same_answered(desk, number, server, contest, now)
        server.stop()
        shutil.rmtree(folder)
        return contest

    with program.lanes() as pool:
        made = list(pool.map(one, range(desk.options.made)))
    for what in ("submissions", "releases", "clarifications", "rejudgings", "thaw", "finalized"):
        desk.note(any(contest[what] for contest in made) or len(made) < 8, f"no contest has {what}")


def packed(desk, folder, server, token, contest="rehearsal"):
    """What examples/package answers in a folder, and the words of curl, before which another program stands that writes them down."""
    tools = desk.new_folder()
    (tools / "curl").write_text(f'#!/bin/sh\necho "$@" >> {tools}/words\nexec {shutil.which("curl")} "$@"\n', encoding="utf-8")
    (tools / "curl").chmod(0o755)
    words = [ROOT / "examples/package/contest-package", f"127.0.0.1:{server.port}", contest, "package"]
    given = ran(words, cwd=folder, input=token, env={**os.environ, "PATH": f"{tools}:{os.environ['PATH']}"})
    said = tools / "words"
    return given, said.read_text(encoding="utf-8") if said.is_file() else ""


def try_package(desk):
    """A package of a contest, whose files are what is served; and none by a token of a team, of nobody, or of another contest."""
    folder, contest = day(desk, 1)
    server, analyst = Server(desk, folder), next(one for one in contest["accounts"] if one["id"] == "o1")
    server.at(text_of(END))
    wrong = [(token, "rehearsal") for token in (b"", b"token o1\n", b"token-a1\n", b"token-none\n")]
    for token, name in (*wrong, (b"token-o1\n", "other")):
        stand = sorted(folder.iterdir())
        (status, out, err), words = packed(desk, folder, server, token, name)
        is_right = (status, out) == (1, b"") and err != b"" and sorted(folder.iterdir()) == stand
        desk.note(is_right, f"a package by {token!r} of {name}: {status}, {out!r}, {err!r}, {words!r}")
    given, words = packed(desk, folder, server, b"token-o1\n")
    desk.same("a package", given, (0, b"", b""))
    desk.note("event-feed" in words and "token-o1" not in words, f"the words of curl: {words}")
    files = {path.name: path.read_text(encoding="utf-8") for path in (folder / "package").iterdir()}
    served = {kind: desk_opinion.collection(contest, END, kind, analyst) for kind in feed_opinion.TYPES if kind not in feed_opinion.SINGLE}
    served |= {"contest": desk_opinion.contest_object(contest), "state": desk_opinion.state_object(contest, END)}
    served |= {"scoreboard": desk_opinion.scoreboard(contest, END, analyst)}
    desk.same("the feed in it", files.pop("event-feed.ndjson"), str(desk_opinion.event_feed(contest, END, analyst)))
    desk.same("the files in it", {name: json.loads(text) for name, text in files.items()}, {f"{kind}.json": rows for kind, rows in served.items()})
    (status, _, _), _ = packed(desk, folder, server, b"token-o1\n")
    desk.same("a package where one is", status, 1)
    server.stop()


def try_cuts(desk):
    """Feeds whose output fails after so many bytes: in each event, and at each end. The program writes a few bytes to the contest's
    file too, so there are as many as the first event has at least."""
    folder, contest = day(desk, 1)
    words, text = ("feed", "cup.db", "--audience", "jury", "--at", moment(END)), str(desk_opinion.event_feed(contest, END, JURY))
    desk.answers("the first feed", (0, text, ""), folder, *words)
    data = text.encode()
    ends = [at + 1 for at, byte in enumerate(data) if byte == ord("\n")]
    for count in sorted({*ends[:-1], *(end + 9 for end in ends[:-1]), ends[-1] - 1}):
        with open(folder / "out", "wb") as output:
            given = desk.run(folder, *words, stdout=output, preexec_fn=limited_to(count))
        desk.same(f"an output of {count} bytes", (given, (folder / "out").read_bytes()), (FILE, data[:count]))
        desk.answers(f"the feed after {count} bytes", (0, text, ""), folder, *words)


def try_refused(desk):
    """Feeds by the clock; words, files and outputs at fault."""
    folder, contest = demo.made(desk, files_of(False)), contest_of(False)
    then, feed = clock.at(text_of(FREEZE)), str(desk_opinion.event_feed(contest, FREEZE, None))
    calls = [
        ((), then, (0, feed, "")), (("--audience", "public"), then, (0, feed, "")),
        ((), clock.at("1960-01-01 00:00:00"), refused("Clock")), (("--at", moment(FREEZE)), clock.at("1960-01-01 00:00:00"), (0, feed, "")),
        (("--at", "9:30"), (), (2, "", NO_MOMENT)), (("--audience", "public-"), then, (2, "", NO_ID.format("public-"))),
        (("--audience", "T1"), then, (2, "", NO_ID.format("T1"))),
    ]  # fmt: skip
    for words, before, wanted in calls:
        desk.answers(f"feed cup.db {words}", wanted, folder, "feed", "cup.db", *words, before=before)
    for words in (("more",), ("--jury",), ("--group", "north"), ("--format", "csv"), ("--at", moment(END)) * 2):
        status, out, err = desk.run(folder, "feed", "cup.db", *words, before=then)
        desk.same(f"feed cup.db {words}", (status, out, err.startswith("error: ") and words[0] in err), (2, "", True))
    desk.answers("a file that keeps no contest", FAULT, folder, "feed", "none.db", before=then)
    with open("/dev/full", "w", encoding="utf-8") as full:
        desk.answers("an output that is full", FILE, folder, "feed", "cup.db", before=then, stdout=full)
    empty = demo.made(desk, {"init": demo.CONTEST})
    bare = desk_opinion.new_contest({"id": "demo", "name": "Demo Cup", "duration": 18_000_000, "freeze": 3_600_000, "penalty": 20}, None, None, None)
    desk.answers("a contest alone", (0, str(desk_opinion.event_feed(bare, START, None)), ""), empty, "feed", "cup.db", before=then)
    desk.answers("the same contest still", DONE, empty, "init", "cup.db", "init", before=then)


def try_memory(desk):
    """Calls for memory that are refused: the file shows what it did before."""
    folder, _ = day(desk, 1)
    library, words = compiled("refuse_call", desk.folder), ("feed", "cup.db", "--audience", "jury", "--at", moment(END))
    text = desk.run(folder, *words)[1].encode()
    before, contents = dump(folder / "cup.db"), (folder / "cup.db").read_bytes()
    desk.note(text != b"", "a feed with all memory")

    def one(call):
        own = desk.new_folder()
        (own / "cup.db").write_bytes(contents)
        (status, out, err), count = ran_refused([desk.path, *words], library, call, False, cwd=own)
        is_kept = (own / "cup.db").read_bytes() == contents or dump(own / "cup.db") == before
        shutil.rmtree(own)
        is_told = status == 1 and err == b"refused: E25 Memory\n" and text.startswith(out)
        desk.note(((status, out, err) == (0, text, b"") or is_told) and is_kept, f"call {call} refused: {status}, {out!r:.300}, {err!r}")
        return count, is_told

    desk.note(refused_in_turn(one, desk.options.every) > 0, "no call that was refused came to E25")


if __name__ == "__main__":
    PARTS = try_made, try_package, try_cuts, try_refused, try_memory
    sys.exit(program.main(__doc__, Program, PARTS, program="desk", made=40, requests=300, every=7, seed=60))
