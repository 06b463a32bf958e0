#!/usr/bin/env -S python3 -B
"""Gives the desk the bytes of requests made from a seed, valid ones and spoiled ones, and holds each reply beside a second opinion.

    wire_random.py [--program PATH] [--desk PATH] [--requests N] [--files N] [--http N] [--seed N]

The program is wire, which serves each connection over a contest in memory by itself. Contests are those of lib/rehearsal.py. Each has
some hundred requests of every route, role and moment, from before the start to beside final results, and one that prolongs it, before
the freeze, in it or after the end; half of them are spoiled by lib/spoiler.py: bytes that are changed, cut or repeated, second
requests that are smuggled in, wrong lengths, odd UTF-8, numbers out of range, JSON that nests too deep, members that stand twice,
files that are none or two, base64 that is off its form, odd heads. The bytes come in pieces, some reads are interrupted, some writers
fail. What goes out, how many bytes are read and what stands after that are those of lib/wire_opinion.py, byte for byte; none is
without a reply that has to have one, and none is 503. N requests (20,000) are asked so. Then N files (10,000) of settings, teams and
accounts are imported, half of them spoiled, and N requests (2,000) are sent to `desk serve` over sockets, on contests in files, at
moments that faketime sets; half-way each server is killed and started again.

Takes faketime. Ends with the line `N passed, M failed`; the exit status is 0 if M is 0.
"""

import collections
import re
import shutil
import signal
import sys

from lib import demo, desk_opinion, program, verdict_file_opinion, wire, wire_opinion
from lib.clock import text_of
from lib.clock_opinion import LAST_MOMENT
from lib.demo import AT_REHEARSAL, REHEARSAL, START
from lib.director import SETTINGS, Director
from lib.rehearsal import ACCOUNTS, END, FREEZE, contest_of, files_of, sent
from lib.rejudger import AT_REJUDGINGS
from lib.requester import Requester, closing, prolonging
from lib.server import Server
from lib.spoiler import Spoiler, can_say
from lib.wire import Streams, Wire

LENGTH = 400  # requests at one contest
FILES = 40  # files at one contest
BATCH = 8  # contests of one script
PIECES = [1, 2, 3, 17, 4_096, 65_536]
IDS = ["AC", "cpp", "north", "a", "t1", "t9", "x", "", "a/b"]
# Moments that are asked for now and then, whatever the time is.
MOMENTS = [0, START - 1, START, FREEZE - 1, FREEZE, END - 1, END, LAST_MOMENT]
# Extensions that must come, by what had come before them: nothing, the freeze, the freeze and the end.
PROLONGED = ["extensions before the freeze", "extensions in the freeze", "extensions after the end"]
READS = ["submissions", "judgements", "clarifications", "scoreboard", "awards", "state", "event-feed", *SETTINGS]


class Asker(Requester, Spoiler, Director):
    """What is asked next, and how it is spoiled."""

    def whole_request(self, contest):
        """One of every route."""
        if self.random.random() < 0.9:
            return self.request(contest)
        who = self.often(f"token-{self.one(ACCOUNTS)[0]}", ["public", "token-none"], 0.7)
        path = f"{AT_REHEARSAL}/{self.one(SETTINGS)}" + self.often("", [f"/{self.one(IDS)}"], 0.5)
        others = ["/contests", AT_REHEARSAL, "/", f"{AT_REHEARSAL}/", "/jury/finalize", AT_REJUDGINGS, "/contests/demo/teams"]
        path = self.often(path, others, 0.8)
        return who, None, self.often("GET", ["HEAD", "POST", "PATCH", "DELETE", "get", "PUT"], 0.7), path, ""

    def connection(self, contest, kinds):
        """The bytes of one request, which may be spoiled."""
        request = self.whole_request(contest)
        data = sent(*request)
        if self.random.random() < 0.5:
            other, way = self.spoiled(data)
            read = wire_opinion.asked(other)[3]
            if isinstance(read, str) or can_say(read[2], read[4]):
                kinds[way] += 1
                return other
        kinds["valid"] += 1
        return data

    def streams(self):
        interrupts, first, apart = self.often(0, [1, 7, 1_000], 0.95), self.one([0, 1, 60, 200]), self.one([0, 1, 2])
        return Streams(self.one(PIECES), interrupts, first, apart)


def at_the_end(contest, now):
    """What a judge reads then, and the public where there is no judge."""
    who, made = "token-j1" if any(one["id"] == "j1" for one in contest["accounts"]) else "public", []
    for path in READS:
        data = sent(who, None, "GET", f"{AT_REHEARSAL}/{path}", "")
        _, status, written, _ = wire_opinion.served(contest, now, data)
        made.append((now, data, Streams(), ("answered", status, 0, written)))
    return made


def connected(chance, contest, now, data, may_break):
    """The streams of a connection, what must come of it (how it ends, a status, how many bytes are left, what goes out), and the
    contest after it. Some writers break, if they may."""
    read, status, written, after = wire_opinion.served(contest, now, data)
    streams, left = chance.streams(), len(data) - read
    if not status or not may_break or chance.random.random() > 0.03:
        return streams, ("answered" if status else "nothing", status, left, written), after
    room, stop = chance.random.randrange(len(written)), chance.one(["fails", "full"])
    interim = len(wire_opinion.INTERIM) if written.startswith(wire_opinion.INTERIM) else 0
    if room < interim or (room == interim > 0 and stop == "fails"):
        left, after = len(data) - len(wire_opinion.head_of(data)), contest
    return streams._replace(room=room, stop=stop), ("write", 0, left, written[:room]), after


def end_of(contest):
    """The end of a contest, unless that is days away."""
    end = (contest["start"] or START) + contest["duration"]
    return end if end < START + 72 * 3_600_000 else END


def extension(contest, now, after):
    """The kind of an extension that a request was, or None."""
    if contest["duration"] == after["duration"]:
        return None
    if contest["start"] is None:
        return "extensions without a start"
    end = contest["start"] + contest["duration"]
    came = [one for one in (end - contest["freeze"], end) if one <= now]
    return PROLONGED[len(came)]


def session(seed, count, moments=()):
    """Connections at one contest, some of them at these moments, each with its moment, its bytes, its streams and what must come of
    it. Also whether another judge verifies verdicts, and how many there were of each kind."""
    chance, kinds, verification = Asker(seed), collections.Counter(), int(seed.rpartition("/")[2]) % 2 == 1
    contest, now, asked, made = contest_of(verification), START - 600_000, [], []
    for number in range(count):
        if number == count * 7 // 10:
            now, asked = max(now, END, end_of(contest)), [sent(*one) for one in closing(contest)]
        if number == count * 6 // 10:
            now, request = prolonging(chance, contest, now)
            asked = [sent(*request)]
        now += chance.random.randint(0, 44_000_000 // count)
        is_odd = bool(moments) and not asked
        at = chance.often(now, [*moments, now - 100_000], 0.93) if is_odd else now
        data = asked.pop(0) if asked else chance.connection(contest, kinds)
        streams, right, after = connected(chance, contest, at, data, is_odd)
        kinds.update(filter(None, [extension(contest, at, after)]))
        contest = after
        made.append((at, data, streams, right))
    kinds["contests with final results"] += contest["finalized"] is not None
    kinds["contests with a thaw"] += contest["thaw"] is not None
    made += at_the_end(contest, now)
    return verification, made, kinds + collections.Counter(f"{right[0]} {right[1]}" for *_, right in made)


def hold(desk, seed, made, given):
    """Holds what came of a session beside what must."""
    connections, ends = given[: len(made)], given[len(made) :]
    for (now, data, _, right), one in zip(made, connections):
        found = (one.how, one.status, one.left, one.written) if isinstance(one, wire.Served) else one
        desk.note(found == right, f"{seed} at {now}: {data!r}: {found}, wanted {right}")
    desk.note(len(connections) == len(made), f"{seed}: {len(connections)} of {len(made)} were answered")
    is_sound = len(ends) == 1 and isinstance(ends[0], wire.Ended) and ends[0].faults == ends[0].refusals == 0
    desk.note(is_sound, f"{seed}: the store ended with {ends}")


def seeds_of(desk, first, counts):
    return [(f"{desk.options.seed}/{number}", count) for number, count in enumerate(counts, first)]


def lengths(whole, length):
    """So many requests or files, as the lengths of sessions."""
    return [length] * (whole // length) + ([whole % length] if whole % length else [])


def batch(desk, seeds):
    """Sessions in one script; how many requests and replies there were of each kind."""
    sessions, scripts = [session(*one, MOMENTS) for one in seeds], []
    for verification, made, _ in sessions:
        scripts.append(wire.begun(verification) + [wire.served(now, data, streams) for now, data, streams, _ in made])
    found, kinds = desk.answers_to([step for script in scripts for step in script]), collections.Counter()
    for (seed, _), (_, made, counted), script in zip(seeds, sessions, scripts):
        given, found = desk.begins(found[: len(script)]), found[len(script) :]
        hold(desk, seed, made, given)
        kinds += counted
    return kinds


def imports(seed, count):
    """Files that are imported before the start, half of them spoiled, each with the line that must come of it; and how many came to
    each line."""
    chance, kinds, made = Asker(seed), collections.Counter(), []
    contest = desk_opinion.new_contest({**REHEARSAL, "verification": False}, START, None, None)
    for _ in range(count):
        kind = chance.one([*SETTINGS, "teams-csv", "accounts-csv"])
        data = chance.file(kind).encode()
        data = chance.spoiled_file(data) if chance.random.random() < 0.5 else data
        line, contest = verdict_file_opinion.imported(contest, wire.MORNING, kind, data)
        made.append((kind, data, None, line))
        kinds[re.sub(r"\d+( |$)", r"n\1", line.replace("added 0", "added none"))] += 1
    return contest, made, kinds


def try_files(desk):
    """So many files, in sessions, each at a contest of its own."""
    seeds, kinds = seeds_of(desk, 2_000_000, lengths(desk.options.files, FILES)), collections.Counter()
    for seed, count in seeds:
        contest, made, counted = imports(seed, count)
        reads = at_the_end(contest, wire.MORNING)
        steps = [wire.begun()[0], *(wire.imported(wire.MORNING, kind, data) for kind, data, _, _ in made)]
        hold(desk, seed, made + reads, desk.answers_to(steps + [wire.served(now, data) for now, data, _, _ in reads]))
        kinds += counted
    show(kinds)


def show(kinds):
    for what, count in sorted(kinds.items()):
        print(f"{count:8}  {what}")


def try_library(desk):
    """So many requests, in sessions, over contests in memory."""
    seeds, kinds = seeds_of(desk, 0, lengths(desk.options.requests, LENGTH)), collections.Counter()
    for at in range(0, len(seeds), BATCH):
        kinds += batch(desk, seeds[at : at + BATCH])
    show(kinds)
    for what in PROLONGED:
        desk.note(kinds[what] > 0 or desk.options.requests < 20_000, f"no {what}")


def try_http(desk):
    """So many requests over sockets, on contests in files; the server of each is killed once, and started again."""
    desk.path, kinds = str(desk.options.desk.resolve()), collections.Counter()
    for seed, count in seeds_of(desk, 1_000_000, lengths(desk.options.http, LENGTH)):
        verification, made, counted = session(seed, count)
        folder = demo.made(desk, files_of(verification))
        server, half = Server(desk, folder), len(made) // 2
        for number, (now, data, _, right) in enumerate(made):
            if number == half:
                server.stop(signal.SIGKILL)
                server = Server(desk, folder)
            server.at(text_of(now))
            given = server.ask(data)
            desk.note(given == right[3], f"{seed} at {now}: {data!r}: {given}, wanted {right}")
        server.stop()
        shutil.rmtree(folder)
        kinds += counted
    show(kinds)


if __name__ == "__main__":
    USUAL = {"program": "wire", "desk": "desk", "requests": 20_000, "files": 10_000, "http": 2_000, "seed": 45}
    sys.exit(program.main(__doc__, Wire, (try_library, try_files, try_http), **USUAL))
