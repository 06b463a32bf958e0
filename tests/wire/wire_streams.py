#!/usr/bin/env -S python3 -B
"""Gives the desk requests in pieces, cut, interrupted and over streams that fail, each at each byte.

    wire_streams.py [--program PATH]

The program is wire, which serves each connection over a contest in memory by itself; the contest is that of lib/rehearsal.py.

- A post in pieces of 1, 2, 3, 17 and 4,096 bytes, with a second request behind it: the same reply, and the second is never read. A
  reader that fills what it is asked for is asked at most h + 2 times for a head of h bytes and a body of 131,072 bytes, and once more
  for each 65,536 bytes more.
- A post, sent at once or after the interim reply, cut after each byte. Reads that are interrupted 1,000 times, and once more, at
  many bytes, and spread over head and body. A reader that fails at each byte, and a writer that fails or takes nothing at each byte:
  what went out is a front of the replies, and what was asked for stands unless the interim reply broke off. The same of a rejudging
  that is applied and of a clarification.

What stands is asked by a judge, of all lists, after each. Ends with the line `N passed, M failed`; the exit status is 0 if M is 0.
"""

import itertools
import sys

from lib import program, wire, wire_opinion
from lib.clarifier import AT_ALL
from lib.demo import AT_REHEARSAL, START
from lib.import_opinion import compact
from lib.rehearsal import contest_of, judged, posted, sent
from lib.rejudger import AT_REJUDGINGS
from lib.wire import Streams, Wire

NOW = START + 300_000
PIECES = (1, 2, 3, 17, 4_096)
PIECE = 65_536  # bytes of a body that are read at once
LISTS = [f"{AT_REHEARSAL}/{name}" for name in ("submissions", "judgements", "clarifications", "scoreboard")]
LISTS += ["/jury/proposals", AT_REJUDGINGS]
SECOND = sent("token-a2", None, "GET", "/contests", "")


# What is asked, and what was asked before it so that it is taken.
SUBMISSION = ("token-a1", "k1", "POST", f"{AT_REHEARSAL}/submissions", posted())
CLARIFICATION = ("token-a1", None, "POST", AT_ALL, compact({"text": "Is 0 allowed?", "problem_id": "a"}))
APPLY = ("token-j1", None, "POST", f"{AT_REJUDGINGS}/1/apply", "{}")
BEFORE_APPLY = [
    ("token-a1", None, "POST", f"{AT_REHEARSAL}/submissions", posted()),
    ("token-a2", None, "POST", f"{AT_REHEARSAL}/submissions", posted()),
    ("token-j1", None, "POST", "/jury/proposals", judged("s1-1", "WA")),
    ("token-j1", None, "POST", "/jury/proposals", judged("s2-1", "WA")),
    ("token-j1", None, "POST", AT_REJUDGINGS, compact({"reason": "data", "submission_ids": ["s1-1", "s2-1"]})),
    ("token-j1", None, "POST", f"{AT_REJUDGINGS}/1/verdicts", judged("s1-1", "AC")),
    ("token-j1", None, "POST", f"{AT_REJUDGINGS}/1/verdicts", judged("s2-1", "CE")),
]
ASKED = {"a submission": ([], SUBMISSION), "a clarification": ([], CLARIFICATION), "an applied rejudging": (BEFORE_APPLY, APPLY)}


def waiting(data):
    """The same request from a client that waits for the interim reply."""
    return data.replace(b"\r\n\r\n", b"\r\nExpect: 100-continue\r\n\r\n", 1)


def ways(request):
    """The same request from a client that doesn't wait and from one that does: its name, its bytes, and the interim reply to it."""
    data = sent(*request)
    return ("sent at once", data, b""), ("that waits", waiting(data), wire_opinion.INTERIM)


def reads():
    return [wire.served(NOW, sent("token-j1", None, "GET", path, "")) for path in LISTS]


class Case:
    """Connections at contests of their own, and what must come of them."""

    def __init__(self, before):
        self.contest, self.before = contest_of(False), []
        for request in before:
            data = sent(*request)
            _, status, _, self.contest = wire_opinion.served(self.contest, NOW, data)
            assert status == 200, request
            self.before.append(wire.served(NOW, data))

    def written(self, data):
        return wire_opinion.served(self.contest, NOW, data)

    def lists(self, contest):
        return [wire_opinion.served(contest, NOW, sent("token-j1", None, "GET", path, ""))[2] for path in LISTS]

    def steps(self, data, streams):
        return wire.begun() + self.before + [wire.served(NOW, data, streams), *reads()]

    def try_all(self, test, cases):
        """Each case has a name, bytes, streams, what must come (how, status, left, written), and the contest after it."""
        found = test.answers_to([step for _, data, streams, _, _ in cases for step in self.steps(data, streams)])
        size = len(self.steps(b"", Streams()))
        lists = {id(contest): self.lists(contest) for _, _, _, _, contest in cases}
        for number, (name, _, _, wanted, contest) in enumerate(cases):
            given = test.begins(found[number * size : (number + 1) * size])[len(self.before) :]
            one, after, end = given[0], given[1:-1], given[-1]
            test.same(name, (one.how, one.status, one.left, one.written), wanted)
            test.same(f"what stands after {name}", [one.written for one in after], lists[id(contest)])
            test.same(f"faults of the store after {name}", (end.faults, end.refusals), (0, 0))


def try_pieces(test):
    """In pieces, with a second request behind it."""
    case = Case([])
    for size in (3, 98_000):
        data = waiting(sent("token-a1", "k1", "POST", f"{AT_REHEARSAL}/submissions", posted(size=size)))
        count, status, written, contest = case.written(data)
        test.same(f"the bytes of a post of {size} bytes", (count, status), (len(data), 200))
        wanted = "answered", 200, len(SECOND), written
        case.try_all(test, [(f"{size} bytes in pieces of {piece}", data + SECOND, Streams(piece), wanted, contest) for piece in PIECES])


def try_reads(test):
    """How often a reader is asked that fills what it is asked for: once for each byte of a head, and for each piece of a body."""
    for size in (0, 1, PIECE, PIECE + 1, 2 * PIECE, 2_097_152):
        data = sent("token-a1", None, "POST", AT_ALL, "x" * size)
        head = len(data) - size
        one = test.begins(test.answers_to([*wire.begun(), wire.served(NOW, data + SECOND, Streams(1_000_000))]))[0]
        is_few = one.reads <= head + -(-size // PIECE)
        test.note(is_few and one.left == len(SECOND), f"a head of {head} bytes and a body of {size}: {one.reads} reads, {one.left} left")
        test.same(f"a body of {size} bytes", (one.how, one.status), ("answered", 400))


def each_way():
    """What is asked, in each way: its name, the contest before it, its bytes, how many of them are its head, and the interim reply."""
    for name, (before, request) in ASKED.items():
        for way, data, interim in ways(request):
            yield f"{name} {way}", Case(before), data, data.index(b"\r\n\r\n") + 4, interim


def try_cuts(test):
    """Cut after each byte."""
    malformed = wire_opinion.reply(NOW, 400, b'{"code":400,"message":"Malformed"}')
    for name, case, data, head, interim in each_way():
        count, status, written, after = case.written(data)
        test.same(f"{name}, whole", (count, status, written[: len(interim)]), (len(data), 200, interim))
        cases = [(f"no byte of {name}", b"", Streams(), ("nothing", 0, 0, b""), case.contest)]
        cases.append((name, data, Streams(), ("answered", 200, 0, written), after))
        for size in range(1, len(data)):
            wanted = "answered", 400, 0, (interim if size >= head else b"") + malformed
            cases.append((f"{size} bytes of {name}", data[:size], Streams(1 + size % 7), wanted, case.contest))
        case.try_all(test, cases)


def interrupted(data, head, written, interim, streams):
    """What must come of a post whose reads are interrupted: it is served if a thousand are at most."""
    taken = streams.first + 1_000 * streams.apart
    if streams.interrupts <= 1_000 or taken >= len(data):
        return "answered", 200, 0, written
    return "read", 0, len(data) - taken, interim if taken >= head else b""


def try_interrupts(test):
    """Reads that are interrupted a thousand times, and once more, at many bytes of head and body."""
    for name, case, data, head, interim in each_way():
        _, _, written, after = case.written(data)
        cases = []
        places = sorted({*range(0, len(data), 5), head - 1, head, head + 1, len(data) - 1})
        for count, first in itertools.product((1_000, 1_001), places):
            streams = Streams(1, count, first)
            wanted = interrupted(data, head, written, interim, streams)
            what = f"{name}, {count} times interrupted after {first} bytes"
            cases.append((what, data, streams, wanted, after if wanted[0] == "answered" else case.contest))
        case.try_all(test, cases)


def try_spread_interrupts(test):
    """The same, spread over the head and a body of some thousand bytes."""
    case, request = Case([]), (*SUBMISSION[:4], posted(size=3_000))
    for way, data, interim in ways(request):
        _, _, written, after = case.written(data)
        head, cases = data.index(b"\r\n\r\n") + 4, []
        for count, first, apart in itertools.product((999, 1_000, 1_001, 5_000), (0, 1, head - 1, head, head + 1), (1, 2, 3, 4, 5)):
            streams = Streams(1, count, first, apart)
            wanted = interrupted(data, head, written, interim, streams)
            what = f"a submission {way}, {count} times interrupted, after {first} bytes and each {apart} more"
            cases.append((what, data, streams, wanted, after if wanted[0] == "answered" else case.contest))
        kinds = {wanted[0] for _, _, _, wanted, _ in cases}
        test.same(f"what comes of a submission {way}", kinds, {"answered", "read"})
        case.try_all(test, cases)


def try_readers(test):
    """A reader that fails at each byte, also behind the last that is wanted."""
    for name, case, data, head, interim in each_way():
        _, _, written, after = case.written(data)
        cases = [(f"{name}, whose reader fails behind it", data, Streams(end="fails"), ("answered", 200, 0, written), after)]
        for size in range(len(data)):
            wanted = "read", 0, 0, interim if size >= head else b""
            what = f"{name}, whose reader fails after {size} bytes"
            cases.append((what, data[:size], Streams(1 + size % 5, end="fails"), wanted, case.contest))
        case.try_all(test, cases)


def try_writers(test):
    """A writer that fails or takes nothing at each byte, in small pieces and in large ones."""
    for name, case, data, head, interim in each_way():
        _, _, written, after = case.written(data)
        cases = []
        for stop, piece in itertools.product(("fails", "full"), (3, 65_536)):
            for room in range(len(written)):
                is_kept = not interim or room > len(interim) or (room == len(interim) and stop == "full")
                left, contest = (0, after) if is_kept else (len(data) - head, case.contest)
                what = f"{name}, of whose replies {room} bytes are taken by {piece}, {stop}"
                cases.append((what, data, Streams(piece, room=room, stop=stop), ("write", 0, left, written[:room]), contest))
        case.try_all(test, cases)


if __name__ == "__main__":
    PARTS = try_pieces, try_reads, try_cuts, try_interrupts, try_spread_interrupts, try_readers, try_writers
    sys.exit(program.main(__doc__, Wire, PARTS, program="wire"))
