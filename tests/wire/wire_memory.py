#!/usr/bin/env -S python3 -B
"""Refuses each call for memory of a request or an import at the desk in turn, and holds what comes of it.

    wire_memory.py [--program PATH] [--every N]

The program is wire, which serves each connection over a contest in memory by itself; lib/refuse_call.c is loaded into it (this takes a
C compiler named cc). The contest is that of lib/rehearsal.py, in which something was submitted, asked and judged. A case is one command,
one read or one file of each kind. Each of its calls for memory is refused alone, up to the last: it is answered as with all its memory,
or by 503 `Memory` (a file: E25), and then all lists are as before, and the same once more is answered as with all memory. Then all
calls from one on are refused: the answer is one of the same two. --every N refuses each Nth call.

Ends with the line `N passed, M failed`; the exit status is 0 if M is 0.
"""

import sys

from lib import program, verdict_file_opinion, wire, wire_opinion
from lib.clarifier import AT_ALL
from lib.demo import AT_REHEARSAL, START
from lib.import_opinion import compact
from lib.program import compiled, ran_refused
from lib.rehearsal import END, contest_of, judged, posted, sent
from lib.rejudger import AT_REJUDGINGS
from lib.requester import closing
from lib.wire import MORNING, Wire

NOW = START + 300_000
SUBMISSIONS = f"{AT_REHEARSAL}/submissions"
POST = posted()
LARGE = compact({"problem_id": "a", "language_id": "cpp", "files": [{"data": "YWJj" * 60_000}]})
JAVA = compact({"problem_id": "b", "language_id": "java", "entry_point": "Main", "files": [{"data": "YWJk"}]})
QUESTION = compact({"text": "Is 0 allowed?", "problem_id": "a"})
READS = [("token-j1", None, "GET", path, "") for path in (
    AT_REHEARSAL, SUBMISSIONS, f"{AT_REHEARSAL}/judgements", AT_ALL, "/jury/proposals", AT_REJUDGINGS, f"{AT_REHEARSAL}/scoreboard", f"{AT_REHEARSAL}/teams",
    f"{AT_REHEARSAL}/languages", f"{AT_REHEARSAL}/problems", f"{AT_REHEARSAL}/groups", f"{AT_REHEARSAL}/judgement-types")]  # fmt: skip


def by(who, path, body, key=None):
    return f"token-{who}", key, "POST", path, body


OPENED = by("j1", AT_REJUDGINGS, compact({"reason": "data", "submission_ids": ["s1-1", "s2-1"]}))
# What was asked before.
BEFORE = [by("a1", SUBMISSIONS, POST, "k1"), by("a2", SUBMISSIONS, POST), by("a1", SUBMISSIONS, POST), by("a1", AT_ALL, QUESTION),
          by("j1", "/jury/proposals", judged("s1-1", "WA")), by("j1", "/jury/proposals", judged("s2-1", "AC"))]  # fmt: skip
JUDGED = [OPENED, by("j1", f"{AT_REJUDGINGS}/1/verdicts", judged("s1-1", "AC")), by("j1", f"{AT_REJUDGINGS}/1/verdicts", judged("s2-1", "WA"))]
# What is asked, and what came before beside that.
REQUESTS = {
    "a submission": (by("a1", SUBMISSIONS, JAVA, "k2"), []),
    "a large submission": (by("a1", SUBMISSIONS, LARGE), []),
    "a submission once more": (by("a1", SUBMISSIONS, POST, "k1"), []),
    "a proposal": (by("j1", "/jury/proposals", judged("s1-2", "AC")), []),
    "a question": (by("a2", AT_ALL, QUESTION, "k1"), []),
    "an answer": (by("j1", AT_ALL, compact({"text": "Yes.", "reply_to_id": "c1-1"})), []),
    "a rejudging that is opened": (OPENED, []),
    "a verdict of a rejudging": (JUDGED[-1], JUDGED[:-1]),
    "a rejudging that is applied": (by("j1", f"{AT_REJUDGINGS}/1/apply", ""), JUDGED),
    "a rejudging that is cancelled": (by("j1", f"{AT_REJUDGINGS}/1/cancel", ""), JUDGED),
    "a thaw": (("token-adm", None, "PATCH", AT_REHEARSAL, '{"scoreboard_thaw_time":"2024-03-02T15:00:00.000+00:00"}'), []),
    "an extension": (by("adm", "/jury/extension", compact({"duration": "5:20:00"})), []),
    "a token": (by("adm", "/jury/tokens", compact({"account_id": "a3", "token": "other-a3"})), []),
    "a name": (by("adm", "/jury/names", compact({"team_id": "t2", "name": "Zeta"})), []),
    "a scoreboard": (("public", None, "GET", f"{AT_REHEARSAL}/scoreboard", ""), []),
    "a file": (("token-a1", None, "GET", f"{SUBMISSIONS}/s1-1/files", ""), []),
    "a list": (("token-a1", None, "GET", SUBMISSIONS, ""), []),
    "a feed": (("token-a1", None, "GET", f"{AT_REHEARSAL}/event-feed", ""), []),
    "the contest": (("token-a1", None, "GET", AT_REHEARSAL, ""), []),
    "a refusal": (by("a1", SUBMISSIONS, "{}"), []),
    "no path": (("public", None, "GET", "/", ""), []),
    "no head": (b"GET /\r\n\r\n", []),
    "no end of a head": (b"GET / HTTP/1.1\r\nHost: x\r\n", []),
    "a body that is cut": (sent(*by("a1", SUBMISSIONS, POST))[:-9], []),
}
FILES = {
    "judgement-types": '[{"id":"TLE","name":"time","solved":false}]', "languages": '[{"id":"py","name":"Python"}]',
    "problems": '[{"id":"d","label":"D","name":"D","ordinal":7}]', "groups": '[{"id":"south","name":"South"}]',
    "teams": '[{"id":"t4","name":"Delta","group_ids":["north"]}]', "teams-csv": 'id,name,group_ids,hidden\nt5,"Eps, ilon",north,\n',
    "accounts-csv": "id,role,team_id,token\nj3,judge,,token-j3\n", "verdicts-csv": "submission_id,judgement_type_id\ns1-2,AC\n",
}  # fmt: skip


class Request:
    """A connection at a moment: a request, or bytes that may be none."""

    def __init__(self, now, request):
        self.now, self.data = now, request if isinstance(request, bytes) else sent(*request)
        self.step, self.memory = wire.served(now, self.data), wire_opinion.reply(now, 503, b'{"code":503,"message":"Memory"}')

    def done(self, contest):
        """What goes out, and the contest after it."""
        return wire_opinion.served(contest, self.now, self.data)[2:]


class File:
    """A file that is imported at a moment."""

    def __init__(self, now, kind, text):
        self.now, self.kind, self.file = now, kind, text.encode()
        self.step, self.memory = wire.imported(now, kind, self.file), "refused: E25 Memory"

    def done(self, contest):
        return verdict_file_opinion.imported(contest, self.now, self.kind, self.file)


def written(found):
    """What came of each step of a script."""
    return [one.written if isinstance(one, wire.Served) else one for one in found]


class Case:
    """A step at a contest, the steps before it, and what must come of it with all memory and then of the reads."""

    def __init__(self, one, before):
        self.one, self.before, self.contest = one, wire.begun() + [other.step for other in before], contest_of(False)
        for other in before:
            _, self.contest = other.done(self.contest)
        self.reads = [Request(one.now, request) for request in READS]
        self.wanted, self.after = one.done(self.contest)
        self.again, self.last = one.done(self.after)

    def lists(self, contest):
        return [read.done(contest)[0] for read in self.reads]

    def steps(self):
        """The step and the reads, and both once more."""
        return self.before + ([self.one.step] + [read.step for read in self.reads]) * 2

    def right(self, is_refused):
        """What must come of these."""
        if is_refused:
            return [self.one.memory, *self.lists(self.contest), self.wanted, *self.lists(self.after)]
        return [self.wanted, *self.lists(self.after), self.again, *self.lists(self.last)]


class Memory(Wire):
    """The program, with some of its calls for memory refused."""

    def __init__(self, options, folder):
        super().__init__(options, folder)
        self.library = compiled("refuse_call", folder)

    def refused(self, script, call, later=False):
        """What a script comes to, and whether a call was refused."""
        (status, out, err), count = ran_refused([self.path], self.library, call, later, input=script)
        return (status, err, wire.told(out)), count

    def calls(self, script):
        """How many calls for memory a script takes."""
        least, most = 0, 1
        while self.refused(script, most)[1]:
            least, most = most, 2 * most
        while most - least > 1:
            half = (least + most) // 2
            least, most = (half, most) if self.refused(script, half)[1] else (least, half)
        return least


def try_case(desk, pool, name, case):
    """Refuses each call of a case."""
    whole, size = b"".join(case.steps()), len(case.before)
    parts = [b"".join(case.steps()[:count]).ljust(len(whole), b"\n") for count in (size, size + 1)]
    first, last = desk.calls(parts[0]) + 1, desk.calls(parts[1])
    (status, err, found), _ = desk.refused(whole, 0)
    given = written(desk.begins(found))
    desk.same(f"{name}, with all memory", (status, err, given[size - 7 : -2]), (0, b"", case.right(False)))
    setup, counts = given[: size - 7], {True: 0, False: 0}
    desk.note(first <= last, f"{name} takes calls {first} to {last}")

    def one(call):
        (status, err, found), refused = desk.refused(whole, call)
        given = written(found[6:])
        is_refused = given[size - 7 : size - 6] == [case.one.memory]
        is_right = given[: size - 7] == setup and given[size - 7 : -2] == case.right(is_refused) and found[-2].faults == 0
        what = f"{name}, call {call} refused: {status}, {err!r}, {given[size - 7 : -2]!r:.2000}"
        desk.note(refused == 1 and status == 0 and is_right, what)
        (status, _, found), refused = desk.refused(parts[1], call, True)
        given = written(found[6:])[size - 7 : size - 6]
        what = f"{name}, all from call {call} refused: {status}, {given!r:.300}"
        desk.note(refused > 0 and given in ([case.wanted], [case.one.memory]), what)
        return is_refused

    for is_refused in pool.map(one, range(first, last + 1, desk.options.every)):
        counts[is_refused] += 1
    print(f"{name}: {last - first + 1} calls, {counts[True]} refused and answered by Memory, {counts[False]} without any change")


def try_requests(desk):
    with program.lanes() as pool:
        before = [Request(NOW, request) for request in BEFORE]
        for name, (request, more) in REQUESTS.items():
            try_case(desk, pool, name, Case(Request(NOW, request), before + [Request(NOW, one) for one in more]))


def try_final(desk):
    """Results that are made final, and awards."""
    before = [Request(NOW, request) for request in BEFORE]
    contest = Case(Request(NOW, READS[0]), before).contest
    *judging, final = [Request(END, request) for request in closing(contest)]
    awards = Request(END, ("token-j1", None, "GET", f"{AT_REHEARSAL}/awards", ""))
    with program.lanes() as pool:
        try_case(desk, pool, "final results", Case(final, before + judging))
        try_case(desk, pool, "awards", Case(awards, [*before, *judging, final]))


def try_files(desk):
    """A file of each kind."""
    with program.lanes() as pool:
        for kind, text in FILES.items():
            is_late = kind == "verdicts-csv"
            before = [Request(NOW, request) for request in BEFORE] if is_late else []
            try_case(desk, pool, kind, Case(File(NOW if is_late else MORNING, kind, text), before))


if __name__ == "__main__":
    sys.exit(program.main(__doc__, Memory, (try_requests, try_final, try_files), program="wire", every=1))
