#!/usr/bin/env -S python3 -B
"""Has the jury judge submissions again at `desk serve`: a director's session, limits, and a server that is killed.

    desk_rejudgings.py [--program PATH] [--kills N]

In the session a team has its problem solved, and no longer once that is judged again; in a copy of the file the rejudging is
cancelled, and another one applied. Then come 500 members and 501, and the last rejudging of a contest. Then a rejudging of 500
submissions of as many teams is applied N times (200), and the server is killed at a random moment: whoever opens the file next,
which is `desk board` or a new server, finds all of the second releases and the rejudging applied, or none and the rejudging open,
and all if that was answered. sqlite3 finds the same.

Takes sqlite3 and faketime. Ends with the line `N passed, M failed`; the exit status is 0 if M is 0.
"""

import http.client
import json
import random
import shutil
import signal
import statistics
import sys
import time

from lib import demo, program
from lib.demo import START
from lib.import_opinion import compact
from lib.program import Program
from lib.rejudging_opinion import LIMIT, MEMBER_LIMIT
from lib.server import Server
from lib.sqlite import asked, insert, opened

DEMO, FIRST = "/contests/demo", "/jury/rejudgings/1"
APPLY = b"POST /jury/rejudgings/1/apply HTTP/1.1\r\nHost: x\r\nAuthorization: Bearer token-j1\r\nContent-Length: 0\r\n\r\n"
COUNTS = """SELECT count(*) FROM releases; SELECT count(DISTINCT team) FROM releases WHERE k = 1 AND n = 2 AND type = 'AC';
SELECT count(*) FROM rejudgings; SELECT state FROM rejudgings; SELECT count(*) FROM members WHERE type = 'AC' AND ready = 1;"""
NONE, EVERY = ("500", "0", "1", "0", "500"), ("1000", "500", "1", "1", "500")


class Desk(Server):
    """A server, and what it answers."""

    def answer(self, who, method, path, row=None):
        """The status, and the value in the body."""
        client = http.client.HTTPConnection("127.0.0.1", self.port, timeout=120)
        fields = {} if who == "public" else {"Authorization": f"Bearer token-{who}"}
        client.request(method, path, None if row is None else compact(row).encode(), fields)
        reply = client.getresponse()
        status, body = reply.status, reply.read()
        client.close()
        return status, json.loads(body)

    def views(self):
        """What anyone sees of the contest."""
        paths = ("scoreboard", "judgements", "submissions", "judgements/s1-1.1", "judgements/s1-1.2")
        asked_for = [(who, f"{DEMO}/{path}") for who in ("public", "a1", "a2", "j1", "adm") for path in paths]
        return {(who, path): self.answer(who, "GET", path) for who, path in asked_for}

    def cell(self):
        """The first team's on the first problem."""
        rows = self.answer("public", "GET", f"{DEMO}/scoreboard")[1]["rows"]
        return next(row for row in rows if row["team_id"] == "t1")["problems"][0]

    def ids(self):
        return [(one["id"], one["judgement_type_id"]) for one in self.answer("public", "GET", f"{DEMO}/judgements")[1]]


def copy_contest(folder, other):
    """With its log, which a server leaves."""
    for file in folder.glob("cup.db*"):
        shutil.copy(file, other)


def refusal(status, name):
    return status, {"code": status, "message": name}


def rejudging(number, state, *members):
    """A rejudging as it is answered, of members that have these types, each ready."""
    shown = [{"judgement_type_id": verdict, "ready": verdict is not None, "submission_id": which} for which, verdict in members]
    return 200, {"id": str(number), "members": shown, "reason": "data", "state": state}


# --- A session ---------------------------------------------------------------------------------------


def begin(desk, folder):
    """A server of the demo contest, where the first team has its problem solved, and is wrong once more."""
    server = Desk(desk, folder)
    for at, verdict in (("10", "AC"), ("20", "WA")):
        server.at(f"2024-03-02 09:{at}:00")
        body = {"problem_id": "a", "language_id": "cpp", "files": [{"data": "YWJj"}]}
        which = server.answer("a1", "POST", f"{DEMO}/submissions", body)[1]["id"]
        server.answer("j1", "POST", "/jury/proposals", {"submission_id": which, "judgement_type_id": verdict})
    server.at("2024-03-02 09:30:00")
    return server


def again(desk, server, number):
    """The first submission's rejudging of this number, until it can be applied: no one sees anything of it."""
    before = server.views()
    given = server.answer("j1", "POST", "/jury/rejudgings", {"reason": "data", "submission_ids": ["s1-1"]})
    desk.same("one is opened", given, rejudging(number, "open", ("s1-1", None)))
    desk.same("what is seen while it is open", server.views(), before)
    path = f"/jury/rejudgings/{number}"
    desk.same("applied too early", server.answer("adm", "POST", f"{path}/apply"), refusal(409, "RejudgingIncomplete"))
    judged = {"submission_id": "s1-1", "judgement_type_id": "WA"}
    desk.same("its verdict", server.answer("j2", "POST", f"{path}/verdicts", judged), rejudging(number, "open", ("s1-1", "WA")))
    desk.same("what is seen while it is ready", server.views(), before)
    for who in ("public", "a1"):
        desk.same(f"{who} reads it", server.answer(who, "GET", path), refusal(403, "RoleForbids"))
    return before


def applied(desk, server, number):
    """It is applied: the problem isn't solved any longer."""
    server.at("2024-03-02 09:40:00")
    path, whole = f"/jury/rejudgings/{number}", rejudging(number, "applied", ("s1-1", "WA"))
    desk.same("it is applied", server.answer("adm", "POST", f"{path}/apply"), whole)
    unsolved = {"num_judged": 2, "num_pending": 0, "problem_id": "a", "solved": False}
    desk.same("the cell then", server.cell(), unsolved)
    desk.same("the judgements then", server.ids(), [("s1-1.2", "WA"), ("s1-2.1", "WA")])
    desk.same("the first judgement then", server.answer("a1", "GET", f"{DEMO}/judgements/s1-1.1"), refusal(404, "NotFound"))
    status, row = server.answer("a1", "GET", f"{DEMO}/judgements/s1-1.2")
    desk.same("the second judgement then", (status, row.get("end_contest_time")), (200, "0:40:00.000"))
    for step in ("apply", "cancel"):
        desk.same(f"{step} once more", server.answer("j1", "POST", f"{path}/{step}"), refusal(409, "RejudgingClosed"))
    desk.same("it reads so", server.answer("j1", "GET", path), whole)


def try_session(desk):
    """A director's session, and in a copy of the file another one."""
    folder, other = demo.made(desk, demo.FILES), desk.new_folder()
    server = begin(desk, folder)
    solved = {"num_judged": 1, "num_pending": 0, "problem_id": "a", "solved": True, "time": 10}
    desk.same("the cell at first", server.cell(), solved)
    desk.same("the judgements at first", server.ids(), [("s1-1.1", "AC"), ("s1-2.1", "WA")])
    before = again(desk, server, 1)
    server.stop()
    copy_contest(folder, other)
    server = Desk(desk, folder)
    applied(desk, server, 1)
    after = server.views()
    server.stop(signal.SIGKILL)
    server = Desk(desk, folder)
    server.at("2024-03-02 09:40:00")
    desk.same("the same when the server was killed", server.views(), after)
    desk.same("the rejudging then", server.answer("j1", "GET", FIRST), rejudging(1, "applied", ("s1-1", "WA")))
    server.stop()
    server = Desk(desk, other)
    server.at("2024-03-02 09:30:00")
    given = server.answer("j1", "POST", f"{FIRST}/cancel")
    desk.same("it is cancelled", given, rejudging(1, "cancelled", ("s1-1", "WA")))
    desk.same("what is seen then", server.views(), before)
    again(desk, server, 2)
    applied(desk, server, 2)
    states = [one["state"] for one in server.answer("j1", "GET", "/jury/rejudgings")[1]]
    desk.same("both", states, ["cancelled", "applied"])
    server.stop()


# --- Five hundred ------------------------------------------------------------------------------------


def filled(desk, state=0):
    """A folder with a contest of 500 teams, each wrong once, and a rejudging in which each is correct."""
    teams = "".join(f"n{n},Team {n},,\n" for n in range(1, MEMBER_LIMIT + 1))
    accounts = "id,role,team_id,token\nj1,judge,,token-j1\n"
    folder = demo.made(desk, {**demo.FILES, "teams-csv": f"id,name,group_ids,hidden\n{teams}", "accounts-csv": accounts})
    with opened(folder / "cup.db") as database:
        for place in range(1, MEMBER_LIMIT + 1):
            insert(database, "submissions", (place, place, 1, START + place, "a", "cpp", None, b"abc", None))
            insert(database, "releases", (place, place, 1, 1, "WA", START + place))
            insert(database, "members", (1, place, place, 1, "AC", None, 1))
        insert(database, "rejudgings", (1, "data", state))
    return folder


def try_limits(desk):
    """A rejudging of as many members as there may be and of one more; the last rejudging of a contest."""
    folder = filled(desk, state=2)
    server = Desk(desk, folder)
    ids = [f"s{place}-1" for place in range(1, MEMBER_LIMIT + 2)]
    for named, wanted in (
        (ids, refusal(400, "Malformed")), (ids[1:], refusal(400, "UnknownReference")),
        (ids[:-1], rejudging(2, "open", *((which, None) for which in ids[:-1]))), (ids[7:8], refusal(409, "InRejudging")),
    ):  # fmt: skip
        given = server.answer("j1", "POST", "/jury/rejudgings", {"reason": "data", "submission_ids": named})
        desk.same(f"{len(named)} members from {named[0]}", given, wanted)
    desk.same("500 are cancelled", server.answer("j1", "POST", "/jury/rejudgings/2/cancel")[1]["state"], "cancelled")
    server.stop()
    with opened(folder / "cup.db") as database:
        database.executemany("INSERT INTO rejudgings VALUES (?, 'data', 2)", ((number,) for number in range(3, LIMIT)))
    server = Desk(desk, folder)
    for which, wanted in (("s1-1", rejudging(LIMIT, "open", ("s1-1", None))), ("s2-1", refusal(409, "TeamLimit"))):
        given = server.answer("j1", "POST", "/jury/rejudgings", {"reason": "data", "submission_ids": [which]})
        desk.same("the last rejudging and one more", given, wanted)
    desk.same("all of them", len(server.answer("j1", "GET", "/jury/rejudgings")[1]), LIMIT)
    server.stop()


# --- Kills -------------------------------------------------------------------------------------------


def received(client):
    """What came until the other side closed or was killed."""
    data = b""
    try:
        while piece := client.recv(65536):
            data += piece
    except OSError:
        pass
    return data


def posted(desk, base, delay=None):
    """A copy of the contest in which the rejudging is applied: its folder, what was answered and how long that took. The server
    is killed after so many seconds, or ended after its answer."""
    folder = desk.new_folder()
    copy_contest(base, folder)
    server = Desk(desk, folder, requests=1)
    with server.connected() as client:
        start = time.monotonic()
        client.sendall(APPLY)
        if delay is not None:
            time.sleep(delay)
            server.stop(signal.SIGKILL)
        told = received(client)
    taken = time.monotonic() - start
    if delay is None:
        server.ended()
    return folder, told, taken


def shown(desk, folder, by_server):
    """How many teams the file's next reader shows with the problem solved, and what it shows the rejudging's state to be."""
    if by_server:
        server = Desk(desk, folder)
        state = server.answer("j1", "GET", FIRST)[1]["state"]
        rows = server.answer("j1", "GET", f"{DEMO}/scoreboard")[1]["rows"]
        server.stop()
        return sum(row["score"]["num_solved"] == 1 for row in rows), state
    words = ("board", "cup.db", "--audience", "jury", "--at", "2024-03-02T09:05:00Z", "--format", "csv")
    status, out, err = desk.run(folder, *words)
    solved = [line.split(",")[3] for line in out.split("\n")[1:-1]]
    return solved.count("1") if (status, err, len(solved)) == (0, "", MEMBER_LIMIT) else (status, err, len(solved)), None


def killed(desk, base, whole, number, delay):
    """Whether all stands after a kill, and what is wrong then."""
    folder, told, _ = posted(desk, base, delay)
    solved, state = shown(desk, folder, number % 2 == 0)
    counts = tuple(asked(folder / "cup.db", COUNTS).split())
    shutil.rmtree(folder)
    stands = counts == EVERY
    is_right = stands or (counts == NONE and told != whole)
    is_right = is_right and whole.startswith(told) and solved == (MEMBER_LIMIT if stands else 0)
    is_right = is_right and state in (None, "applied" if stands else "open")
    return stands, None if is_right else f"killed after {delay:.4f} s: {told[:200]!r}, then {solved} solved, {state}, {counts}"


def try_kills(desk):
    """A rejudging of 500 that is applied by a server that is killed."""
    base, chance, kills, taken = filled(desk), random.Random(22), desk.options.kills, []
    for _ in range(5):
        folder, whole, seconds = posted(desk, base)
        is_whole = whole.startswith(b"HTTP/1.1 200 OK\r\n") and whole.count(b'"ready":true') == MEMBER_LIMIT
        desk.note(is_whole and whole.endswith(b'"state":"applied"}'), f"applied: {whole[:300]!r}")
        desk.same("the rows of one that is applied", tuple(asked(folder / "cup.db", COUNTS).split()), EVERY)
        taken.append(seconds)
    longest = 1.5 * statistics.median(taken)
    ends = [killed(desk, base, whole, number, chance.uniform(0, longest)) for number in range(kills)]
    for _, wrong in ends:
        desk.note(wrong is None, wrong)
    stood = sum(stands for stands, _ in ends)
    print(f"kills within {longest:.3f} s: {stood} of {kills} left it applied", flush=True)
    desk.note(0 < stood < kills, "kills came all too early or all too late to say anything")


if __name__ == "__main__":
    sys.exit(program.main(__doc__, Program, (try_session, try_limits, try_kills), program="desk", kills=200))
