#!/usr/bin/env -S python3 -B
"""Holds the table of cells of a contest in a file beside the cells that its other tables come to.

    desk_cells.py [--program PATH] [--days N] [--steps N] [--kills N] [--seed N]

The cells are counted anew by lib/cells_opinion.py, under either mask, from what sqlite3 reads while the desk is stopped. First
come two worked contests: attempts in the freeze, and a rejudging that takes a solved problem back. Then N days (4) of N stops
each (60), made from a seed: between two stops some requests of every role are served, or verdicts are imported, and half-way the
contest is prolonged, before the freeze, in it or after the end. Then cells that somebody changed: a wrong row, one too many, also
of zeros, one missing among others and another missing table are all refused, and leave the file's bytes as they were; a file
without rows of cells, or vacuumed without their table, is filled when it is opened, by each command, and shows else what it did.
At last servers that are killed while a team posts N times (40): what is left has right cells.

Takes faketime. Ends with the line `N passed, M failed`; the exit status is 0 if M is 0.
"""

import collections
import shutil
import sys
import threading
import time

from lib import cells_opinion, clock, demo, desk_opinion, program
from lib.cells_opinion import FULL, HELD
from lib.clock import text_of
from lib.demo import AT_REHEARSAL, START
from lib.import_opinion import compact
from lib.program import FAULT, Program
from lib.rehearsal import contest_of, files_of, judged, posted, sent
from lib.requester import Requester, prolonging
from lib.server import Server
from lib.sqlite import dump, opened

POSTS = f"{AT_REHEARSAL}/submissions"
TALK = f"{AT_REHEARSAL}/clarifications"
COMMANDS = [("init", "cup.db", "init"), ("import", "cup.db", "teams", "teams"), ("export", "cup.db"), ("awards", "cup.db"), ("upgrade", "cup.db")]
OTHERS = ("desk", "contest", "items", "accounts", "submissions", "proposals", "releases", "rejudgings", "members", "clarifications", "notices")
# The table of the notices keeps its number among the trees, or takes that of the cells.
TAKEN_OUT = ("DROP TABLE cells", "DROP TABLE cells; VACUUM")
AT_NOON = clock.at(text_of(START + 3 * 3_600_000))


def made(desk, verification):
    """A folder with the rehearsal in cup.db, made by the program at eight o'clock."""
    return demo.made(desk, files_of(verification))


def right(desk, folder, what):
    """The cells in cup.db are those of its other tables."""
    desk.same(f"{what}: rows that shouldn't be there, and that should", cells_opinion.differences(folder / "cup.db"), ([], []))


def cells_of(folder, team, problem):
    """Judged, pending, solved and penalties of a team at a problem under either mask."""
    with cells_opinion.read(folder / "cup.db") as database:
        rows = {row[0]: row[3:] for row in cells_opinion.kept(database) if row[1:3] == (team, problem)}
    return rows.get(HELD), rows.get(FULL)


def asked(server, at, who, path, body):
    """What is answered at minutes after nine."""
    server.at(text_of(START + at * 60_000))
    return server.ask(sent(who, None, "POST", path, body)).split(b" ", 2)[1].decode()


def after(desk, folder, what, calls):
    """These calls are answered by one server, which is stopped, and then the cells are right."""
    server = Server(desk, folder, requests=len(calls))
    for call in calls:
        desk.note(asked(server, *call) in ("200", "201"), f"{what}: {call}")
    server.ended()
    right(desk, folder, what)


def try_worked(desk):
    folder = made(desk, False)
    after(desk, folder, "two attempts, one before the freeze", [(230, "token-a1", POSTS, posted()), (250, "token-a1", POSTS, posted()),
          (251, "token-j1", "/jury/proposals", judged("s1-2", "AC"))])  # fmt: skip
    desk.same("the freeze holds a verdict", cells_of(folder, 1, "a"), ((0, 2, None, 0), (1, 1, 250, 0)))
    after(desk, folder, "the first is released", [(270, "token-j1", "/jury/proposals", judged("s1-1", "AC"))])
    desk.same("the first solves under both", cells_of(folder, 1, "a"), ((1, 0, 230, 0), (1, 0, 230, 0)))

    folder = made(desk, False)
    after(desk, folder, "solved, and tried again", [(10, "token-a1", POSTS, posted()), (11, "token-j1", "/jury/proposals", judged("s1-1", "AC")),
          (20, "token-a1", POSTS, posted()), (21, "token-j1", "/jury/proposals", judged("s1-2", "WA"))])  # fmt: skip
    desk.same("nothing counts after it", cells_of(folder, 1, "a"), ((1, 0, 10, 0), (1, 0, 10, 0)))
    after(desk, folder, "a rejudging takes it back", [(30, "token-j1", "/jury/rejudgings", compact({"reason": "data", "submission_ids": ["s1-1"]})),
          (31, "token-j1", "/jury/rejudgings/1/verdicts", judged("s1-1", "WA")), (32, "token-j1", "/jury/rejudgings/1/apply", "")])  # fmt: skip
    desk.same("two penalties under both", cells_of(folder, 1, "a"), ((2, 0, None, 2), (2, 0, None, 2)))


def try_days(desk):
    """Days made from a seed, stopped after each few requests."""
    for day in range(desk.options.days):
        chance = Requester(f"cells {desk.options.seed}/{day}")
        verification = bool(day % 2)
        contest, folder, now = contest_of(verification), made(desk, verification), START - 600_000
        statuses = collections.Counter()
        for stop in range(desk.options.steps):
            if chance.random.random() < 0.15:
                now = imported(desk, chance, contest, folder, now)
            count = chance.random.randint(1, 5)
            server = Server(desk, folder, requests=count)
            for number in range(count):
                now += chance.random.randint(0, 22_000_000 // (3 * desk.options.steps))
                request = chance.request(contest)
                if (stop, number) == (desk.options.steps // 2, 0):
                    now, request = prolonging(chance, contest, now)
                server.at(text_of(now))
                _, contest = desk_opinion.handled(contest, now, *request)
                statuses[server.ask(sent(*request))[9:12]] += 1
            server.ended()
            right(desk, folder, f"day {day}, stop {stop}")
        desk.note(rows_in(folder) > 0, f"day {day}: no row of cells at its end")
        desk.note(statuses[b"200"] > 0 and statuses[b"503"] == 0, f"day {day} is answered by {dict(statuses)}")


def rows_in(folder):
    """How many rows of cells there are."""
    with cells_opinion.read(folder / "cup.db") as database:
        return len(cells_opinion.kept(database))


def imported(desk, chance, contest, folder, now):
    """Verdicts on some submissions without one, which an import may refuse. The second opinion isn't asked: from here on the
    day's requests are made of what it knows."""
    judged_now = {one["submission"] for one in contest["releases"]}
    waiting = [desk_opinion.submission_id(contest, one) for one in contest["submissions"]]
    waiting = [one for one in waiting if one not in judged_now][:3]
    rows = "".join(f"{one},{chance.one(['AC', 'WA', 'CE'])}\n" for one in waiting)
    (folder / "verdicts.csv").write_text(f"submission_id,judgement_type_id\n{rows}", encoding="utf-8")
    given = desk.run(folder, "import", "cup.db", "verdicts-csv", "verdicts.csv", before=clock.at(text_of(now)))
    desk.note(given[0] == 0 or "E22 ImportRow" in given[2], f"verdicts imported at {now}: {given}")
    right(desk, folder, f"verdicts imported at {now}")
    return now


def lines(folder):
    """What sqlite3 shows of the contest, in whatever order its rows were written."""
    return sorted(dump(folder / "cup.db").splitlines())


def changed(desk, base, sql):
    """A folder with a copy of a contest that was changed so."""
    folder = desk.new_folder()
    shutil.copytree(base, folder, dirs_exist_ok=True)
    with opened(folder / "cup.db") as database:
        database.executescript(sql)
    return folder


def spoiled(desk, base, what, sql, wanted):
    """`board` of a copy whose cells were changed so: refused, with the file as it was, or done, with right cells afterwards."""
    folder = changed(desk, base, sql)
    before = (folder / "cup.db").read_bytes()
    given = desk.run(folder, "board", "cup.db", before=AT_NOON)
    if wanted:
        desk.same(what, given, FAULT)
        desk.note((folder / "cup.db").read_bytes() == before, f"{what}: the file's bytes are others")
    else:
        desk.note(given[0] == 0, f"{what}: {given}")
        right(desk, folder, what)
        desk.same(f"{what}, and again", desk.run(folder, "board", "cup.db", before=AT_NOON), given)
        desk.same(f"{what}: all else", lines(folder), lines(base))


def made_anew(desk, base, sql, what, *words):
    """A command on a copy without the table of cells: it does what it does on the contest, and the table is back."""
    folder = changed(desk, base, sql)
    given = [desk.run(there, *words, before=AT_NOON) for there in (changed(desk, base, ""), folder)]
    desk.same(f"{what} after {sql}", given[1], given[0])
    right(desk, folder, f"{what} after {sql}")
    desk.same(f"{what} after {sql}: all else", lines(folder), lines(base))


def try_spoiled(desk):
    base = made(desk, False)
    after(desk, base, "three cells", [(10, "token-a1", POSTS, posted()), (11, "token-j1", "/jury/proposals", judged("s1-1", "AC")),
          (12, "token-a2", POSTS, posted("b")), (13, "token-a1", POSTS, posted("c")), (14, "token-a1", TALK, compact({"text": "Why?"})),
          (15, "token-j1", TALK, compact({"text": "So."})), (16, "token-j1", TALK, compact({"text": "Łódź", "to_team_id": "t2"}))])  # fmt: skip
    changes = [(f"{column} changed", f"UPDATE cells SET {column} = {column} + 1 WHERE team = 1 AND problem = 'a'")
               for column in ("judged", "pending", "solved", "penalties")]  # fmt: skip
    changes += [
        ("one row under one mask", "UPDATE cells SET judged = 7 WHERE audience = 1 AND team = 2"),
        ("a row of zeros too many", "INSERT INTO cells VALUES (0, 3, 'a', 0, 0, NULL, 0)"),
        ("a row too many under both", "INSERT INTO cells SELECT audience, 3, problem, judged, pending, solved, penalties FROM cells WHERE team = 2"),
        ("one row missing", "DELETE FROM cells WHERE audience = 0 AND team = 2"),
        ("a cell missing under both", "DELETE FROM cells WHERE team = 1 AND problem = 'c'"),
        ("another problem's", "UPDATE cells SET problem = 'c' WHERE team = 2"),
        ("no problem's", "UPDATE cells SET problem = 'x' WHERE team = 2"),
        ("a third mask's", "UPDATE cells SET audience = 2 WHERE audience = 1 AND team = 2"),
        ("no minute", "UPDATE cells SET solved = NULL"),
    ]
    for what, sql in changes:
        spoiled(desk, base, what, sql, True)
    spoiled(desk, base, "no row", "DELETE FROM cells", False)
    with opened(base / "cup.db") as database:
        (text,), *_ = database.execute("SELECT sql FROM sqlite_master WHERE name = 'cells'")
    spoiled(desk, base, "a table in another place", f"DROP TABLE cells; {text}", True)
    for name in OTHERS:
        spoiled(desk, base, f"no {name}", f"DROP TABLE {name}", True)
    for sql in TAKEN_OUT:
        spoiled(desk, base, sql, sql, False)
        spoiled(desk, base, f"{sql}, and another's", f"{sql}; CREATE TABLE other (n INTEGER) STRICT", True)
        spoiled(desk, base, f"{sql}, and a wrong reply", f"{sql}; UPDATE notices SET reply = 'g-9' WHERE from_jury = 1", True)
        for name in OTHERS:
            spoiled(desk, base, f"no {name}, and {sql}", f"DROP TABLE {name}; {sql}", True)
        for words in COMMANDS:
            made_anew(desk, base, sql, words[0], *words)


def try_kills(desk):
    """A server is killed while a team posts and judges release."""
    rows = 0
    for number in range(desk.options.kills):
        folder = made(desk, False)
        server = Server(desk, folder)
        threading.Timer(0.02 + 0.4 * number / desk.options.kills, server.process.kill).start()
        for at in range(10, 200):
            try:
                asked(server, at, "token-a1", POSTS, posted("abc"[at % 3]))
                asked(server, at, "token-j1", "/jury/proposals", judged(f"s1-{at - 9}", "AC" if at % 5 == 0 else "WA"))
            except (OSError, IndexError):
                break
        server.process.wait()
        time.sleep(0.01)
        right(desk, folder, f"kill {number}")
        rows += rows_in(folder)
        given = desk.run(folder, "board", "cup.db")
        desk.note(given[0] == 0, f"kill {number}: {given}")
    desk.note(rows > 0, "no kill left a row of cells")


if __name__ == "__main__":
    PARTS = (try_worked, try_days, try_spoiled, try_kills)
    sys.exit(program.main(__doc__, Program, PARTS, program="desk", days=4, steps=60, kills=40, seed=1))
