#!/usr/bin/env -S python3 -B
"""Holds what the commands of `desk` do with `--explain` beside what they do without: only the lines that explain differ.

    desk_explain_beside.py [--program PATH]

Each call is made twice, in folders that are alike. Status and standard output are the same, standard error begins with
the line of the refusal, and the folders show the same afterwards: of a database all that sqlite3 reads of the file and
its log together, of another file its bytes. The calls are: `replay` and `audit` of each file of replay/ and audit/, whole
and broken off; files of more than 64 KiB, laid out so that a piece of 64 KiB ends in each digit of a line; each command
with all of its options; and commands on contests in files, whole, damaged, without a table, without rows, of the first
schema, another program's.

Takes cc, sqlite3 and faketime. Ends with the line `N passed, M failed`; the exit status is 0 if M is 0.
"""

import errno
import os
import re
import shutil
import sys

from lib import clock, demo, program, sqlite
from lib.import_opinion import compact
from lib.nginx import free_port
from lib.program import DATA, Program, compiled, ran
from lib.server import Server

PIECE, PORT = 65_536, free_port()
NOON = "2024-03-02T12:00:00Z"
AT_NOON = clock.at("2024-03-02 12:00:00")
CUP = {"id": "x", "name": "X", "duration": "5:00:00"}
BOARD = compact({"rows": [{"team_id": "t1", "rank": 1, "score": {"num_solved": 2, "total_time": 30}}]})
POSTED_AT = "/contests/demo/submissions"
POSTED = {"problem_id": "a", "language_id": "cpp", "files": [{"data": "YWJj"}]}
# All commands, each with all of its options, and what is on standard input.
OPTIONS = {
    "replay": ("--jury --thawed --at 1:30:00", "replay"),
    "audit": ("--jury --thawed --at 1:30:00 --against board.json", "feed"),
    "init": ("new.db init", None),
    "import": ("cup.db groups groups", None),
    "board": (f"cup.db --audience jury --group north --format csv --at {NOON}", None),
    "awards": (f"cup.db --jury --at {NOON}", None),
    "export": ("cup.db --format icpc", None),
    "feed": (f"cup.db --audience t1 --at {NOON}", None),
    "serve": (f"cup.db --requests 0 --port {PORT}", None),
    "upgrade": ("cup.db", None),
}
# What is done to the tables of the demo contest before the calls.
CHANGES = [
    ("whole", ""),
    ("cells without rows", "DELETE FROM cells"),
    ("no table of cells", "DROP TABLE cells"),
    ("other cells", "UPDATE cells SET judged = judged + 1"),
    ("a damaged contest", "UPDATE contest SET duration = 0"),
    ("a damaged contest without a table of cells", "DROP TABLE cells; UPDATE contest SET duration = 0"),
    ("damaged accounts and cells without rows", "DELETE FROM cells; UPDATE accounts SET role = 9 WHERE id = 'j1'"),
    ("no table of notices", "DROP TABLE notices"),
    ("a table more", "CREATE TABLE t (n INTEGER)"),
    ("another version", "UPDATE desk SET version = 3"),
]
CALLS = [
    "board cup.db", "awards cup.db --jury", "export cup.db", "export cup.db --format icpc", "feed cup.db --audience jury",
    "upgrade cup.db", f"serve cup.db --requests 0 --port {PORT}", "init cup.db init", "init cup.db other",
    "import cup.db teams-csv teams-csv", "import cup.db groups late", "import cup.db accounts-csv accounts-csv",
    "import cup.db accounts-csv none", "import cup.db verdicts-csv verdicts",
]  # fmt: skip


class Desk(Program):
    """The program, and what was counted."""

    def alike(self, what, folder, *words, before=(), how=dict):
        """A call does the same with the option and without, in copies of a folder; `how` says how each is run. Answers
        the status."""
        given, left = [], []
        for more in ((), ("--explain",)):
            own = self.new_folder()
            shutil.copytree(folder, own, dirs_exist_ok=True)
            given.append(ran([*before, self.path, *map(str, words), *more], cwd=own, **how()))
            left.append(sqlite.shown(own))
            shutil.rmtree(own)
        (status, out, err), explained = given
        is_right = explained[:2] == (status, out) and (explained[2] == err or explains(status, err, explained[2]))
        self.note(is_right, f"{what}: {words}: {given[0]!r:.700}, and with --explain {explained!r:.700}")
        self.note(left[0] == left[1], f"{what}: {words}: other files are left with --explain: {left!r:.2000}")
        return status


def explains(status, err, lines):
    """Whether there are lines that explain behind the line of a refusal."""
    return status == 1 and lines.startswith(err) and all(line.startswith(b"  ") for line in lines[len(err) :].splitlines())


def feeds():
    """The commands of the worked boards, each with what is on its standard input."""
    for file in sorted((DATA / "replay").rglob("*.csv")):
        words = file.with_suffix(".options").read_text(encoding="utf-8").splitlines()
        yield file.name, ["replay", *(word for word in words if not word.startswith("#"))], file.read_bytes()
    for file in sorted((DATA / "audit").glob("*.ndjson")):
        yield file.name, ["audit", "--jury"], file.read_bytes()


def try_worked(desk):
    """Boards, and refusals of files that are cut."""
    folder, statuses = desk.new_folder(), []
    for name, words, data in feeds():
        for count in (len(data), len(data) * 2 // 3, 30):
            statuses.append(desk.alike(f"{name}, {count} bytes", folder, *words, how=reading(data[:count])))
    desk.note(statuses.count(0) > 60 and statuses.count(1) > 40, f"{statuses.count(0)} boards and {statuses.count(1)} refusals")


def try_broken(desk):
    """Streams whose read fails once something was read: no board is printed of their front."""
    library, folder = compiled("fail_read", desk.folder), desk.new_folder()
    for name, words, data in [*feeds(), ("long.csv", ["replay"], long_file(0)), ("long.ndjson", ["audit", "--jury"], long_feed(0))]:
        path = desk.folder / name
        path.write_bytes(data)
        fails = {"LD_PRELOAD": library, "FAIL_PATH": str(path), "FAIL_TIMES": "1", "FAIL_ERROR": str(errno.EIO)}
        for after in range(len(data) // PIECE + 2):
            with path.open("rb") as source:
                how = broken(source, {**os.environ, **fails, "FAIL_AFTER": str(after)})
                status = desk.alike(f"{name} that breaks off after {after} reads", folder, *words, how=how)
            desk.same(f"the status of {name} that breaks off after {after} reads", status, 1)
        path.unlink()


def reading(data):
    """How a program is run with these bytes on standard input."""
    return lambda: {"input": data}


def broken(source, env):
    """How a program is run with a file on standard input, from its beginning each time."""

    def how():
        source.seek(0)
        return {"stdin": source, "env": env}

    return how


def long_file(empty):
    """A replay file of more than two pieces, with so many empty lines behind its header. Each submission is seen on the
    board."""
    rows = ["contest,x,X,5:00:00,", "type,AC,ok,true,false"]
    rows += [f"problem,p{n},P{n},Problem,{n}" for n in range(40)] + [f"team,t{n},Team {n},," for n in range(150)]
    rows += [f"submission,t{n % 150},p{n // 150},{n // 60 % 5}:{n % 60:02}:00,AC" for n in range(6_000)]
    return ("kind,id,f1,f2,f3\n" + "\n" * empty + "\n".join(sorted(rows, key=time_of)) + "\n").encode()


def time_of(row):
    """Submissions stand by their time, and behind all else."""
    return row.split(",")[3] if row.startswith("submission") else ""


def long_feed(empty):
    """An event feed of the same kind."""
    rows = [("contest", None, CUP), ("judgement-types", "AC", {"name": "ok", "solved": True})]
    rows += [("problems", f"p{n}", {"label": f"P{n}", "name": "Problem", "ordinal": n}) for n in range(20)]
    rows += [("teams", f"t{n}", {"name": f"Team {n}"}) for n in range(50)]
    for n in range(1_000):
        time = f"{n // 60 % 5}:{n % 60:02}:00"
        rows.append(("submissions", f"s{n}", {"team_id": f"t{n % 50}", "problem_id": f"p{n // 50}", "contest_time": time}))
        rows.append(("judgements", f"j{n}", {"submission_id": f"s{n}", "judgement_type_id": "AC"}))
    lines = [compact({"type": kind, "id": row, "data": data}) for kind, row, data in rows]
    return ("\n" * empty + "\n".join(lines) + "\n").encode()


def try_pieces(desk):
    """Files of several pieces of 64 KiB. What stands at a piece's end is each digit of some line in turn."""
    folder = desk.new_folder()
    for words, made, count in ((("replay",), long_file, 40), (("audit", "--jury"), long_feed, 260)):
        data, tried = made(0), 0
        desk.note(len(data) > 2 * PIECE, f"{words}: {len(data)} bytes alone")
        for empty in range(count):
            if data[PIECE - 1 - empty : PIECE - empty].isdigit() or empty == 0:
                tried += 1
                status = desk.alike(f"{empty} empty lines", folder, *words, how=reading(made(empty)))
                desk.same(f"the status of {words} with {empty} empty lines", status, 0)
        desk.note(tried > 5, f"{words}: {tried} files alone")


def final(desk):
    """A folder with the demo contest, of which results are final, and files that the calls name."""
    folder = demo.made(desk, demo.FILES)
    server = Server(desk, folder)
    for at, who, path, body in (
        ("09:30:00", "a1", POSTED_AT, POSTED),
        ("09:31:00", "j1", "/jury/proposals", {"submission_id": "s1-1", "judgement_type_id": "AC"}),
        ("15:00:00", "adm", "/jury/finalize", {}),
    ):
        server.at(f"2024-03-02 {at}")
        data = compact(body).encode()
        fields = f"Host: x\r\nAuthorization: Bearer token-{who}\r\nContent-Length: {len(data)}\r\n"
        reply = server.ask(f"POST {path} HTTP/1.1\r\n{fields}\r\n".encode() + data)
        desk.note(reply.startswith(b"HTTP/1.1 200 "), f"{path}: {reply}")
    server.stop()
    (folder / "board.json").write_text(BOARD, encoding="utf-8")
    return folder


def try_options(desk):
    """Each command with all of its options, each of which changes what is answered."""
    folder, data = final(desk), {"replay": long_file(0), "feed": long_feed(0)}
    helped = desk.run(folder, "help")[1]
    desk.same("the commands", re.findall(r"(?m)^  (\w+)  +[A-Z]", helped), [*OPTIONS, "help"])
    for command, (words, source) in OPTIONS.items():
        words = words.split()
        named = re.findall(r"(?m)^ +(?:-h, )?(--[a-z-]+)", desk.run(folder, command, "--help")[1])
        wanted = {word for word in named if word not in ("--help", "--explain")}
        desk.same(f"the options of {command}", {word for word in words if word.startswith("--")}, wanted)
        status = desk.alike("all options", folder, command, *words, before=AT_NOON, how=reading(data.get(source, b"")))
        desk.note(status in (0, 3), f"{command} {words}: status {status}")


def try_contests(desk):
    """Commands on contests that are whole, damaged or of another kind, which they change or refuse."""
    base = desk.new_folder()
    sqlite.asked(base / "cup.db", sqlite.TABLES + demo.ROWS)
    others = {"other": demo.CONTEST.replace("Demo", "Other"), "late": '[{"id":"late","name":"Late"}]'}
    for name, text in {**demo.FILES, **others}.items():
        (base / name).write_text(text, encoding="utf-8")
    (base / "verdicts").write_text("submission_id,judgement_type_id\ns1-3,AC\n", encoding="utf-8")
    statuses = []
    for what, change in CHANGES:
        folder = desk.new_folder()
        shutil.copytree(base, folder, dirs_exist_ok=True)
        sqlite.asked(folder / "cup.db", change)
        statuses += [desk.alike(what, folder, *call.split(), before=AT_NOON) for call in CALLS]
    for name in ("first_schema.db", "first_schema_without_cells.db"):
        folder = desk.new_folder()
        shutil.copytree(base, folder, dirs_exist_ok=True)
        shutil.copy(DATA / "files" / name, folder / "cup.db")
        statuses += [desk.alike(name, folder, *call.split(), before=AT_NOON) for call in CALLS]
    desk.note(statuses.count(0) > 20 and statuses.count(1) > 60, f"{statuses.count(0)} done and {statuses.count(1)} refused")


PARTS = (try_worked, try_broken, try_pieces, try_options, try_contests)

if __name__ == "__main__":
    sys.exit(program.main(__doc__, Desk, PARTS, program="desk"))
