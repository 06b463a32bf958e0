#!/usr/bin/env -S python3 -B
"""Holds what the commands of `desk` say of a refusal with `--explain` beside what is wanted.

    desk_explain.py [--program PATH] [--every N]

data/tables/desk_explain.txt has calls with their files and answers. Then come bytes that no table can hold, a file that keeps a
contest and can't be had, tables that are full, files that change before they are looked at, streams that fail, accounts
that are spoiled in each field, none of whose tokens may be shown, and calls for memory that are refused, of an import each
Nth (40). Each call is also made without the option: the status, standard output and what the files show are the same
then, and standard error is the line of the refusal alone. At the end each of the words that the sources have for an
explanation was said in one of these calls, but for the few that no call comes to.

Takes cc, sqlite3, faketime and setpriv, and runs as root, which may be another user. Ends with the line `N passed, M
failed`; the exit status is 0 if M is 0.
"""

import errno
import hashlib
import os
import re
import shutil
import sys
import threading
import time

from lib import clock, demo, program, sqlite
from lib.command_cases import cases
from lib.demo import CONTEST
from lib.import_opinion import compact
from lib.program import ROOT, Program, compiled, ran_refused, refused_in_turn
from lib.server import Server
from lib.sqlite import opened

TEAMS = "id,name,group_ids,hidden\n" + "".join(f"n{n},Team {n},,\n" for n in range(1, 501))
# Another user, who may neither read nor write what root alone may.
NOBODY = ["setpriv", "--reuid=65534", "--regid=65534", "--clear-groups"]
COMMANDS = ("replay", "audit", "init", "import", "board", "awards", "export", "feed", "serve", "upgrade")
# Those that read a file which keeps a contest, with what they take beside it.
ON_FILE = (("board",), ("awards",), ("export",), ("export", "--format", "icpc"), ("feed",), ("serve", "--requests", "1"),
           ("upgrade",), ("import", "teams-csv", "teams.csv"))  # fmt: skip
FAULT, FILE = "refused: E24 StoreFault\n", "refused: File\n"
MALFORMED = "refused: E22 ImportRow 1 Malformed\n"
COPY = "Go on from a copy."
# What is done to a table, and what is said of the file then.
SPOILED = [
    ("UPDATE desk SET version = 3", f"it is damaged, in the table desk or contest. {COPY}"),
    ("UPDATE contest SET duration = 0", f"it is damaged, in the table desk or contest. {COPY}"),
    ("UPDATE items SET label = '' WHERE kind = 3 AND place = 1", f"it is damaged, in the table items. {COPY}"),
    ("UPDATE accounts SET role = 9 WHERE id = 'j1'", f"it is damaged, in the table accounts. {COPY}"),
    ("UPDATE submissions SET k = k + 100", f"it is damaged, in the table submissions. {COPY}"),
    ("UPDATE proposals SET account = 'nobody'", f"it is damaged, in the table proposals. {COPY}"),
    ("UPDATE releases SET type = 'XX'", f"it is damaged, in the table releases. {COPY}"),
    ("UPDATE rejudgings SET state = 7", f"it is damaged, in the table rejudgings or members. {COPY}"),
    ("UPDATE members SET ready = 2", f"it is damaged, in the table rejudgings or members. {COPY}"),
    ("UPDATE notices SET text = ''", f"it is damaged, in the table notices. {COPY}"),
    ("UPDATE cells SET judged = judged + 1",
     "the rows of its table cells aren't what the other tables come to. If these are right, take it out (sqlite3 FILE 'DROP TABLE cells'): "
     "the next command makes it anew."),
    ("DROP TABLE cells; UPDATE accounts SET role = 9 WHERE id = 'j1'",
     "its table cells was taken out, and the others can't be read so."),
    ("DROP TABLE notices", f"it lacks a table, or is a damaged one of the first schema. {COPY}"),
    ("DROP TABLE members",
     "its tables aren't those of a desk. It is another program's, or somebody added or took out a table, a column or an index."),
]  # fmt: skip


def bytes_in(folder):
    """The bytes of each file in a folder; of a log only that it is there, since each opening begins it anew."""
    files = [path for path in sorted(folder.iterdir()) if path.is_file()]
    return {path.name: None if path.name.endswith("-wal") else path.read_bytes() for path in files}


class Desk(Program):
    """The program, where another user may come to it, and what was counted."""

    def __init__(self, options, folder):
        super().__init__(options, folder)
        folder.chmod(0o755)
        self.path, self.told = shutil.copy(options.program, folder), set()
        os.chmod(self.path, 0o755)

    def new_folder(self):
        folder = super().new_folder()
        (folder / "contest.json").write_text(CONTEST, encoding="utf-8")
        (folder / "past.json").write_text(demo.STARTED, encoding="utf-8")
        (folder / "teams.csv").write_text(TEAMS, encoding="utf-8")
        return folder

    def explains(self, what, wanted, folder, *words, data=None, **how):
        """A call is refused with this line, and with `--explain` with these lines behind it; else they are alike, and the second
        leaves the files as the first did. Answers what was said."""
        line, _, lines = wanted.partition("\n")
        given = self.run(folder, *words, input=data, **how)
        self.same(f"{what}, without --explain", given, (1, "", f"{line}\n"))
        was = bytes_in(folder), sqlite.shown(folder)
        self.same(what, self.run(folder, *words, "--explain", input=data, **how), (1, "", f"{line}\n{lines}"))
        self.note((bytes_in(folder), sqlite.shown(folder)) == was, f"{what}: a file has changed")

    def run(self, folder, *words, **how):
        """What it answers; what it says on standard error is kept."""
        given = super().run(folder, *words, **how)
        self.told |= set(given[2].splitlines())
        return given


# Characters that none sees, the first and the last of those that stand together: they lay out what is around them.
UNSEEN = "\u00ad\u061c\u200b\u200f\u2028\u202e\u2060\u2066\u2069\u206f\ufeff\ufff9\ufffb"
AS_MANY = "which is as many as there may be."
# What else a row of settings has, by its number.
MEMBERS = {
    "judgement-types": lambda n: {"solved": True},
    "problems": lambda n: {"label": f"L{n}", "ordinal": 0},
}
# As many proposals for the staff's submission as there may be.
MANY_PROPOSALS = """WITH RECURSIVE n(i) AS (SELECT 5 UNION ALL SELECT i + 1 FROM n WHERE i < 1004)
INSERT INTO proposals SELECT i, 4, 1, 'WA', 'j1', 1709370600000 FROM n;"""


def said(line, *lines):
    """A refusal with the lines behind it."""
    return line + "".join(f"  {it}\n" for it in lines)


def try_table(desk):
    for title, steps in cases("desk_explain.txt"):
        folder = desk.new_folder()
        for sign, head, rest in steps:
            what = f"{title}: {head}"
            call, _, source = head.partition(" < ")
            if sign == ">":
                (folder / head).write_text(rest, encoding="utf-8")
            elif rest.startswith("refused:"):
                data = (folder / source).read_bytes() if source else None
                desk.explains(what, rest, folder, *call.split(), data=data)
            else:
                desk.same(what, desk.run(folder, *call.split(), "--explain"), (0, rest, ""))


def try_bytes(desk):
    """What a terminal would obey isn't written, and what is long is cut."""
    folder = desk.new_folder()
    desk.run(folder, "init", "cup.db", "contest.json")
    head = b"id,name,group_ids,hidden\n"
    right = "Right would be: 1 to 200 bytes of UTF-8 without control characters."
    for what, name, shown in (
        ("an escape", b"\x1b[31mred\x07", r'"\x1b[31mred\x07"'),
        ("a control character of two bytes", "A\u009bB".encode(), r'"A\x9bB"'),
        ("Latin-1", "Gäste".encode("latin-1"), r'"G\xe4ste"'),
        ("a name that is too long", "é".encode() * 101, '"' + "é" * 60 + '" and so on, 202 bytes'),
        ("bytes that are too many", b"\xff" * 61, '"' + r"\xff" * 60 + '" and so on, 61 bytes'),
        ("a turn of the text", "a\u202eb\u2028c\n".encode(), r'"a?b?c\x0a"'),
        ("what isn't seen", f"{UNSEEN}\n".encode(), f'"{"?" * len(UNSEEN)}' + r'\x0a"'),
    ):
        (folder / "it.csv").write_bytes(head + b't1,"' + name + b'",,\n')
        lines = ("Record 1 begins in line 2 of it.csv.", f"name is {shown}. {right}")
        desk.explains(what, said("refused: E22 ImportRow 1 Malformed\n", *lines), folder, "import", "cup.db", "teams-csv", "it.csv")
    for what, start, end in (("a mark", b"\xef\xbb\xbf", b"\n"), ("both ends of a line", b"", b"\r\n"), ("returns", b"", b"\r")):
        (folder / "it.csv").write_bytes(start + head.replace(b"\n", end) + b"t1,A,," + end * 2 + b"t2,,," + end)
        lines = ("Record 2 begins in line 4 of it.csv.", f'name is "". {right}')
        desk.explains(what, said("refused: E22 ImportRow 2 Malformed\n", *lines), folder, "import", "cup.db", "teams-csv", "it.csv")
    (folder / "it.csv").write_bytes(head.decode().encode("utf-16"))
    lines = ("The first record of it.csv isn't the header. Right would be: id,name,group_ids,hidden", "The file is UTF-16. Save it as UTF-8.")
    desk.explains("UTF-16", said("refused: E1 Malformed\n", *lines), folder, "import", "cup.db", "teams-csv", "it.csv")
    name = "it\x1b[1m.csv"
    lines = (r"it\x1b[1m.csv: there is no such file.",)
    desk.explains("a path", said(FILE, *lines), folder, "import", "cup.db", "teams-csv", name)


def try_sizes(desk):
    """Files that are too large, and a line of a feed behind what is kept."""
    folder = desk.new_folder()
    desk.run(folder, "init", "cup.db", "contest.json")
    (folder / "large").write_bytes(b" " * 16_777_217)
    large, more = "refused: E6 BodyTooLarge\n", "The file has more than 16,777,216 bytes."
    desk.explains("a large contest", said(large, more), folder, "init", "cup.db", "large")
    desk.explains("a large replay", said(large, more), folder, "replay", data=(folder / "large").read_bytes())
    cut = f"{more} Cut it into several, each with the header or as an array: an import adds what isn't there yet."
    desk.explains("a large import", said(large, cut), folder, "import", "cup.db", "groups", "large")
    line = "A line of the feed has more than 16,777,216 bytes, all have more than 1,073,741,824, or the file of --against has more than 16,777,216."
    desk.explains("a large line", said(large, line), folder, "audit", data=(folder / "large").read_bytes())
    far = (b" " * 16_000_000 + b"\n") * 5 + b"[]\n"
    behind = "The line is behind the first 64 MiB, which alone are looked at."
    desk.explains("a line far behind", said("refused: E22 ImportRow 6 Malformed\n", behind), folder, "audit", data=far)


def try_store(desk):
    """A file that keeps a contest and can't be had."""
    folder = desk.new_folder()
    desk.run(folder, "init", "cup.db", "contest.json")
    (folder / "text.db").write_text("not a database, but a text of some length\n", encoding="utf-8")
    (folder / "empty.db").touch()
    sqlite.asked(folder / "other.db", "CREATE TABLE other (it)")
    sqlite.asked(folder / "virtual.db", "CREATE VIRTUAL TABLE other USING fts5(it)")
    (folder / "torn.db").write_bytes((folder / "cup.db").read_bytes()[:4096] + b"?" * 8192)
    other = "its tables aren't those of a desk. It is another program's, or somebody added or took out a table, a column or an index."
    for name, words in (
        ("none.db", "there is no such file. desk init makes one."),
        (".", "it is a directory."),
        ("text.db", "it is no database of SQLite, so it keeps no contest."),
        ("empty.db", "it has no tables. desk init makes a contest in it."),
        ("other.db", other),
        ("virtual.db", f"its tables are none that a desk reads, or it is damaged. {COPY}"),
        ("torn.db", f"it is damaged. {COPY}"),
    ):
        for command, *more in ON_FILE:
            desk.explains(f"{command} of {name}", said(FAULT, f"{name}: {words}"), folder, command, name, *more)
    desk.explains("results that aren't final", "refused: E9 NotOpen\n", folder, "export", "cup.db", "--format", "icpc")
    made = "it can't be made. Its folder isn't there, or this user may not write into it."
    desk.explains("no folder", said(FAULT, f"none/cup.db: {made}"), folder, "init", "none/cup.db", "contest.json")
    (folder / "cup.db").chmod(0o600)
    own = "this user may not read it."
    desk.explains("another's", said(FAULT, f"cup.db: {own}"), folder, "export", "cup.db", before=NOBODY)
    (folder / "cup.db").chmod(0o644)
    alone = "it can't be opened to be read and written. This user may not write it or into its folder, or its disk can't be written."
    desk.explains("what is read alone", said(FAULT, f"cup.db: {alone}"), folder, "export", "cup.db", before=NOBODY)
    served = Server(desk, folder)
    busy = "another program has it open, perhaps desk serve or sqlite3. Wait until that has ended."
    desk.explains("what is served", said(FAULT, f"cup.db: {busy}"), folder, "import", "cup.db", "teams-csv", "teams.csv")
    served.stop()


def try_disk(desk):
    """A disk that fails from the first call on, and one that fails at that call alone."""
    library = compiled("fail_disk", desk.folder)
    folder = desk.new_folder()
    desk.run(folder, "init", "cup.db", "contest.json")
    env = {**os.environ, "LD_PRELOAD": library, "FAIL_EARLY": "1", "FAIL_CALL": "1"}
    words = "its disk failed, or the system refused to open it."
    desk.explains("a disk that fails", said(FAULT, f"cup.db: {words}"), folder, "board", "cup.db", env={**env, "FAIL_LATER": "1"})
    words = "it can be opened now. Another program had it open, or its disk failed for a moment. Try again."
    desk.explains("a call that fails", said(FAULT, f"cup.db: {words}"), folder, "board", "cup.db", env=env)


def try_spoiled(desk):
    """Each table in turn is spoiled by a row, and told."""
    folder = desk.new_folder()
    sqlite.asked(folder / "cup.db", sqlite.TABLES + demo.ROWS)
    desk.note(desk.run(folder, "board", "cup.db")[0] == 0, "the demo contest of sqlite3 isn't read")
    was = (folder / "cup.db").read_bytes()
    for statement, words in SPOILED:
        (folder / "cup.db").write_bytes(was)
        (folder / "cup.db-wal").unlink(missing_ok=True)
        with opened(folder / "cup.db") as database:
            changed = [database.execute(one).rowcount for one in statement.split("; ")]
        desk.note(0 not in changed, f"{statement}: there is no such row")
        desk.explains(statement, said(FAULT, f"cup.db: {words}"), folder, "board", "cup.db")


def rows_in(kind, count):
    """So many rows that may stand side by side, as a file of settings has them, each in a line of its own."""
    objects = [{"id": f"r{n}", "name": "Name", **MEMBERS.get(kind, lambda n: {})(n)} for n in range(count)]
    return "[" + ",\n".join(map(compact, objects)) + "]"


def try_full(desk):
    """Each table with as many rows as it may have, and one more."""
    folder = desk.new_folder()
    desk.run(folder, "init", "cup.db", "contest.json")
    for kind, most in (("judgement-types", 40), ("languages", 40), ("groups", 50), ("problems", 40), ("teams", 500)):
        name = kind.replace("-", " ")
        (folder / "rows.json").write_text(rows_in(kind, most + 1), encoding="utf-8")
        begins = f"Record {most + 1} begins in line {most + 1} of rows.json."
        lines = (begins, f"There are {most} {name} already, {AS_MANY}")
        desk.explains(f"{most + 1} {name}", said(full(most + 1), *lines), folder, "import", "cup.db", kind, "rows.json")
    accounts = "".join(f"r{n},judge,,token-{n:04}\n" for n in range(2_001))
    (folder / "accounts.csv").write_text(f"id,role,team_id,token\n{accounts}", encoding="utf-8")
    lines = ("Record 2001 begins in line 2002 of accounts.csv.", f"There are 2,000 accounts already, {AS_MANY}")
    desk.explains("2,001 accounts", said(full(2_001), *lines), folder, "import", "cup.db", "accounts-csv", "accounts.csv")
    head = "kind,id,f1,f2,f3\ncontest,demo,Demo,5:00:00,\nproblem,a,A,Apples,0\nteam,t1,Alpha,,\n"
    lines = ("Record 504 begins in line 505 of standard input.", f"Its team has 500 submissions already, {AS_MANY}")
    data = (head + "submission,t1,a,0:05:00,\n" * 501).encode()
    desk.explains("501 submissions", said(full(504), *lines), folder, "replay", data=data)


def full(number):
    return f"refused: E22 ImportRow {number} TableFull\n"


def try_verdicts(desk):
    """Verdicts on a submission that has as many proposals as it may have, and on one whose verdict was given here."""
    folder = desk.new_folder()
    sqlite.asked(folder / "cup.db", sqlite.TABLES + demo.ROWS)
    sqlite.asked(folder / "cup.db", MANY_PROPOSALS)
    for which, line, words in (
        ("s4-1", full(1), f"There are 1,000 proposals for the submission already, {AS_MANY}"),
        ("s2-1", "refused: E22 ImportRow 1 AlreadyReleased\n",
         "The submission has a judgement that was given here. A rejudging can change it."),
    ):
        (folder / "it.csv").write_text(f"submission_id,judgement_type_id\n{which},AC\n", encoding="utf-8")
        lines = ("Record 1 begins in line 2 of it.csv.", words)
        desk.explains(f"a verdict on {which}", said(line, *lines), folder, "import", "cup.db", "verdicts-csv", "it.csv")


def changing(path, contents):
    """Has who opens the path find each of these in turn, and nothing there after them."""
    os.mkfifo(path)
    for left in range(len(contents) - 1, -1, -1):
        with path.open("wb") as pipe:
            path.unlink()
            if left:
                os.mkfifo(path)
            pipe.write(contents[-left - 1])


def try_changed(desk):
    """Files that are others once the command has ended, or gone, and ones that can be read then."""
    folder = desk.new_folder()
    desk.run(folder, "init", "cup.db", "contest.json")
    head, path = b"id,name,group_ids,hidden\n", folder / "it.csv"
    wrong, right = head + b"t1,Alpha,,no\n", head + b"t1,Alpha,,true\n"
    begins = "Record 1 begins in line 2 of it.csv."
    for what, contents, lines in (
        ("gone", [wrong], ["it.csv: it can't be read again to say more."]),
        ("shorter", [wrong, head], ["The file has no such record now: it was changed meanwhile."]),
        ("right", [wrong, right], [begins, "Each of its fields is right. It was changed meanwhile."]),
    ):
        writer = threading.Thread(target=changing, args=(path, contents), daemon=True)
        writer.start()
        while not path.exists():
            time.sleep(0.001)
        given = desk.run(folder, "import", "cup.db", "teams-csv", "it.csv", "--explain")
        writer.join(10)
        desk.same(f"a file that is {what}", given, (1, "", said(MALFORMED, *lines)))
    library, path = compiled("fail_read", desk.folder), folder / "teams.csv"
    for times, words in (("1", "its first byte can be read now. Its disk failed, or it was changed meanwhile."),
                         ("9", "its disk failed, or the system refused to open it.")):  # fmt: skip
        fails = {"FAIL_PATH": str(path), "FAIL_TIMES": times, "FAIL_ERROR": str(errno.EIO)}
        env = {**os.environ, "LD_PRELOAD": library, **fails}
        wanted = said(FILE, f"teams.csv: {words}")
        desk.explains(f"{times} reads that fail", wanted, folder, "import", "cup.db", "teams-csv", "teams.csv", env=env)


def try_old(desk):
    """Tables of the first schema."""
    folder = desk.new_folder()
    sqlite.asked(folder / "cup.db", sqlite.FIRST_TABLES + demo.FIRST_ROWS)
    wanted = said("refused: E26 OldSchema\n", "FILE has the tables of the first schema. Copy it, then run desk upgrade FILE.")
    for command, *more in ON_FILE:
        if command != "upgrade":
            desk.explains(f"{command} of the first schema", wanted, folder, command, "cup.db", *more)


def try_streams(desk):
    """Standard streams that fail, a clock of no moment, and a port that is taken."""
    folder = desk.new_folder()
    desk.run(folder, "init", "cup.db", "contest.json")
    full = "Standard output failed: who reads it ended, or it goes to a file whose disk is full."
    with open("/dev/full", "wb") as out:
        for words in (("board", "cup.db"), ("import", "cup.db", "teams-csv", "teams.csv")):
            desk.explains(f"{words} to a full disk", said(FILE, full), folder, *words, stdout=out)
    unread = os.open("/", os.O_RDONLY)
    for command in ("replay", "audit"):
        given = desk.run(folder, command, "--explain", stdin=unread)
        desk.same(f"{command} of a folder", given, (1, "", said(FILE, "Standard input can't be read to its end.")))
    os.close(unread)
    lines = ("The machine's clock can't be read, or shows no moment of the years 1970 to 9998.",
             "Set the clock. desk board, awards and feed can be given a moment by --at.")  # fmt: skip
    early = clock.at("1969-12-31 23:59:59")
    desk.explains("a clock of no moment", said("refused: Clock\n", *lines), folder, "board", "cup.db", before=early)
    other = desk.new_folder()
    desk.run(other, "init", "cup.db", "contest.json")
    served = Server(desk, other)
    lines = ("The port can't be had, or nobody can connect to it any more. Perhaps another program listens on it, or its number is below 1024 "
             "and this user has no right to it.", "Choose another one by --port, or leave that out, and the system chooses.")  # fmt: skip
    words = ("serve", "cup.db", "--requests", "1", "--port", served.port)
    desk.explains("a port that is taken", said("refused: Net\n", *lines), folder, *words)
    served.stop()


def try_tokens(desk):
    """Accounts with each field spoiled in turn, moved, left out or quoted: no token is shown, nor its digest. So it is
    where no account stands yet, and where all stand, with the teams."""
    folder = desk.new_folder()
    desk.run(folder, "init", "cup.db", "contest.json")
    spoil_accounts(desk, folder, 1)
    folder = demo.made(desk, demo.FILES)
    refused_calls = spoil_accounts(desk, folder, 0)
    desk.note(refused_calls > 80, f"{refused_calls} files of accounts are refused where all stand")


def spoil_accounts(desk, folder, least):
    """Imports spoiled accounts, each of which has this status at least, and says nothing of a token. Answers how many are
    refused."""
    count = 0
    rows = [line.split(",") for line in demo.FILES["accounts-csv"].splitlines()[1:]]
    tokens = [row[3] for row in rows]
    secret = tokens + [hashlib.sha256(token.encode()).hexdigest() for token in tokens]
    files = []
    for place in range(4):
        for value in ("", "x y", "\x1b", tokens[0], '"', "x" * 300):
            files.append([row[:place] + [value] + row[place + 1 :] if at == 1 else row for at, row in enumerate(rows)])
        files.append([row[place:] + row[:place] for row in rows])
        files.append([row[:place] + row[place + 1 :] for row in rows])
        files.append([row[:place] + [f'"{row[place]}'] + row[place + 1 :] for row in rows])
    files += [[row + row[:1] for row in rows], rows + [["new", "judge", "", tokens[0]]], [[row[3], *row[1:]] for row in rows]]
    for head in ("id,role,team_id,token\n", "id,role,team_id\n", ""):
        for fields in files:
            (folder / "accounts.csv").write_text(head + "".join(",".join(row) + "\n" for row in fields), encoding="utf-8")
            status, out, err = desk.run(folder, "import", "cup.db", "accounts-csv", "accounts.csv", "--explain")
            shown = [it for it in secret if it in out + err]
            is_told = err.count("\n") > 1 if status else err == ""
            desk.note(least <= status < 2 and is_told and not shown, f"{head}{fields}: {status}, {shown} in {err!r}")
            count += status
    return count


def try_memory(desk):
    """Each call for memory, of an import each Nth, is refused in turn: the refusal is the same or want of memory, and what is said of it is whole or nothing."""
    library, folder = compiled("refuse_call", desk.folder), desk.new_folder()
    desk.run(folder, "init", "cup.db", "contest.json")
    feed = b'{"type":"teams","data":[{"id":"a","name":"A"},{"id":"b","name":7}]}\n'
    replay = b"kind,id,f1,f2,f3\ncontest,demo,Demo,5:00:00,\nteam,t1,Alpha,,\nteam,t1,Beta,,\n"
    (folder / "problems.json").write_text('[{"id":"a","label":7,"name":"A","ordinal":0}]', encoding="utf-8")
    memory = b"refused: E25 Memory\n"
    importing = ("import", "cup.db", "problems", "problems.json")
    for words, data, step in ((("replay",), replay, 1), (("audit",), feed, 1), (importing, b"", desk.options.every)):
        whole = [desk.path, *words, "--explain"]
        err = ran_refused(whole, library, 0, False, input=data, cwd=folder)[0][2]
        line = err.partition(b"\n")[0] + b"\n"
        right = [line, err, memory, memory + b"  The system gave no more memory. Nothing was changed. Try again with more.\n"]
        seen = set()

        def one(call):
            own = desk.new_folder()
            shutil.copytree(folder, own, dirs_exist_ok=True)
            given, count = ran_refused(whole, library, call, False, input=data, cwd=own)
            shutil.rmtree(own)
            desk.note(given[:2] == (1, b"") and given[2] in right, f"{words}, call {call} refused: {given}, none of {right}")
            seen.add(given[2])
            desk.told.update(given[2].decode(errors="replace").splitlines())
            return count, given[2].startswith(memory)

        desk.note(refused_in_turn(one, step) > 0 and line in seen and line != err, f"{words}: {seen}")


def try_words(desk):
    """Where the option may stand, how often, what is done with it, and that the help of each command has it."""
    folder = desk.new_folder()
    desk.same("what is done", desk.run(folder, "init", "--explain", "cup.db", "contest.json"), (0, "", ""))
    board = desk.run(folder, "board", "cup.db")
    for words in (("--explain", "cup.db"), ("cup.db", "--explain"), ("--audience", "public", "--explain", "cup.db")):
        desk.same(f"board {words}", desk.run(folder, "board", *words), board)
    for words in (("--explain", "--explain", "cup.db"), ("--", "cup.db", "--explain"), ("cup.db", "--explained"), ("--explain=1", "cup.db")):
        status, out, err = desk.run(folder, "board", *words)
        desk.note((status, out) == (2, "") and err.startswith("error:"), f"board {words}: {(status, out, err)}")
    for words in ((), ("cup.db", "more"), ("cup.db", "--at", "x")):
        desk.same(f"board {words}", desk.run(folder, "board", *words, "--explain"), desk.run(folder, "board", *words))
    status, out, err = desk.run(folder, "--explain")
    desk.note((status, out) == (2, "") and err.startswith("error: unknown command '--explain'"), f"--explain alone: {(status, out, err)}")
    for command in COMMANDS:
        shown = desk.run(folder, command, "--help")
        desk.note(shown[0] == 0 and "--explain " in shown[1], f"help of {command}: {shown}")
        desk.same(f"help of {command} with the option", desk.run(folder, command, "--explain", "--help"), shown)
    differs = '{"rows":[{"team_id":"t","rank":1,"score":{"num_solved":1,"total_time":1}}]}'
    (folder / "other.json").write_text(differs, encoding="utf-8")
    feed = b'{"type":"contest","id":null,"data":{"id":"x","name":"X","duration":"5:00:00"}}\n'
    given = [desk.run(folder, "audit", "--against", "other.json", *more, input=feed) for more in ((), ("--explain",))]
    desk.note(given[0][0] == 3 and given[0] == given[1], f"a board that differs: {given}")


# A text of the sources, or a comment or a character, which is none.
SOURCE_TEXT = re.compile(
    r"""//[^\n]*|b?'(?:[^'\\]|\\.|\\u\{\w+\})'|(?P<bytes>b?)(?:r#"(?P<raw>.*?)"#|"(?P<text>(?:[^"\\]|\\.)*)")""", re.S
)
# What no call here comes to, and why.
UNSAID = {
    "A stream failed.": "of standard input and output it is known which failed",
    "there isn't memory enough to open it": "memory would have to lack once the command has ended, and be there to say so",
    "its disk is full": "a file is opened without a byte more on its disk",
    "it is damaged: a table can't be read. Go on from a copy": "a page that is damaged is found as the file is opened",
    "An event that takes away has no array as its data, and one with an array has no id; else it or its object needs an id.":
    "of a type that is read, the words of its objects come first",
}  # fmt: skip


def texts_of(crate):
    """The texts of a crate's sources that are words for people, without what is put into them."""
    for file in sorted((ROOT / "crates" / crate / "src").glob("*.rt")):
        for found in SOURCE_TEXT.finditer(file.read_text(encoding="utf-8")):
            text = found["raw"] if found["raw"] is not None else found["text"]
            if text and not found["bytes"]:
                text = re.sub(r"\\\n\s*", "", text).replace('\\"', '"').replace("\\n", "\n").replace("\\\\", "\\")
                yield from (piece.strip() for piece in re.split(r"\{\w*(?::\w+)?\}", text) if " " in piece.strip())


def try_all_said(desk):
    """Each of the words that the sources have was said, but for those that nothing here comes to."""
    said_here = "\n".join(desk.told)
    texts = {text for crate in ("contest_file_faults", "contest_cli_explain") for text in texts_of(crate)}
    desk.note(len(texts) > 150, f"{len(texts)} texts alone")
    desk.same("words that were never said", sorted(text for text in texts - set(UNSAID) if text not in said_here), [])
    stale = sorted(text for text in UNSAID if text in said_here or text not in texts)
    desk.same("words that are said after all, or gone", stale, [])


PARTS = (try_table, try_bytes, try_sizes, try_store, try_disk, try_spoiled, try_full, try_verdicts, try_changed, try_old,
         try_streams, try_tokens, try_memory, try_words, try_all_said)  # fmt: skip

if __name__ == "__main__":
    sys.exit(program.main(__doc__, Desk, PARTS, program="desk", every=40))
