#!/usr/bin/env -S python3 -B
"""Makes files with sqlite3, and holds what the store answers that is opened over them.

    store_files.py [--program PATH] [--every N] [--no-memory]

The program is probe, which opens a file as the store does, sets the thaw or walks through calls of a store. What is in
a file afterwards is asked of sqlite3. data/tables/store_demo.sql is a contest. Each row of data/tables/store_rows.tsv
changes it: most break one rule of what a contest is, and the others go up to a limit or look odd and are valid.
data/tables/store_files.tsv has other databases: tables like those of a contest, but for a column, a key or a word, and
a contest's tables made in other ways. Then come files that are no database, damaged ones, paths, links, and a file that
sqlite3 is writing. What is refused is E24, or E26 if the first schema stands in it, and keeps its bytes; a thaw changes
one cell or nothing. The table of cells has no row at first: the first open fills it, with the cells that
lib/cells_opinion.py counts.

Then probe walks through loads, appends, commits and reads of a file while one of its calls on the files fails, each in turn,
alone and with all after it (lib/fail_disk.c): what fails is E24 and counted, and what comes after works on the last commit,
unless the failure shut the store. At the end each call for memory of a thaw is refused in turn (lib/refuse_call.c), some
7,600, each alone and all from one on: the answer is `done` or E25, and after E25 the file shows what it did before. That takes
one to two minutes of four processors; --every N refuses each Nth alone, --no-memory none.

Takes sqlite3 and a C compiler. Ends with the line `N passed, M failed`; the exit status is 0 if M is 0.
"""

import os
import pathlib
import random
import re
import shutil
import subprocess
import sys
import tempfile

from lib import cells_opinion, demo, program, sqlite
from lib.program import DATA, Program, compiled, ran, ran_refused
from lib.sqlite import FIRST_TABLES, TABLES, dump

COUNTS = "3 2 3 2 4 7 5 4 4 3 4"
OPEN = (0, f"open: {COUNTS}\n", "")
DONE = (0, "done\n", "")
FAULT = (1, "refused: E24 StoreFault\n", "")
OLD = (1, "refused: E26 OldSchema\n", "")
MEMORY = (1, "refused: E25 Memory\n", "")
THAW = 1709388000000
LAST_MOMENT = 253370764799999

# Words that are none, with a file that isn't there.
WORDS = [
    [],
    ["open"],
    ["shut", "{}"],
    ["open", "{}", "{}"],
    ["thaw", "{}"],
    ["thaw", "{}", ""],
    ["thaw", "{}", "-1"],
    ["thaw", "{}", "1e3"],
    ["thaw", "{}", str(LAST_MOMENT + 1)],
    ["thaw", "{}", str(2**64)],
    ["thaw", "{}", "1", "2"],
    ["walk", "{}", "1"],
    ["demo", "{}", "4"],
    ["demo", "{}", "4", "-1"],
]

# What probe's walk does, with the thaw that each change sets.
WALK = [
    ("lists", 0), ("append", 1), ("lists", 0), ("file", 0), ("commit", 0), ("lists", 0), ("append", 2), ("file", 0),
    ("commit", 0), ("commit", 0), ("lists", 0), ("append", 1), ("lists", 0), ("commit", 0), ("file", 0), ("lists", 0),
]
# How long the file is that a walk reads. With it there are more pages than the program keeps in memory.
LARGE = 250_000


def rows(name):
    """The rows of a table of cases, each a list of its columns."""
    lines = (DATA / "tables" / name).read_text(encoding="utf-8").splitlines()
    return [line.split("\t") for line in lines if not line.startswith("#")]


def filled(sql):
    """The SQL of a case with the tables and the rows that it names."""

    def tables(named):
        if named[1] is None:
            return TABLES
        if TABLES.count(named[1]) != 1:
            sys.exit(f"{named[1]!r} stands {TABLES.count(named[1])} times in the tables")
        return TABLES.replace(named[1], named[2])

    now = re.sub(r"\{TABLES(?:\|([^|}]*)\|([^|}]*))?\}", tables, sql).replace("{ROWS}", demo.ROWS)
    return now.replace("{FIRST}", FIRST_TABLES).replace("{FIRST ROWS}", demo.FIRST_ROWS)


def thawed(text, moment):
    """What sqlite3 shows once the thaw is set: the contest's row has it, and all else is as it was."""
    return re.sub(r"(?m)^(INSERT INTO contest VALUES\(.*),[^,]*,([^,]*\);)$", rf"\1,{moment},\2", text)


def without_cells(shown):
    """What sqlite3 shows but for the table of cells, which an open makes and fills."""
    return re.sub(r"(?m)^(CREATE TABLE|INSERT INTO) cells .*\n", "", shown)


def cells_in(shown):
    """The rows of cells in what sqlite3 shows."""
    return re.findall(r"(?m)^INSERT INTO cells .*$", shown)


def answer_of(cell):
    return {"E24": FAULT, "E26": OLD}.get(cell, (0, f"open: {cell}\n", ""))


class Probe(Program):
    """The program, the folder in which each case has a file of its own, and what was counted."""

    def __init__(self, options, folder):
        super().__init__(options, folder)
        self.good = self.new_file()
        sqlite.asked(self.good, TABLES + demo.ROWS)

    def new_file(self):
        self.made += 1
        return self.folder / f"case{self.made}.db"

    def run(self, *words):
        return super().run(self.folder, *words)

    def copy(self):
        """The demo contest in a file of its own."""
        path = self.new_file()
        shutil.copy(self.good, path)
        return path

    def fills(self, path, shown):
        """The file shows what it did, beside right cells, and keeps its bytes if it is opened once more."""
        was, right = path.read_bytes(), cells_opinion.differences(path) == ([], [])
        self.run("open", path)
        return right and without_cells(dump(path)) == without_cells(shown) and path.read_bytes() == was

    def holds(self, what, path, wanted):
        """An open gives this answer, and the file keeps its bytes and all that it shows, but for cells that are filled."""
        was, shown = path.read_bytes(), dump(path)
        given = self.run("open", path)
        same = self.fills(path, shown) if wanted[0] == 0 else path.read_bytes() == was and dump(path) == shown
        self.note(given == wanted and same, f"{what}: {given}, wanted {wanted}, {'as before' if same else 'changed'}")

    def thaws(self, what, path, wanted):
        """A thaw is made whole or refused, and nothing else changes."""
        was, shown = path.read_bytes(), dump(path)
        given = self.run("thaw", path, THAW)
        if wanted == DONE:
            same = without_cells(dump(path)) == thawed(without_cells(shown), THAW) != without_cells(shown)
        else:
            same = path.read_bytes() == was and dump(path) == shown
        shows = "right" if same else "but sqlite3 shows otherwise"
        self.note(given == wanted and same, f"thaw of {what}: {given}, wanted {wanted}, {shows}")


def try_demo(probe):
    """The demo contest is opened, thawed and written by both in turn."""
    path = probe.copy()
    probe.holds("the demo contest", path, OPEN)
    probe.holds("the demo contest once more", path, OPEN)
    probe.thaws("the demo contest", path, DONE)
    probe.holds("the demo contest once it is thawed", path, OPEN)
    for moment in (0, LAST_MOMENT):
        shown = dump(path)
        probe.answers(f"the thaw at {moment}", DONE, "thaw", path, moment)
        probe.note(dump(path) == thawed(shown, moment), f"the thaw at {moment} isn't all that changed")
    sqlite.asked(path, "INSERT INTO releases VALUES (5, 4, 1, 1, 'AC', 1709371000000)")
    probe.holds("what sqlite3 wrote beside the cells", path, FAULT)
    sqlite.asked(path, "DELETE FROM cells")
    probe.holds("what sqlite3 wrote after it", path, (0, "open: 3 2 3 2 4 7 5 4 5 3 4\n", ""))
    sqlite.asked(path, "UPDATE releases SET n = 2 WHERE seq = 5")
    probe.holds("what sqlite3 wrote wrong after it", path, FAULT)
    probe.thaws("what sqlite3 wrote wrong after it", path, FAULT)


def try_rows(probe):
    """Each change of the demo contest leaves a contest or breaks a rule."""
    for cell, what, sql in rows("store_rows.tsv"):
        path = probe.copy()
        sqlite.asked(path, sql)
        given = answer_of(cell)
        probe.holds(what, path, given)
        probe.thaws(what, path, DONE if given[0] == 0 else given)
        path.unlink()


def try_databases(probe):
    for cell, what, sql in rows("store_files.tsv"):
        path = probe.new_file()
        sqlite.asked(path, filled(sql))
        given = answer_of(cell)
        probe.holds(what, path, given)
        probe.thaws(what, path, DONE if given[0] == 0 else given)


def keeps(probe, what, path, data):
    """A file with these bytes is refused, and keeps them."""
    path.write_bytes(data)
    probe.answers(what, FAULT, "open", path)
    probe.answers(f"thaw of {what}", FAULT, "thaw", path, THAW)
    probe.note(path.read_bytes() == data, f"{what} has changed")


def try_no_databases(probe):
    """Files that are no databases are refused and keep their bytes. Where there is none, or one that was hardly begun, an
    open makes a database without tables."""
    good, chance = probe.good.read_bytes(), random.Random(1)
    keeps(probe, "a text", probe.new_file(), b"kind,id,f1,f2,f3\ncontest,demo,Demo Cup,5:00:00,1:00:00\n")
    keeps(probe, "statements", probe.new_file(), (TABLES + demo.ROWS).encode())
    keeps(probe, "garbage", probe.new_file(), chance.randbytes(20000))
    keeps(probe, "garbage that begins with an S", probe.new_file(), b"S" + chance.randbytes(20000))
    keeps(probe, "a database's header and garbage", probe.new_file(), good[:100] + chance.randbytes(20000))
    keeps(probe, "a database's first page", probe.new_file(), good[:4096])
    for size in (2, 99, 100, 4095, 4097, len(good) // 2, len(good) - 4096, len(good) - 1):
        keeps(probe, f"the first {size} bytes", probe.new_file(), good[:size])
    for page in range(len(good) // 4096):
        hole = good[: page * 4096] + bytes(4096) + good[page * 4096 + 4096 :]
        keeps(probe, f"page {page + 1} full of zeros", probe.new_file(), hole)
    for what, data in (("no file", None), ("an empty file", b""), ("one byte", b"S")):
        path = probe.new_file()
        if data is not None:
            path.write_bytes(data)
        probe.answers(what, FAULT, "open", path)
        probe.answers(f"thaw of {what}", FAULT, "thaw", path, THAW)
        probe.note(data is not None or not path.exists(), f"{what} left one")
        left = sqlite.asked(path, "SELECT count(*) FROM sqlite_schema; PRAGMA integrity_check")
        probe.note(left == "0\nok\n", f"{what} left more than an empty database: {left}")


def try_paths(probe):
    """Paths that name no file of one's own, links, and a file that sqlite3 writes at that moment."""
    os.mkfifo(probe.folder / "pipe")
    for what, none in sqlite.NO_PATHS:
        probe.answers(what, FAULT, "open", none.format(folder=probe.folder, good=probe.good))
    other, link, path, journal = (probe.new_file() for _ in range(4))
    shutil.copy(probe.good, path)
    os.link(path, other)
    probe.answers("a second name", FAULT, "open", other)
    other.unlink()
    os.symlink(path, link)
    probe.answers("a link", OPEN, "open", link)
    shown = dump(path)
    probe.answers("thaw of a link", DONE, "thaw", link, THAW)
    probe.note(dump(path) == thawed(shown, THAW), "a thaw by a link isn't all that changed where it leads")
    shutil.copy(probe.good, journal)
    pathlib.Path(f"{journal}-journal").write_bytes(b"\xd9\xd5\x05\xf9\x20\xa1\x63\xd7" + bytes(504))
    probe.answers("a journal beside it", FAULT, "open", journal)
    probe.note(journal.read_bytes() == probe.good.read_bytes(), "the file beside a journal has changed")
    path = probe.copy()
    with subprocess.Popen(["sqlite3", path], stdin=subprocess.PIPE, stdout=subprocess.PIPE) as writer:
        writer.stdin.write(b"BEGIN IMMEDIATE; UPDATE contest SET name = 'Cup'; SELECT 1;\n")
        writer.stdin.flush()
        writer.stdout.readline()
        probe.answers("a file that sqlite3 writes", FAULT, "thaw", path, THAW)
        writer.communicate(b"COMMIT;\n")
    probe.note("'demo','Cup',18000000" in dump(path), "what sqlite3 wrote in the meantime is gone")
    probe.thaws("the file that sqlite3 wrote", path, DONE)


def try_words(probe):
    for words in WORDS:
        path = probe.new_file()
        given = probe.run(*(word.format(path) for word in words))
        probe.note(given[:2] == (2, "") and given[2].startswith("usage: ") and not path.exists(), f"{words}: {given}")


def try_demo_contests(probe):
    """The demo contest that the library makes, with fewer teams and problems too, in a new file."""
    for teams, problems, counts in ((4, 2, "3 2 0 2 4 7"), (9, 9, "3 2 0 2 4 7"), (1, 0, "3 2 0 0 1 4"), (0, 1, "3 2 0 1 0 3")):
        path, what = probe.new_file(), f"{teams} teams and {problems} problems"
        probe.answers(what, DONE, "demo", path, teams, problems)
        probe.holds(what, path, (0, f"open: {counts} 0 0 0 0 0\n", ""))
    probe.answers("the demo contest over one that stands", (1, "refused: E13 KeyReused\n", ""), "demo", path, 4, 2)
    probe.holds("the contest that stands", path, (0, "open: 3 2 0 1 0 3 0 0 0 0 0\n", ""))


def wrong_of(lines):
    """What is wrong of the lines that a walk prints while one call on the files may fail, if something is, the name of the
    step that failed, if one did, and the thaws that may be committed then.

    A step that fails is told as E24 and counted. What was changed since the last commit is gone then, and what comes after
    it works on the last commit; only a failed commit may leave a store that is shut."""
    now = committed = faults = 0
    failed, left = None, {0}
    if len(lines) != len(WALK):
        return f"{len(lines)} lines", None, left
    for at, ((name, thaw), line) in enumerate(zip(WALK, lines)):
        word, seen, count = line.split(" ")
        if seen == "E24":
            shut = failed is not None
            if shut and not all(other.split(" ")[1] == "E24" for other in lines[at:]):
                return f"{line!r} after a failure", failed, left
            left = {committed, now} if name == "commit" and not shut else left
            failed, now, faults = failed or name, committed, faults + 1
        else:
            now = thaw if name == "append" else now
            committed = now if name == "commit" else committed
            left = {committed}
            wanted = {"lists": now, "append": now, "file": LARGE, "commit": 0}[name]
            if seen != str(wanted):
                return f"{line!r}, wanted {wanted}", failed, left
        if word != name or count != str(faults):
            return f"{line!r}, wanted {name} and {faults} failures", failed, left
    return None, failed, left


def fail(probe, library, call, later):
    """A walk with this call on the files failing: what is wrong of it, and the step that failed; none once none does."""
    with tempfile.TemporaryDirectory(dir=probe.folder) as folder:
        path = pathlib.Path(folder, "case.db")
        shutil.copy(probe.large, path)
        env = {**os.environ, "LD_PRELOAD": library, "FAIL_CALL": str(call), **({"FAIL_LATER": "1"} if later else {})}
        status, out, err = ran([probe.path, "walk", path, "1", "2"], env=env)
        lines = out.decode().splitlines()
        shown = sqlite.asked(path, "SELECT ifnull(thaw, 0) FROM contest; PRAGMA integrity_check").split()
    told, failed, left = wrong_of(lines[:-1])
    whole = (status, lines[-1:], err) == (0, ["done"], b"") and shown[1:] == ["ok"] and int(shown[0]) in left
    if told is None and not whole:
        told = f"{status}, {out}, {err}, and sqlite3 shows {shown}, wanted one of {left}"
    return told and f"call {call} on the files failed{' and all after it' if later else ''}: {told}", failed


def try_disk(probe):
    """Each of the program's calls on its files fails in turn, once it has opened them."""
    probe.large, library = probe.copy(), compiled("fail_disk", probe.folder)
    sqlite.asked(probe.large, f"UPDATE submissions SET file = zeroblob({LARGE}) WHERE team = 1 AND k = 1")
    filler = f"INSERT INTO submissions SELECT 5 + value, 3, value, 1709388000000 - 1, 'a', 'cpp', NULL, zeroblob({LARGE}), NULL FROM generate_series(1, 40)"
    sqlite.asked(probe.large, filler)
    probe.run("open", probe.large)
    for later in (False, True):
        call, steps = 1, []
        while len(steps) == call - 1:
            wrong, failed = fail(probe, library, call, later)
            probe.note(wrong is None, wrong)
            steps += [failed] if failed else []
            call += 1
        ways = "each from one on" if later else "each alone"
        print(f"walk, {ways}: {len(steps)} calls failed, in {', '.join(f'{steps.count(name)} of {name}' for name in dict.fromkeys(steps))}", flush=True)
        probe.note({"commit", "file"} <= set(steps), f"calls on the files fail in {set(steps)} alone")


def refuse(probe, library, call, later):
    """A thaw with this call for memory refused: what is wrong of it, what it answered, whether a call was refused. Cells are filled,
    or there are none as before."""
    with tempfile.TemporaryDirectory(dir=probe.folder) as folder:
        path = pathlib.Path(folder, "case.db")
        shutil.copy(probe.good, path)
        given, refused = ran_refused([probe.path, "thaw", path, str(THAW)], library, call, later)
        given = given[0], given[1].decode(), given[2].decode()
        shown = dump(path)
    wanted = {DONE: thawed(probe.shown, THAW), MEMORY: probe.shown}
    ways = f"call {call} refused{' and all after it' if later else ''}"
    is_filled = cells_in(shown) == probe.cells or given == MEMORY and cells_in(shown) == []
    wrong = None if wanted.get(given) == without_cells(shown) and is_filled else f"{ways}: {given}, and sqlite3 shows {shown[-300:]}"
    return wrong, given, refused > 0


def try_memory(probe):
    """Each of the program's calls for memory is refused in turn, as many side by side as there are processors."""
    if probe.options.no_memory:
        return
    filled = probe.copy()
    probe.run("open", filled)
    probe.shown, probe.cells = without_cells(dump(probe.good)), cells_in(dump(filled))
    library, every = compiled("refuse_call", probe.folder), probe.options.every
    with program.lanes() as pool:
        for later in (False, True):
            call, refused, same, is_over = 1, 0, 0, False
            while not is_over:
                calls = range(call, call + 64 * every, every)
                for wrong, given, was_refused in pool.map(lambda n: refuse(probe, library, n, later), calls):
                    is_over = is_over or not was_refused
                    probe.note(wrong is None, wrong)
                    refused, same = refused + was_refused, same + (was_refused and given == DONE)
                call += 64 * every
            ways = "each from one on" if later else "each alone"
            probe.note(refused > same, f"thaw, {ways}: {refused} calls refused, and {same} of them without any change")
            print(f"thaw, {ways}: {refused} calls refused, {same} of them without any change", flush=True)


if __name__ == "__main__":
    PARTS = try_demo, try_rows, try_databases, try_no_databases, try_paths, try_words, try_demo_contests, try_disk, try_memory
    sys.exit(program.main(__doc__, Probe, PARTS, program="probe", every=1, no_memory=False))
