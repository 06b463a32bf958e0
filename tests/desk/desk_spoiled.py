#!/usr/bin/env -S python3 -B
"""Changes bytes of a contest's file, and holds what the desk then shows beside what sqlite3 reads from the same bytes.

    desk_spoiled.py [--program PATH] [--every N] [--random N] [--submissions N] [--seed N]

First each Nth byte (each) of a small file is changed, by another bit each time. Then N times (2,000), by the seed, one to
three bytes of a larger file, with N submissions more (400). `desk export`, and `desk board` and `desk feed` for the jury, refuse
the file with E24, and its bytes stay as they were; or they answer as over a new file of the rows that sqlite3 reads. Nothing else comes, in
two minutes.

Takes sqlite3. Ends with the line `N passed, M failed`; the exit status is 0 if M is 0.
"""

import random
import shutil
import sys
import threading

from lib import demo, program
from lib.demo import START
from lib.desk_opinion import moment
from lib.program import FAULT, Program, ran
from lib.sqlite import TABLES, asked, opened

FOR_JURY = ("cup.db", "--audience", "jury", "--at", moment(START + 3 * 3_600_000))
COMMANDS = (("export", "cup.db"), ("board", *FOR_JURY), ("feed", *FOR_JURY))


class Spoiler(Program):
    """The program, and what it answers over the rows that sqlite3 read."""

    def __init__(self, options, folder):
        super().__init__(options, folder)
        self.known, self.refused, self.knowing = {}, 0, threading.Lock()

    def answered(self, folder):
        return [self.run(folder, *words) for words in COMMANDS]

    def over_rows(self, rows):
        """What is answered over a new file of these rows."""
        with self.knowing:
            if rows not in self.known:
                folder = self.new_folder()
                asked(folder / "cup.db", TABLES + rows)
                self.known[rows] = self.answered(folder)
            return self.known[rows]

    def spoil(self, whole, changes):
        """One file with these bits turned: places, and a mask each."""
        folder, data = self.new_folder(), bytearray(whole)
        for place, mask in changes:
            data[place] ^= mask
        (folder / "cup.db").write_bytes(data)
        given = self.answered(folder)
        if given[0] == FAULT:
            self.refused += 1
            is_kept = (folder / "cup.db").read_bytes() == data
            self.note(given == [FAULT] * len(COMMANDS) and is_kept, f"{changes}: {given}, {'as before' if is_kept else 'changed'}")
        else:
            (folder / "cup.db").write_bytes(data)
            _, shown, error = ran(["sqlite3", folder / "cup.db", ".dump"])
            rows = "".join(f"{line}\n" for line in shown.decode("utf-8", "replace").split("\n") if line.startswith("INSERT INTO"))
            self.note(not error and given == self.over_rows(rows), f"{changes}: {given}, and sqlite3 reads {rows[-300:]}{error}")
        shutil.rmtree(folder)

    def spoil_all(self, whole, cases):
        with program.lanes() as pool:
            list(pool.map(lambda changes: self.spoil(whole, changes), cases))
        print(f"{len(cases)} of a file of {len(whole)} bytes: {self.refused} refused so far, {len(self.known)} sets of rows", flush=True)


def kept(desk, page, rows):
    """The bytes of a file of the demo contest, with more submissions, and its cells."""
    folder = desk.new_folder()
    asked(folder / "cup.db", f"PRAGMA page_size = {page};" + TABLES + demo.ROWS)
    with opened(folder / "cup.db") as database:
        database.executemany(
            "INSERT INTO submissions VALUES (?, 3, ?, ?, 'a', 'cpp', NULL, ?, NULL)",
            ((5 + n, n, START + 10_000_000 + n, bytes(n % 40)) for n in range(1, rows + 1)))  # fmt: skip
    desk.note(desk.answered(folder)[0][0] == 0, "the file isn't a contest's")
    return (folder / "cup.db").read_bytes()


def try_bytes(desk):
    whole = kept(desk, 512, 0)
    desk.spoil_all(whole, [[(place, 1 << place % 8)] for place in range(0, len(whole), desk.options.every)])


def try_random(desk):
    chance, whole = random.Random(desk.options.seed), kept(desk, 4096, desk.options.submissions)
    some = [[(chance.randrange(len(whole)), chance.randint(1, 255)) for _ in range(chance.randint(1, 3))] for _ in range(desk.options.random)]
    desk.spoil_all(whole, some)


if __name__ == "__main__":
    sys.exit(program.main(__doc__, Spoiler, (try_bytes, try_random), program="desk", every=1, random=2000, submissions=400, seed=1))
