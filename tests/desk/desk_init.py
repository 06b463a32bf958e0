#!/usr/bin/env -S python3 -B
"""Makes contests with `desk init` of files made from a seed, half of them spoiled, and holds each beside a second
opinion.

    desk_init.py [--program PATH] [--files N] [--seed N]

N files (2,000) have each member of a contest, within its limits, at them and past them, or off its form; half of them
are spoiled by lib/spoiler.py: bytes that are changed, pieces that are cut or repeated, odd UTF-8, numbers and marks
that are put in. What is refused is what lib/import_opinion.py refuses, with the same line, and leaves no contest;
else the file has the row of the contest that it spells, as sqlite3 reads it, and no other row. Of a start in a form
that the second opinion doesn't know it says nothing.

Takes sqlite3. Ends with the line `N passed, M failed`; the exit status is 0 if M is 0.
"""

import collections
import shutil
import sys

from lib import program
from lib.clock_opinion import LAST_MOMENT, time_of
from lib.director import Director
from lib.import_opinion import PLACES, Refused, head_of, json_of
from lib.program import DONE, Program, refused
from lib.replay_opinion import Fault
from lib.spoiler import Spoiler, times_known
from lib.sqlite import dump, opened

MALFORMED = refused("E1 Malformed")
COLUMNS = ("id", "name", "duration", "freeze", "penalty", "verification", *PLACES, "start")
ROW = f"SELECT {', '.join(COLUMNS)}, thaw, finalized FROM contest"


class Maker(Director, Spoiler):
    """Files of contests."""

    def contest_bytes(self):
        data = self.contest_file().encode()
        return self.spoiled_file(data) if self.random.random() < 0.5 else data


def spelt(data):
    """The contest's row that a file spells, without its start if the second opinion doesn't know the form; none if it
    is refused."""
    try:
        row = json_of(data)
        head = head_of(row)
        if not times_known(row):
            return head
        start = row.get("start_time")
        head["start"] = None if start is None else time_of(start)
    except (Fault, Refused):
        return None
    return None if (head["start"] or 0) + head["duration"] > LAST_MOMENT else head


def row_in(folder):
    """The row of the contest in cup.db, if it is one without any more rows."""
    with opened(folder / "cup.db") as database:
        found = database.execute(ROW).fetchall()
    rows = [line for line in dump(folder / "cup.db").splitlines() if line.startswith("INSERT INTO")]
    return found[0] if len(found) == 1 and len(rows) == 2 and found[0][-2:] == (None, None) else rows


def kept(desk, folder, data, head):
    """Holds a contest that was made."""
    row = row_in(folder)
    wanted = tuple(head.get(name) for name in COLUMNS) + (None, None)
    is_right = row[:9] == wanted[:9] and (row == wanted or "start" not in head)
    desk.note(is_right, f"{data!r}: {row}, wanted {wanted}")


def try_file(desk, number):
    """Makes a contest of one file; how it ended."""
    data, folder = Maker(f"{desk.options.seed}/{number}").contest_bytes(), desk.new_folder()
    (folder / "contest.json").write_bytes(data)
    given, head = desk.run(folder, "init", "cup.db", "contest.json"), spelt(data)
    is_open = head is not None and "start" not in head
    is_right = given == (MALFORMED if head is None else DONE) or (is_open and given == MALFORMED)
    desk.note(is_right, f"{data!r}: {given}, and it spells {head}")
    if given == DONE and head is not None:
        kept(desk, folder, data, head)
    elif given == MALFORMED:
        desk.note("CREATE" not in dump(folder / "cup.db"), f"{data!r}: refused, and there are tables")
    shutil.rmtree(folder)
    return given[2] or "made", "of a start in another form" if is_open else ""


def try_files(desk):
    with program.lanes() as pool:
        ends = collections.Counter(pool.map(lambda number: try_file(desk, number), range(desk.options.files)))
    for (end, form), count in sorted(ends.items()):
        print(f"{count:8}  {end.strip()} {form}".rstrip())
    fewest = min(ends[end, ""] for end in ("made", MALFORMED[2]))
    desk.note(fewest * 5 > desk.options.files, "most are made, or most are refused")


if __name__ == "__main__":
    sys.exit(program.main(__doc__, Program, (try_files,), program="desk", files=2_000, seed=1))
