#!/usr/bin/env -S python3 -B
"""Imports files in two parts and in one by `desk import`: whether it is one file or two makes no difference to a contest.

    desk_joined_files.py [--program PATH] [--cases N] [--seed N]

N files (600) of each kind in turn, of rows made from a seed, are cut into two, each a file of its kind. Into one copy of a contest
the two are imported one after the other, the second often later, if it isn't of verdicts; into another the whole file in place of the
first. If both parts are accepted the whole one is, and as many rows are added: the contests are the same then, to sqlite3, and byte
for byte by `desk export`, `desk feed` and `desk board`. A record at fault in the first part has the same number in the whole file; one
in the second stands behind those of the first. A whole file that is refused leaves the contest as it was.

Takes sqlite3 and faketime. Ends with the line `N passed, M failed`; the exit status is 0 if M is 0.
"""

import collections
import re
import shutil
import sys

from desk_rejudgings import copy_contest
from desk_verdict_files import HEADER, TEAMS, TEN, begun
from lib import clock, demo, program
from lib.director import SETTINGS, Director
from lib.import_opinion import HEADERS, compact
from lib.program import Program
from lib.sqlite import dump

KINDS = [*SETTINGS, *HEADERS, "verdicts-csv"]
SETUP = {name: demo.FILES[name] for name in ("init", "judgement-types", "groups")}
# A moment after MORNING at which settings are still taken, and any refusal.
LATER, REFUSED = "2024-03-02 08:59:59", "any refusal"
AT_THREE = ("--at", "2024-03-02T15:00:00Z")
BOARD = ("board", "cup.db", *AT_THREE)
SHOWN = [("export", "cup.db"), ("feed", "cup.db", *AT_THREE, "--audience", "jury"), (*BOARD, "--audience", "jury"), (*BOARD, "--format", "csv")]


class Cutter(Director):
    """Files of every kind, as rows that may stand in one file or in two."""

    def rows_of(self, kind):
        """The rows of a file: objects, or lines."""
        count = self.random.randint(0, 6)
        if kind in SETTINGS:
            return [self.often(compact(self.object_of(kind)), ["7", "{}"], 0.98) for _ in range(count)]
        return [",".join(map(self.quoted, self.fields_of(kind))) for _ in range(count)]

    def object_of(self, kind):
        """One that is mostly new, or one that the contest may have."""
        number, row = self.random.randint(1, 60), self.settings_row(kind)
        new = {"id": f"n{number}", "name": f"Name {number}", **({"label": f"L{number}", "ordinal": number} if kind == "problems" else {})}
        return {**row, **self.often(new, [{}], 0.8)}

    def fields_of(self, kind):
        if kind == "verdicts-csv":
            which = f"s{self.random.randint(1, len(TEAMS))}-{self.random.randint(1, 3)}"
            fields = [self.often(which, ["s9-9", "s1-01"], 0.97), self.often("AC", ["WA", "TLE"], 0.8)]
        else:
            fields = self.teams_record() if kind == "teams-csv" else self.accounts_record()
        return fields[: self.often(len(fields), [len(fields) - 1], 0.98)]

    def text_of(self, kind, rows):
        """The file that has these rows, as it may be written."""
        if kind in SETTINGS:
            between = self.one([",", ", ", ",\n  "])
            return f"[{between.join(rows)}]"
        head, end = HEADER if kind == "verdicts-csv" else HEADERS[kind].decode(), self.one(["\n", "\n", "\r\n"])
        return self.one(["", "", "\ufeff"]) + end.join([head, *rows]) + self.one([end, end, ""])


def bases(desk):
    """Contests to import into, each with the kinds that are imported there: as they are set up, with all that they need, with
    rows already, and with submissions, whose verdicts are verified or not."""
    setup, full = demo.made(desk, SETUP), demo.made(desk, demo.FILES)
    teams = demo.made(desk, {**SETUP, "teams-csv": demo.FILES["teams-csv"]})
    judged = [begun(desk, verification)[0] for verification in (False, True)]
    for folder in judged:
        # Its rows were put in by sqlite3, so the first command counts its cells.
        desk.same("a file without verdicts", imported(desk, folder, "verdicts-csv", HEADER, TEN), (0, "added 0\n", ""))
    return {kind: judged if kind == "verdicts-csv" else [teams if kind == "accounts-csv" else setup, full] for kind in KINDS}


def imported(desk, folder, kind, text, at):
    """What is answered to a file in a folder."""
    (folder / "rows").write_bytes(text.encode("utf-8", "surrogatepass"))
    return desk.run(folder, "import", "cup.db", kind, "rows", before=clock.at(at))


def count_in(answer):
    """How many rows were added; none if the file was refused."""
    found = re.fullmatch(r"added (\d+)\n", answer[1])
    return int(found[1]) if answer[0] == 0 and found else None


def whole_answer(answers, skipped, is_one_moment):
    """What the whole file has to be answered at the moment of the first part, which has so many rows, if the parts were answered
    so. None if they don't say: settings may be closed to the second part alone, since it comes later."""
    counts = [count_in(answer) for answer in answers]
    if None not in counts:
        return 0, f"added {sum(counts)}\n", ""
    status, out, err = refusal = answers[counts.index(None)]
    if "ImportRow" not in err:
        # A later row may be at fault too, and is then told in place of settings that are closed.
        return REFUSED if counts[0] is None else refusal if is_one_moment else None
    skipped = 0 if counts[0] is None else skipped
    return status, out, re.sub(r"(?<=ImportRow )\d+", lambda found: str(int(found[0]) + skipped), err)


def shown(desk, folder):
    """What the commands print of a contest."""
    return [desk.run(folder, *words, before=clock.at(TEN)) for words in SHOWN]


def outcome_of(answers):
    """What came of the parts, in a word or two."""
    counts = [count_in(answer) for answer in answers]
    if None in counts:
        part = counts.index(None)
        return f"{'first' if part == 0 else 'second'} {answers[part][2].split()[-1]}"
    return "rows of both" if all(counts) else "rows of one" if any(counts) else "no rows"


def tried(desk, base, number):
    """Imports one file in two parts and in one."""
    chance, kind = Cutter(f"{desk.options.seed}/{number}"), KINDS[number % len(KINDS)]
    first = TEN if kind == "verdicts-csv" else chance.often(demo.MORNING, [TEN], 0.85)
    second = TEN if kind == "verdicts-csv" else chance.often(first, [LATER if first == demo.MORNING else TEN, TEN], 0.7)
    rows = chance.rows_of(kind)
    cut = chance.random.randint(0, len(rows))
    parts, whole = [chance.text_of(kind, some) for some in (rows[:cut], rows[cut:])], chance.text_of(kind, rows)
    twice, once = desk.new_folder(), desk.new_folder()
    for folder in (twice, once):
        copy_contest(base, folder)
    before, what = dump(once / "cup.db"), f"{kind}: {parts} at {first} and {second}, and {whole!r}"
    answers = [imported(desk, twice, kind, part, at) for part, at in zip(parts, (first, second))]
    given, wanted = imported(desk, once, kind, whole, first), whole_answer(answers, cut, first == second)
    is_right = wanted is None or (given[0] == 1 if wanted == REFUSED else given == wanted)
    desk.note(is_right, f"{what}: {given}, wanted {wanted}, since the parts were answered {answers}")
    if given[0] != 0:
        desk.note(dump(once / "cup.db") == before, f"{what}: it is refused, and the contest has changed")
    elif wanted is not None:
        desk.note(dump(once / "cup.db") == dump(twice / "cup.db"), f"{what}: the files differ")
        prints = shown(desk, once)
        desk.note(prints == shown(desk, twice) and all(status == 0 for status, _, _ in prints), f"{what}: {prints}")
    for folder in (twice, once):
        shutil.rmtree(folder)
    return kind, outcome_of(answers)


def try_joined(desk):
    """Files of every kind, whole and in two parts."""
    worlds = bases(desk)

    def one(number):
        return tried(desk, worlds[KINDS[number % len(KINDS)]][number // len(KINDS) % 2], number)

    with program.lanes() as pool:
        met = collections.Counter(pool.map(one, range(desk.options.cases)))
    both = {kind for kind, outcome in met if outcome == "rows of both"}
    outcomes = {outcome for _, outcome in met}
    print(f"{len(outcomes)} kinds of outcomes: {', '.join(sorted(outcomes))}", flush=True)
    if desk.options.cases >= 400:
        desk.same("kinds of which both parts added rows", both, set(KINDS))
        for part in ("first", "second"):
            desk.note(sum(outcome.startswith(part) for outcome in outcomes) > 2, f"the {part} part was refused for too little: {outcomes}")


if __name__ == "__main__":
    sys.exit(program.main(__doc__, Program, (try_joined,), program="desk", cases=600, seed=61))
