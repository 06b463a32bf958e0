"""The cells of a contest in a file, counted anew from its other tables, as plain as it can be."""

import contextlib
import pathlib
import shutil
import sqlite3
import tempfile

HELD, FULL = 0, 1


@contextlib.contextmanager
def read(path):
    """A database that is a copy of a file with its log, so that the file is never written."""
    with tempfile.TemporaryDirectory() as folder:
        for name in (path.name, f"{path.name}-wal"):
            if (path.parent / name).is_file():
                shutil.copy(path.parent / name, folder)
        with contextlib.closing(sqlite3.connect(pathlib.Path(folder, path.name))) as database:
            yield database


def kept(database):
    """The rows of the table of cells."""
    return database.execute("SELECT audience, team, problem, judged, pending, solved, penalties FROM cells ORDER BY 1, 2, 3").fetchall()


def counted(database):
    """The rows that it must have: under either mask, each team's at each problem that it has a submission at."""
    start, duration, freeze = database.execute("SELECT start, duration, freeze FROM contest").fetchone()
    types = {one: (solved, penalty) for one, solved, penalty in database.execute("SELECT id, flag_a, flag_b FROM items WHERE kind = 0")}
    verdicts = {(team, k): one for team, k, one in database.execute("SELECT team, k, type FROM releases ORDER BY team, k, n")}
    attempts = {}
    for team, k, time, problem in database.execute("SELECT team, k, time, problem FROM submissions ORDER BY seq"):
        verdict = verdicts.get((team, k))
        is_frozen = freeze is not None and time >= start + duration - freeze
        attempts.setdefault((HELD, team, problem), []).append((time, None if is_frozen else verdict))
        attempts.setdefault((FULL, team, problem), []).append((time, verdict))
    return sorted((*place, *cell(start, types, rows)) for place, rows in attempts.items())


def cell(start, types, attempts):
    """Judged, pending, solved and penalties of attempts in their order: nothing counts after one that solves."""
    judged = pending = penalties = 0
    for time, verdict in attempts:
        if verdict is None:
            pending += 1
            continue
        judged += 1
        solves, penalised = types[verdict]
        if solves:
            return judged, pending, (time - start) // 60_000, penalties
        penalties += penalised
    return judged, pending, None, penalties


def differences(path):
    """What the table of a file has that it must not, and what it must have and has not."""
    with read(path) as database:
        is_kept, is_counted = kept(database), counted(database)
    return sorted(set(is_kept) - set(is_counted)), sorted(set(is_counted) - set(is_kept))
