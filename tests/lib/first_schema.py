"""Files of the first schema, made by the statements of that time with the rows that stand in a file of today."""

import contextlib
import sqlite3

from .sqlite import FIRST_TABLES

SAME = ("contest", "items", "accounts", "submissions", "proposals", "releases", "rejudgings", "members", "cells")
WAS = "SELECT seq, number, k, from_jury, account, problem, reply, text, time, key FROM now.notices ORDER BY seq"


def fits(path):
    """Whether the first schema could keep what stands in a file: whether the version is that of today, and each clarification went
    to all or to one team, and stands where those of today do."""
    with contextlib.closing(sqlite3.connect(path)) as database:
        versions = database.execute("SELECT * FROM desk").fetchall()
        old = database.execute("SELECT count(*) FROM clarifications").fetchone()
        others = "SELECT count(*) FROM notices WHERE NOT (kind = 0 AND number = 0 OR kind = 1 AND number <> 0)"
        return (versions, old, database.execute(others).fetchone()) == ([(1, 2)], (0,), (0,))


def make(path, file, with_cells=True):
    """Makes a file of the first schema with what stands in one of today."""
    with contextlib.closing(sqlite3.connect(file)) as database:
        database.executescript(FIRST_TABLES)
        database.execute("ATTACH ? AS now", (str(path),))
        database.text_factory = bytes
        database.execute("INSERT INTO desk VALUES (1, 1)")
        for table in SAME:
            database.execute(f"INSERT INTO {table} SELECT * FROM now.{table}")
        database.execute(f"INSERT INTO clarifications {WAS}")
        if not with_cells:
            database.execute("DROP TABLE cells")
        database.commit()
