"""A desk's tables, and what sqlite3 shows of files and writes into them."""

import contextlib
import pathlib
import re
import shutil
import sqlite3
import sys
import tempfile

from .program import ROOT, ran

TEXTS = (ROOT / "crates/contest_store_tables/src/texts.rt").read_text(encoding="utf-8")


def tables_in(text):
    """The statements that make tables."""
    return "".join(statement + ";\n" for statement in re.findall(r'"(CREATE TABLE [^"]*)"', text))


TABLES = tables_in(TEXTS)
FIRST_TABLES = tables_in((ROOT / "crates/contest_demo/src/first_schema.rt").read_text(encoding="utf-8"))
# Paths at which no file of a contest can be.
NO_PATHS = [
    ("a folder", "{folder}"),
    ("a path through a file", "{good}/x"),
    ("no such folder", "{folder}/none/x.db"),
    ("a pipe", "{folder}/pipe"),
    ("memory", ":memory:"),
    ("a URI", "file:{good}"),
    ("no name", ""),
]


def asked(path, sql):
    """What sqlite3 answers, as the command line program that anybody has."""
    status, out, err = ran(["sqlite3", "-bail", path], input=sql.encode())
    if status or err:
        sys.exit(f"sqlite3 on {path}: {err.decode()}{sql[:300]}")
    return out.decode("utf-8", "replace")


def dump(path, with_log=True):
    """All that sqlite3 shows of a file. It reads a copy, so that it never writes the file, and elsewhere, since there may be no
    room beside it."""
    with tempfile.TemporaryDirectory() as folder:
        for name in (path.name, f"{path.name}-wal") if with_log else (path.name,):
            if (path.parent / name).is_file():
                shutil.copy(path.parent / name, folder)
        return asked(pathlib.Path(folder, path.name), ".dump")


def shown(folder):
    """What each file in a folder shows: a database all that sqlite3 reads of it and of its log together, or why it
    doesn't; of a log that it is there; another file its bytes."""
    return {path.name: shown_of(path) for path in sorted(folder.iterdir()) if path.is_file()}


def shown_of(path):
    if path.name.endswith(".db-wal"):
        return None
    if path.suffix != ".db":
        return path.read_bytes()
    with tempfile.TemporaryDirectory() as folder:
        for name in (path.name, f"{path.name}-wal"):
            if (path.parent / name).is_file():
                shutil.copy(path.parent / name, folder)
        asked_for = ("PRAGMA integrity_check", "SELECT * FROM sqlite_schema", ".dump")
        return ran(["sqlite3", f"{folder}/{path.name}", *asked_for])


@contextlib.contextmanager
def opened(path):
    """A database, in which all that is changed is committed together."""
    with contextlib.closing(sqlite3.connect(path)) as database, database:
        yield database


def insert(database, table, row):
    database.execute(f"INSERT INTO {table} VALUES ({', '.join('?' * len(row))})", row)
