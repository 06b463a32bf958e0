#!/usr/bin/env -S python3 -B
"""Upgrades files of the first schema by `desk upgrade`, and holds what is told of them before and after.

    desk_upgrade.py [--program PATH] [--every N]

A rehearsal is served, and then put back into the tables of the first schema (lib/first_schema.py), with cells or as the
first desks made it, without. All commands refuse it (E26) and leave its bytes. `desk upgrade` makes of it the file that
it was, and changes nothing more if it is run again: every read is answered as before, and a clarification that is
posted again with its key gets its first reply and stands once. Then each contest of data/tables/store_rows.tsv that the
first schema could keep is put into it: the upgrade gives what a desk of today opens, or is refused (E24) and leaves the
bytes. Then the files of files/, whose tables the statements of the first desks made, and of the second schema the file
that release 1.1.0 made: what is read of it stands in data/tables/second_schema.txt. Then files that aren't of the first
schema. At last each call for memory of an upgrade is refused in turn, or each Nth (--every, 50): it is done, or E25 and
the file shows what it did before.

Takes faketime, sqlite3 and a C compiler. Ends with the line `N passed, M failed`; the exit status is 0 if M is 0.
"""

import pathlib
import re
import shutil
import sys
import tempfile

from lib import cells_opinion, clock, demo, first_schema, program
from lib.clock import text_of
from lib.command_cases import cases
from lib.demo import AT_REHEARSAL, START
from lib.import_opinion import compact
from lib.program import DATA, FAULT, Program, compiled, ran_refused, refused
from lib.rehearsal import files_of, sent
from lib.server import Server
from lib.sqlite import FIRST_TABLES, TABLES, asked, dump

OLD = refused("E26 OldSchema")
MEMORY = refused("E25 Memory")
SCHEMA = (0, "schema 2\n", "")
POSTS, TALK = f"{AT_REHEARSAL}/submissions", f"{AT_REHEARSAL}/clarifications"
AT_TEN = clock.at(text_of(START + 3_600_000))
READS = ["", "/teams", "/groups", "/accounts", "/submissions", "/judgements", "/clarifications", "/clarifications/c1-1", "/clarifications/g-1",
         "/scoreboard", "/awards", "/state"]  # fmt: skip
ASK = compact({"text": "How many?", "problem_id": "a"})


def said(text, **more):
    return compact({"text": text, **more})


CALLS = [
    (5, "token-j1", "hello", TALK, said("Welcome.")),
    (10, "token-a1", "ask", TALK, ASK),
    (11, "token-j2", None, TALK, said("Read it.", reply_to_id="c1-1", to_team_id="t1")),
    (12, "token-a2", "ask", TALK, said("Thank you.", reply_to_id="g-1")),
    (13, "token-j1", None, TALK, said("Ten minutes more.")),
    (20, "token-a1", "k1", POSTS, compact({"problem_id": "a", "language_id": "cpp", "files": [{"data": "YWJj"}]})),
    (21, "token-j1", None, "/jury/proposals", compact({"submission_id": "s1-1", "judgement_type_id": "AC"})),
]


def served(desk):
    """A folder with the rehearsal in cup.db, at which the calls were answered; and the first reply to what the team asked."""
    folder, first = demo.made(desk, files_of(False)), b""
    server = Server(desk, folder, requests=len(CALLS))
    for at, who, key, path, body in CALLS:
        server.at(text_of(START + at * 60_000))
        reply = server.ask(sent(who, key, "POST", path, body))
        first = reply if key == "ask" and who == "token-a1" else first
        desk.note(reply.startswith(b"HTTP/1.1 20"), f"{path} at {at}: {reply}")
    server.ended()
    return folder, first


def was(desk, folder, with_cells):
    """A folder with the same contest in the first schema."""
    other = desk.new_folder()
    first_schema.make(folder / "cup.db", other / "cup.db", with_cells)
    (other / "init").write_text(files_of(False)["init"], encoding="utf-8")
    (other / "teams").write_text(files_of(False)["teams"], encoding="utf-8")
    return other


def told(desk, folder, first=None):
    """What a server of the contest answers every role at each path; and to what the team asked once more, if it was asked."""
    server = Server(desk, folder)
    server.at(text_of(START + 3_600_000))
    replies = [server.ask(sent(who, None, "GET", AT_REHEARSAL + path, "")) for who in ("public", "token-a1", "token-a2", "token-j1", "token-adm")
               for path in READS]  # fmt: skip
    if first is not None:
        again = server.ask(sent("token-a1", "ask", "POST", TALK, ASK))
        desk.same("what was asked, once more", body_of(again), body_of(first))
    server.stop()
    return [body_of(reply) for reply in replies]


def body_of(reply):
    return reply.partition(b"\r\n\r\n")[2]


def try_worked(desk):
    base, first = served(desk)
    wanted, shows = told(desk, base), dump(base / "cup.db")
    for with_cells in (True, False):
        what, folder = "with cells" if with_cells else "without cells", was(desk, base, with_cells)
        bytes_before = (folder / "cup.db").read_bytes()
        for words in (("board",), ("awards",), ("export",), ("feed",), ("serve", "--requests", "1"), ("init", "init"), ("import", "teams", "teams")):
            given = desk.run(folder, words[0], "cup.db", *words[1:], before=AT_TEN)
            desk.same(f"{words} of the first schema {what}", given, OLD)
        desk.note((folder / "cup.db").read_bytes() == bytes_before, f"the refused file {what} has other bytes")
        desk.same(f"the upgrade {what}", desk.run(folder, "upgrade", "cup.db"), SCHEMA)
        desk.same(f"what stands then, {what}", dump(folder / "cup.db"), shows)
        bytes_then = (folder / "cup.db").read_bytes()
        desk.same(f"the upgrade {what}, once more", desk.run(folder, "upgrade", "cup.db"), SCHEMA)
        desk.note((folder / "cup.db").read_bytes() == bytes_then, f"the second upgrade {what} changes bytes")
        desk.same(f"what is told then, {what}", told(desk, folder, first), wanted)
        desk.same(f"what stands at the end, {what}", dump(folder / "cup.db"), shows)


def demo_file(desk):
    folder = desk.new_folder()
    asked(folder / "cup.db", TABLES + demo.ROWS)
    return folder


def try_rows(desk):
    """What the first schema could keep of the changed contests."""
    lines = (DATA / "tables/store_rows.tsv").read_text(encoding="utf-8").splitlines()
    tried = 0
    for cell, what, sql in (line.split("\t") for line in lines if not line.startswith("#")):
        folder, other = demo_file(desk), desk.new_folder()
        asked(folder / "cup.db", sql)
        if first_schema.fits(folder / "cup.db"):
            tried += 1
            first_schema.make(folder / "cup.db", other / "cup.db")
            bytes_before, is_valid = (other / "cup.db").read_bytes(), cell != "E24"
            desk.same(what, desk.run(other, "upgrade", "cup.db"), SCHEMA if is_valid else FAULT)
            if is_valid:
                desk.same(f"{what}: opened", desk.run(folder, "upgrade", "cup.db"), SCHEMA)
                desk.note(dump(other / "cup.db") == dump(folder / "cup.db"), f"{what}: another contest than is opened")
            else:
                desk.note((other / "cup.db").read_bytes() == bytes_before, f"{what}: the refused file has other bytes")
        shutil.rmtree(folder)
        shutil.rmtree(other)
    desk.note(tried > 150, f"{tried} contests alone")


def try_files(desk):
    """Files whose tables were made by the statements of the first desks, not by those that the sources name today."""
    whole = demo_file(desk)
    desk.same("the same contest in the second schema", desk.run(whole, "upgrade", "cup.db"), SCHEMA)
    for name in ("first_schema.db", "first_schema_without_cells.db"):
        folder, contents = desk.new_folder(), (DATA / "files" / name).read_bytes()
        (folder / "cup.db").write_bytes(contents)
        desk.same(f"{name} before its upgrade", desk.run(folder, "board", "cup.db", before=AT_TEN), OLD)
        desk.note((folder / "cup.db").read_bytes() == contents, f"the refused {name} has other bytes")
        desk.same(f"the upgrade of {name}", desk.run(folder, "upgrade", "cup.db"), SCHEMA)
        desk.same(f"what stands then in {name}", dump(folder / "cup.db"), dump(whole / "cup.db"))
        desk.same(f"its board and that of {name}", *(desk.run(it, "board", "cup.db", before=AT_TEN) for it in (folder, whole)))


def try_second(desk):
    """A file of the second schema that release 1.1.0 made, with rows in each table: what is read of it, and that it goes on."""
    folder = desk.new_folder()
    shutil.copy(DATA / "files/second_schema.db", folder / "cup.db")
    shows = dump(folder / "cup.db")
    desk.same("empty tables of release 1.1.0", re.findall(r"(?m)^CREATE TABLE (\w+) .*;\n(?!INSERT)", shows), ["clarifications"])
    for title, steps in cases("second_schema.txt"):
        for _, words, wanted in steps:
            desk.same(f"{title}: {words}", desk.run(folder, *words.split()), (0, wanted, ""))
    desk.same("its upgrade", desk.run(folder, "upgrade", "cup.db"), SCHEMA)
    desk.same("what stands of release 1.1.0 then", dump(folder / "cup.db"), shows)
    server, here = Server(desk, folder, moment="2024-03-02 15:00:00"), "/contests/demo"
    file = server.ask(sent("token-j1", None, "GET", f"{here}/submissions/s1-1/files", ""))
    desk.same("a program of release 1.1.0", body_of(file), b"abc")
    name = server.ask(sent("token-adm", None, "POST", "/jury/names", compact({"team_id": "late", "name": "Last"})))
    desk.note(body_of(name).count(b'"name":"Last"') == 1, f"a name that is corrected: {name}")
    server.stop()
    desk.same("rows of the name", dump(folder / "cup.db").count("'Last'"), 1)


def try_others(desk):
    """Files that are of neither schema, and no files."""
    first = FIRST_TABLES + demo.FIRST_ROWS
    others = [
        ("no table", "CREATE TABLE t (n INTEGER); DROP TABLE t"),
        ("another's table", "CREATE TABLE t (n INTEGER) STRICT"),
        ("a table more", first + "CREATE TABLE t (n INTEGER) STRICT"),
        ("a table less", first + "DROP TABLE members"),
        ("version 0", first + "UPDATE desk SET version = 0"),
        ("version 2 in the first tables", first + "UPDATE desk SET version = 2"),
        ("version 3", first + "UPDATE desk SET version = 3"),
        ("no version", first + "DELETE FROM desk"),
        ("version 1 in the tables of today", TABLES + demo.ROWS + "UPDATE desk SET version = 1"),
        ("no contest", first + "DELETE FROM contest"),
        ("wrong cells", first + "INSERT INTO cells VALUES (0, 1, 'a', 7, 7, NULL, 7)"),
    ]
    for what, sql in others:
        folder = desk.new_folder()
        asked(folder / "cup.db", sql)
        bytes_before = (folder / "cup.db").read_bytes()
        desk.same(what, desk.run(folder, "upgrade", "cup.db"), FAULT)
        desk.note((folder / "cup.db").read_bytes() == bytes_before, f"{what}: other bytes")
    folder = desk.new_folder()
    desk.same("no file", desk.run(folder, "upgrade", "cup.db"), FAULT)
    desk.same("what is left of no file", list(folder.iterdir()), [])
    for words in ((), ("cup.db", "more")):
        given = desk.run(folder, "upgrade", *words)
        desk.note(given[:2] == (2, "") and given[2].startswith("error: "), f"{words}: {given}")


def refuse(desk, library, base, call, later):
    """An upgrade with this call for memory refused: what is wrong of it, and whether a call was refused."""
    with tempfile.TemporaryDirectory(dir=desk.folder) as folder:
        path = pathlib.Path(folder, "cup.db")
        shutil.copy(base / "cup.db", path)
        given, count = ran_refused([desk.path, "upgrade", path], library, call, later)
        given, shows = (given[0], given[1].decode(), given[2].decode()), dump(path)
    is_right = {SCHEMA: desk.after, MEMORY: desk.before}.get(given) == shows
    return None if is_right else f"call {call} refused{' and all after it' if later else ''}: {given}, and sqlite3 shows {shows[-300:]}", count > 0


def try_memory(desk):
    base, whole = desk.new_folder(), desk.new_folder()
    asked(base / "cup.db", FIRST_TABLES + demo.FIRST_ROWS)
    shutil.copy(base / "cup.db", whole)
    desk.same("the demo contest", desk.run(whole, "upgrade", "cup.db"), SCHEMA)
    desk.before, desk.after = dump(base / "cup.db"), dump(whole / "cup.db")
    right = cells_opinion.differences(whole / "cup.db") == ([], [])
    desk.note(right and re.sub(r"(?m)^INSERT INTO cells .*\n", "", desk.after) == wanted_of(desk), "the demo contest: other rows")
    library, every = compiled("refuse_call", desk.folder), desk.options.every
    with program.lanes() as pool:
        for later in (False, True):
            call, refused_calls, is_over = 1, 0, False
            while not is_over:
                for wrong, was_refused in pool.map(lambda n: refuse(desk, library, base, n, later), range(call, call + 16 * every, every)):
                    is_over = is_over or not was_refused
                    refused_calls += was_refused
                    desk.note(wrong is None, wrong)
                call += 16 * every
            desk.note(refused_calls > 1000 // every, f"{refused_calls} calls refused alone")


def wanted_of(desk):
    """What sqlite3 shows of the demo contest in the tables of today, but for cells."""
    return dump(demo_file(desk) / "cup.db")


if __name__ == "__main__":
    PARTS = (try_worked, try_rows, try_files, try_second, try_others, try_memory)
    sys.exit(program.main(__doc__, Program, PARTS, program="desk", every=50))
