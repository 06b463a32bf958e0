#!/usr/bin/env -S python3 -B
"""Makes contests with `desk init` and `desk import`, as a director does, and holds what they answer and leave.

    desk_files.py [--program PATH] [--probe PATH] [--kills N]

data/tables/desk_commands.txt has calls with their files and answers. Then come the help, files that are too large,
another's, no files or not there, reads that are interrupted or fail, a clock that is set back or shows no moment, the
demo contest, whose rows are held beside those of data/tables/store_demo.sql, the calls of README.md, and N imports of
500 teams (200) that are killed at a random moment: whoever opens the file next finds all of them or none. What is in a
file afterwards is asked of sqlite3, and of probe, which opens a file as the desk does. A call that is refused leaves
what the file shows as it was, and one that is done leaves all of it in the file alone, without its log.

Takes cc, sqlite3, faketime and setpriv, and runs as root, which may be another user. Ends with the line `N passed, M
failed`; the exit status is 0 if M is 0.
"""

import errno
import os
import pathlib
import random
import re
import shutil
import subprocess
import sys
import tempfile
import time

from lib import clock, demo, program, sqlite
from lib.command_cases import cases
from lib.demo import CONTEST
from lib.program import DONE, FAULT, FILE, ROOT, Program, compiled, ran, refused
from lib.sqlite import dump

TEAMS = "id,name,group_ids,hidden\n" + "".join(f"n{n},Team {n},,\n" for n in range(1, 501))
LIMIT = 16_777_216
# Another user, who may neither read nor write what root alone may.
NOBODY = ["setpriv", "--reuid=65534", "--regid=65534", "--clear-groups"]


class Desk(Program):
    """The program and probe, where another user may come to them, and what was counted."""

    def __init__(self, options, folder):
        super().__init__(options, folder)
        folder.chmod(0o755)
        self.path, self.probe = (shutil.copy(it, folder) for it in (options.program, options.probe))
        for copied in (self.path, self.probe):
            os.chmod(copied, 0o755)

    def new_folder(self):
        folder = super().new_folder()
        (folder / "contest.json").write_text(CONTEST, encoding="utf-8")
        (folder / "past.json").write_text(demo.STARTED, encoding="utf-8")
        (folder / "teams.csv").write_text(TEAMS, encoding="utf-8")
        return folder

    def answers(self, what, wanted, folder, *words, **options):
        """The call has this answer. If it is refused, each database in the folder shows what it did; if it is done, each shows
        all that it does without its log too."""
        was = shown(folder)
        given = self.run(folder, *words, **options)
        is_done = given[0] == 0
        right = shown(folder, with_logs=False) == shown(folder) if is_done else shown(folder) == was
        wrong = "and FILE alone shows less" if is_done else "and a file has changed"
        self.note(given == wanted and right, f"{what}: {given}, wanted {wanted}, {'' if right else wrong}")

    def opens(self, what, folder, counts):
        """The contest in cup.db has so many rows of each kind."""
        self.same(what, self.found(folder), f"open: {counts}\n")

    def found(self, folder):
        """What probe finds in cup.db."""
        return ran([self.probe, "open", folder / "cup.db"])[1].decode()


def shown(folder, with_logs=True):
    """What sqlite3 shows of each database in a folder; of one without tables, as of none, nothing."""
    databases = [path for path in sorted(folder.glob("**/*.db")) if path.is_file()]
    dumps = {path.name: dump(path, with_logs) for path in databases}
    return {name: text for name, text in dumps.items() if "CREATE" in text}


def wanted_of(answer):
    """The status, and what is on standard output and standard error, of an answer of desk_commands.txt."""
    if not answer:
        return DONE
    return (0, answer, "") if answer.startswith("added") else (1, "", answer)


def try_commands(desk):
    for title, steps in cases("desk_commands.txt"):
        folder = desk.new_folder()
        for sign, head, rest in steps:
            what = f"{title}: {head}"
            if sign == ">":
                (folder / head).write_text(rest, encoding="utf-8")
            elif rest.startswith("error:"):
                given = desk.run(folder, *head.split())
                right = given[:2] == (2, "") and given[2].startswith(rest) and not list(folder.glob("*.db"))
                desk.note(right, f"{what}: {given}, wanted {rest}")
            else:
                desk.answers(what, wanted_of(rest), folder, *head.split())


def try_help(desk):
    """The help of the program has a line for each command, and each command has its own. Without a word it is told as a fault."""
    folder = desk.new_folder()
    whole = desk.run(folder, "help")
    begins, names = "Jury and scoreboard desk of a programming contest\n\nUsage: desk <COMMAND>\n", re.findall(r"(?m)^  (\w+)  +[A-Z]", whole[1])
    desk.note(whole[0] == 0 and whole[2] == "" and whole[1].startswith(begins), f"help: {whole}")
    desk.same("the commands of the help", " ".join(names), "replay audit init import board awards export feed serve upgrade help")
    for words, wanted in ((("--help",), whole), (("-h",), whole), ((), (2, "", whole[1]))):
        desk.answers(f"{words}", wanted, folder, *words)
    for name in names[:-1]:
        given = desk.run(folder, name, "--help")
        desk.note(given[0] == 0 and given[2] == "" and f"Usage: desk {name}" in given[1], f"help of {name}: {given}")


def try_limits(desk):
    """Files of as many bytes as there may be, and of one more; a table that is full."""
    folder = desk.new_folder()
    large = refused("E6 BodyTooLarge")
    for size, init, added in ((LIMIT, DONE, (0, "added 0\n", "")), (LIMIT + 1, large, large)):
        (folder / "large.json").write_text(CONTEST.ljust(size), encoding="utf-8")
        (folder / "empty.json").write_text("[]".ljust(size), encoding="utf-8")
        desk.answers(f"a contest of {size} bytes", init, folder, "init", "cup.db", "large.json")
        desk.answers(f"{size} bytes of no team", added, folder, "import", "cup.db", "teams", "empty.json")
    (folder / "many.csv").write_text(TEAMS + "n501,Team 501,,\n", encoding="utf-8")
    desk.answers("501 teams", refused("E22 ImportRow 501 TableFull"), folder, "import", "cup.db", "teams-csv", "many.csv")
    for added in (500, 0):
        desk.answers("500 teams", (0, f"added {added}\n", ""), folder, "import", "cup.db", "teams-csv", "teams.csv")
    desk.opens("500 teams", folder, "0 0 0 0 500 0 0 0 0 0 0")


def try_bytes(desk):
    """Bytes that are no text, and a byte order mark."""
    folder = desk.new_folder()
    desk.run(folder, "init", "cup.db", "contest.json")
    head = b"id,name,group_ids,hidden\n"
    malformed = refused("E22 ImportRow 2 Malformed")
    for what, data, wanted in (
        ("a byte 0xFF", head + b"t1,Alpha,,\nt2,B\xffta,,\n", malformed),
        ("a NUL byte", head + b"t1,Alpha,,\nt2,B\0ta,,\n", malformed),
        ("a mark at the start", b"\xef\xbb\xbf" + head + b"t1,Alpha,,\n", (0, "added 1\n", "")),
        ("two marks at the start", b"\xef\xbb\xbf" * 2 + head + b"t1,Alpha,,\n", refused("E1 Malformed")),
    ):
        (folder / "teams.csv").write_bytes(data)
        desk.answers(what, wanted, folder, "import", "cup.db", "teams-csv", "teams.csv")
    (folder / "groups.json").write_bytes(b'[{"id":"g","name":"\xff"}]')
    desk.answers("a byte 0xFF in JSON", refused("E1 Malformed"), folder, "import", "cup.db", "groups", "groups.json")


def try_paths(desk):
    """Files that are missing, no files, or another's."""
    folder = desk.new_folder()
    desk.run(folder, "init", "cup.db", "contest.json")
    for what, none in sqlite.NO_PATHS:
        if "pipe" not in none:
            path = none.format(folder=folder, good=folder / "cup.db")
            desk.answers(what, FAULT, folder, "init", path, "contest.json")
            desk.answers(what, FAULT, folder, "import", path, "teams-csv", "teams.csv")
    for path in ("none.csv", ".", "cup.db/teams.csv", ""):
        desk.answers(f"{path!r} to import", FILE, folder, "import", "cup.db", "teams-csv", path)
        desk.answers(f"{path!r} as a contest", FILE, folder, "init", "new.db", path)
    (folder / "own.csv").write_text(TEAMS, encoding="utf-8")
    (folder / "own.csv").chmod(0o600)
    folder.chmod(0o777)
    for path in folder.glob("cup.db*"):
        path.chmod(0o666)
    desk.answers("another's file", FILE, folder, "import", "cup.db", "teams-csv", "own.csv", before=NOBODY)
    (folder / "cup.db").chmod(0o444)
    desk.answers("a file that is read alone", FAULT, folder, "import", "cup.db", "teams-csv", "teams.csv", before=NOBODY)
    (folder / "cup.db").chmod(0o600)
    desk.answers("another's contest", FAULT, folder, "import", "cup.db", "teams-csv", "teams.csv", before=NOBODY)
    folder.chmod(0o755)
    desk.answers("another's folder", FAULT, folder, "init", "new.db", "contest.json", before=NOBODY)
    desk.opens("after all of these", folder, "0 0 0 0 0 0 0 0 0 0 0")


def try_absent(desk):
    """A FILE that isn't there is made by `init` alone, once it has read CONTEST. All else leaves none, nor anything beside it."""
    folder = desk.new_folder()
    (folder / "own.json").write_text(CONTEST, encoding="utf-8")
    (folder / "own.json").chmod(0o600)
    (folder / "large.json").write_text(CONTEST.ljust(LIMIT + 1), encoding="utf-8")
    (folder / "link.db").symlink_to("none.db")
    folder.chmod(0o777)
    stand = sorted(folder.iterdir())
    calls = [("board",), ("awards", "--jury"), ("export",), ("feed",), ("upgrade",), ("serve", "--requests", "1"), ("serve", "--requests", "0"),
             ("import", "teams-csv", "teams.csv"), ("import", "teams-csv", "none.csv"), ("import", "verdicts-csv", "teams.csv")]  # fmt: skip
    tried = [((command, file, *words), FAULT, ()) for command, *words in calls for file in ("none.db", "link.db", "none/cup.db", "")]
    tried += [(("init", "none.db", path), FILE, ()) for path in ("none.json", ".", "teams.csv/x", "")]
    tried += [(("init", "none.db", "own.json"), FILE, NOBODY), (("init", "none.db", "large.json"), refused("E6 BodyTooLarge"), ())]
    tried += [(("init", "link.db", "contest.json"), FAULT, ()), (("init", "none/cup.db", "contest.json"), FAULT, ())]
    for words, wanted, before in tried:
        desk.same(f"{words} of no file", desk.run(folder, *words, before=before), wanted)
        desk.same(f"what {words} leaves", sorted(folder.iterdir()), stand)
    desk.same("a contest that is read", desk.run(folder, "init", "none.db", "contest.json"), DONE)
    desk.same("what stands then", sorted(folder.iterdir()), sorted([*stand, folder / "none.db", folder / "none.db-wal"]))


def try_alone(desk):
    """A file that is copied alone is the contest; no byte of a page is kept for sums, which sqlite3 wouldn't keep up."""
    folder, other = desk.new_folder(), desk.new_folder()
    desk.run(folder, "init", "cup.db", "contest.json")
    desk.same("bytes of a page that are kept", (folder / "cup.db").read_bytes()[20], 0)
    desk.run(folder, "import", "cup.db", "teams-csv", "teams.csv")
    shutil.copy(folder / "cup.db", other)
    desk.answers("a copy", (0, "added 0\n", ""), other, "import", "cup.db", "teams-csv", "teams.csv")
    desk.opens("a copy", other, "0 0 0 0 500 0 0 0 0 0 0")


def try_streams(desk):
    """If standard output fails the rows are kept."""
    folder = desk.new_folder()
    desk.run(folder, "init", "cup.db", "contest.json")
    with open("/dev/full", "wb") as full:
        given = desk.run(folder, "import", "cup.db", "teams-csv", "teams.csv", stdout=full)
    desk.note(given == FILE, f"a full standard output: {given}")
    desk.opens("a full standard output", folder, "0 0 0 0 500 0 0 0 0 0 0")


def try_reads(desk):
    """A file whose reads are interrupted is read, up to a thousand times; another error ends it at once."""
    library = compiled("fail_read", desk.folder)
    added = (0, "added 500\n", "")
    for times, error, wanted in ((1_000, errno.EINTR, added), (1_001, errno.EINTR, FILE), (1, errno.EIO, FILE), (1, errno.EAGAIN, FILE)):
        folder = desk.new_folder()
        desk.run(folder, "init", "cup.db", "contest.json")
        how = {"LD_PRELOAD": library, "FAIL_PATH": str(folder / "teams.csv"), "FAIL_TIMES": str(times), "FAIL_ERROR": str(error)}
        given = desk.run(folder, "import", "cup.db", "teams-csv", "teams.csv", env={**os.environ, **how})
        desk.same(f"{times} reads that fail by {os.strerror(error)}", given, wanted)


def try_clock(desk):
    """Settings are taken until the start by the machine's clock; a clock that shows no moment is told."""
    folder = desk.new_folder()
    desk.run(folder, "init", "cup.db", "past.json")
    (folder / "one.csv").write_text("id,name,group_ids,hidden\nt1,Alpha,,\n", encoding="utf-8")
    (folder / "two.csv").write_text("id,name,group_ids,hidden\nt2,Beta,,\n", encoding="utf-8")
    no_moment, early = refused("Clock"), "1969-12-31 23:59:59"
    for moment, name, wanted in (
        (early, "one.csv", no_moment),
        ("2024-03-02 08:59:59", "one.csv", (0, "added 1\n", "")),
        ("2024-03-02 09:00:00", "one.csv", (0, "added 0\n", "")),
        ("2024-03-02 09:00:00", "two.csv", refused("E23 SettingsClosed")),
    ):
        desk.answers(f"at {moment}", wanted, folder, "import", "cup.db", "teams-csv", name, before=clock.at(moment))
    desk.answers("a clock of no moment, before FILE", no_moment, folder, "import", ".", "teams-csv", "one.csv", before=clock.at(early))


def try_rows(desk):
    """Imported rows stand in their tables as in data/tables/store_demo.sql, token digests and all; without groups they
    are those of the demo contest that the library makes."""
    folder = demo.made(desk, demo.FILES)
    sqlite.asked(folder / "demo.db", sqlite.TABLES + demo.ROWS)
    same_rows(desk, folder)
    desk.opens("the demo contest", folder, "3 2 3 2 4 7 0 0 0 0 0")
    plain = {kind: file.replace("north guests", "").replace("south", "") for kind, file in demo.FILES.items() if kind != "groups"}
    folder = demo.made(desk, plain)
    ran([desk.probe, "demo", folder / "demo.db", "4", "2"])
    same_rows(desk, folder)
    desk.opens("the demo contest without groups", folder, "3 2 0 2 4 7 0 0 0 0 0")


def same_rows(desk, folder):
    """The settings and the accounts in cup.db are those in demo.db."""
    rows = "SELECT * FROM desk; SELECT * FROM contest; SELECT * FROM items; SELECT *, hex(token) FROM accounts ORDER BY id"
    made, wanted = (sqlite.asked(folder / name, rows) for name in ("cup.db", "demo.db"))
    desk.note(made == wanted != "", f"the demo contest's rows: {made}, wanted {wanted}")


# What stands before the session of README.md: the program and `date` go by a clock of the folder's own, which stands still but
# for `sleep`, so that the contest need not be waited for.
BY_CLOCK = """
exec 2>&1
by_clock() { env TZ=UTC LD_PRELOAD=$LIBRARY FAKETIME_NO_CACHE=1 FAKETIME_TIMESTAMP_FILE=clock "$@"; }
desk() { by_clock "$DESK" "$@"; }
date() { by_clock date "$@"; }
sleep() {
    command date -ud "@$(($(command date -ud "$(cat clock)" +%s) + $1))" '+%F %T' >later && mv later clock
    command sleep 1
}
"""


def try_readme(desk):
    """The calls of README.md, line by line: boards, a refusal, and a contest that `sleep` waits for. The gate isn't called."""
    text = (ROOT / "README.md").read_text(encoding="utf-8")
    blocks = "".join(re.findall(r"(?ms)^```\n(\$ .*?)^```", text))
    calls = [call for call in re.findall(r"(?m)^\$ (.*)\n((?:(?!\$ ).*\n)*)", blocks) if ".ci/run" not in call[0]]
    desk.note(len(calls) > 7, f"README.md has {len(calls)} calls")
    folder = desk.new_folder()
    (folder / "examples").symlink_to(ROOT / "examples")
    (folder / "clock").write_text("2026-06-01 15:00:00\n", encoding="utf-8")
    script = BY_CLOCK + "\n".join(f"{call}\necho '-- done'" for call, _ in calls).replace("./desk", "desk")
    clock.forget_the_dead()
    env = {**os.environ, "LIBRARY": clock.LIBRARY, "DESK": str(desk.path)}
    given = ran(["bash", "-c", script], cwd=folder, env=env, timeout=300)[1].decode().split("-- done\n")
    for (call, wanted), printed in zip(calls, given):
        desk.note(printed == wanted, f"README.md: {call}: {printed!r}, wanted {wanted!r}")
    desk.note(len(given) == len(calls) + 1, "README.md: not all calls were made")


def kill(desk, base, delay):
    """An import of 500 teams that is killed after so many seconds: what is wrong then, and whether all stand."""
    with tempfile.TemporaryDirectory(dir=desk.folder) as name:
        folder = pathlib.Path(name)
        for file in base.iterdir():
            shutil.copy(file, folder)
        with subprocess.Popen([desk.path, "import", "cup.db", "teams-csv", "teams.csv"], cwd=folder,
                              stdout=subprocess.PIPE, stderr=subprocess.PIPE) as running:
            time.sleep(delay)
            running.kill()
            told = running.communicate()[0].decode()
        opened = desk.found(folder)
    none, every = "open: 0 0 0 0 0 0 0 0 0 0 0\n", "open: 0 0 0 0 500 0 0 0 0 0 0\n"
    right = opened == every or (opened == none and told == "")
    return None if right else f"killed after {delay:.4f} s: {told!r}, then {opened!r}", opened == every


def try_kills(desk):
    """Imports that are killed leave all their rows or none, and all if that was told."""
    base = desk.new_folder()
    desk.run(base, "init", "cup.db", "contest.json")
    full, chance, kills = desk.new_folder(), random.Random(18), desk.options.kills
    for file in base.glob("cup.db*"):
        shutil.copy(file, full)
    start = time.monotonic()
    desk.run(full, "import", "cup.db", "teams-csv", "teams.csv")
    longest = 4 * (time.monotonic() - start)
    delays = [chance.uniform(0, longest) for _ in range(kills)]
    with program.lanes() as pool:
        ends = list(pool.map(lambda delay: kill(desk, base, delay), delays))
    for wrong, _ in ends:
        desk.note(wrong is None, wrong)
    stood = sum(all_stand for _, all_stand in ends)
    print(f"kills within {longest:.3f} s: {stood} of {kills} left all rows", flush=True)
    desk.note(0 < stood < kills, "kills came all too early or all too late to say anything")


if __name__ == "__main__":
    PARTS = try_commands, try_help, try_limits, try_bytes, try_paths, try_absent, try_alone, try_streams, try_reads, try_clock, try_rows, try_readme, try_kills
    sys.exit(program.main(__doc__, Desk, PARTS, program="desk", probe="probe", kills=200))
