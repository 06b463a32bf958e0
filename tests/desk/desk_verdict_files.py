#!/usr/bin/env -S python3 -B
"""Imports files of verdicts by `desk import`, as a jury does that judges elsewhere: whole or not at all, also if it is killed.

    desk_verdict_files.py [--program PATH] [--spoiled N] [--submissions N] [--kills N] [--seed N]

In two sessions, without verification and with it, teams submit at `desk serve`, a file is imported, and judges go on from there.
Then N files (400) with random changes are imported, each into a copy of one contest: the answer and the rows that are added are
those of a second opinion. Then the verdicts of N submissions (240,000) are imported, and N such imports (12) are killed at a
random moment: whoever opens the file next, which is `desk board`, finds all of them or none, and all if that was printed. sqlite3
finds the same.

Takes sqlite3 and faketime. Ends with the line `N passed, M failed`; the exit status is 0 if M is 0.
"""

import random
import shutil
import subprocess
import sys
import time

from desk_rejudgings import DEMO, Desk, copy_contest, refusal
from lib import clock, demo, desk_opinion, program, verdict_file_opinion
from lib.demo import START
from lib.desk_opinion import moment, submission_id
from lib.program import Program, refused
from lib.sqlite import asked, insert, opened

HEADER = "submission_id,judgement_type_id"
TEN = "2024-03-02 10:00:00"
TEN_O_CLOCK = START + 3_600_000
VERIFIED = {**demo.FILES, "init": demo.STARTED.replace('"duration"', '"verification":true,"duration"')}


def imports(desk, folder, rows, at=TEN):
    """What is answered to a file of these records."""
    (folder / "verdicts.csv").write_text("\n".join([HEADER, *rows]) + "\n", encoding="utf-8")
    return desk.run(folder, "import", "cup.db", "verdicts-csv", "verdicts.csv", before=clock.at(at))


def added(count):
    return 0, f"added {count}\n", ""


def fault(record, cause):
    return refused(f"E22 ImportRow {record} {cause}")


# --- Sessions ----------------------------------------------------------------------------------------


def submit(server, minute, *teams):
    """Each of these teams submits once, to the first problem."""
    server.at(f"2024-03-02 09:{minute}:00")
    body = {"problem_id": "a", "language_id": "cpp", "files": [{"data": "YWJj"}]}
    return [server.answer(f"a{team}", "POST", f"{DEMO}/submissions", body)[1]["id"] for team in teams]


def served(desk, folder, at=TEN):
    server = Desk(desk, folder)
    server.at(at)
    return server


def try_released(desk):
    """Where nobody verifies verdicts they are released with their file."""
    folder = demo.made(desk, demo.FILES)
    desk.same("before the first submission", imports(desk, folder, ["s1-1,AC"]), fault(1, "UnknownReference"))
    server = served(desk, folder)
    desk.same("they submit", submit(server, "10", 1, 2, 1), ["s1-1", "s2-1", "s1-2"])
    server.stop()
    for what, rows, wanted in (
        ("a submission that isn't there", ["s1-1,AC", "s2-1,WA", "s9-9,AC"], fault(3, "UnknownReference")),
        ("a type that isn't there", ["s1-1,AC", "s2-1,TLE"], fault(2, "UnknownReference")),
        ("two types for one", ["s1-1,AC", "s1-1,WA"], fault(2, "KeyReused")),
        ("a field too few", ["s1-1"], fault(1, "Malformed")),
        ("no record", [], added(0)),
        ("two", ["s1-1,AC", "s2-1,WA"], added(2)),
        ("the same again", ["s1-1,AC", "s2-1,WA"], added(0)),
        ("another type", ["s2-1,AC"], fault(1, "KeyReused")),
    ):
        before = asked(folder / "cup.db", "SELECT * FROM proposals; SELECT * FROM releases;")
        desk.same(what, imports(desk, folder, rows), wanted)
        after = asked(folder / "cup.db", "SELECT * FROM proposals; SELECT * FROM releases;")
        desk.note(after == before or wanted == added(2), f"{what}: {before!r}, then {after!r}")
    board = ("board", "cup.db", "--at", "2024-03-02T10:00:00Z", "--format", "csv")
    first = desk.run(folder, *board)[1].split("\n")[1]
    desk.same("the board", first, "1,t1,Alpha,1,10,10,+1/10,.")
    server = served(desk, folder)
    shown = [(one["id"], one["judgement_type_id"]) for one in server.answer("public", "GET", f"{DEMO}/judgements")[1]]
    desk.same("what anyone sees", shown, [("s1-1.1", "AC"), ("s2-1.1", "WA")])
    judged = {"submission_id": "s1-2", "judgement_type_id": "WA"}
    desk.same("a judge's", server.answer("j1", "POST", "/jury/proposals", judged)[0], 200)
    server.stop()
    desk.same("what a judge released", imports(desk, folder, ["s1-2,WA"]), fault(1, "AlreadyReleased"))


def try_verified(desk):
    """Where judges verify verdicts, those of a file wait for them."""
    folder = demo.made(desk, VERIFIED)
    server = served(desk, folder)
    submit(server, "10", 1, 1)
    server.stop()
    desk.same("its verdict", imports(desk, folder, ["s1-1,AC", "s1-1,AC"]), added(1))
    server = served(desk, folder)
    desk.same("it is pending", server.answer("a1", "GET", f"{DEMO}/judgements"), (200, []))
    waits = {"account_id": "import", "judgement_type_id": "AC", "released": False, "submission_id": "s1-1", "time": moment(TEN_O_CLOCK)}
    desk.same("what waits", server.answer("j1", "GET", "/jury/proposals"), (200, [waits]))
    verdict = {"submission_id": "s1-1", "judgement_type_id": "AC"}
    desk.same("a judge verifies it", server.answer("j1", "POST", "/jury/verifications", verdict)[1].get("id"), "s1-1.1")
    server.stop()
    desk.same("both in a file", imports(desk, folder, ["s1-1,AC", "s1-2,AC"]), added(1))
    server = served(desk, folder)
    verdict = {"submission_id": "s1-2", "judgement_type_id": "WA"}
    desk.same("another type", server.answer("j1", "POST", "/jury/verifications", verdict), refusal(409, "TypeDiffers"))
    desk.same("a judge proposes that", server.answer("j1", "POST", "/jury/proposals", verdict)[0], 200)
    desk.same("another verifies it", server.answer("j2", "POST", "/jury/verifications", verdict)[1]["judgement_type_id"], "WA")
    server.stop()
    desk.same("the imported one again", imports(desk, folder, ["s1-2,AC"], "2024-03-02 15:00:00"), added(0))


# --- Spoiled files -----------------------------------------------------------------------------------

TEAMS = ["t1", "t2", "t3", "t9"]
PIECES = [b",", b"\n", b'"', b"s1-1", b"s2-1,WA", b"AC", b" ", b"\r\n", b"-", b"\xff", b"s1-01", b"\n\n", b"s9-9", b",AC\n"]


def begun(desk, verification):
    """A contest with three submissions of each team, some with a verdict: its folder, and the same for the second opinion."""
    folder = demo.made(desk, VERIFIED if verification else demo.FILES)
    contest = desk_opinion.new_contest({**demo.REHEARSAL, "verification": verification}, START, None, None)
    contest["teams"] = [{"id": one} for one in TEAMS]
    contest["types"] = [{"id": one} for one in ("AC", "WA", "CE")]
    with opened(folder / "cup.db") as database:
        for place, team in enumerate(TEAMS, 1):
            for number in (1, 2, 3):
                contest["submissions"].append({"team": team, "number": number})
                row = (3 * (place - 1) + number, place, number, START + number, "a", "cpp", None, b"abc", None)
                insert(database, "submissions", row)
        for seq, (place, number, verdict, account) in enumerate([(1, 1, "AC", "import"), (2, 1, "WA", "j1"), (3, 2, "AC", "j1")], 1):
            which = f"s{place}-{number}"
            insert(database, "proposals", (seq, place, number, verdict, account, START + 9))
            contest["proposals"].append({"account": account, "submission": which, "type": verdict, "time": START + 9})
            if not verification or seq == 2:
                contest["releases"].append(desk_opinion.first_release(START + 9, which, verdict))
                insert(database, "releases", (len(contest["releases"]), place, number, 1, verdict, START + 9))
    return folder, contest


def file_of(chance, contest):
    """A file of verdicts, with a change or two of its bytes in half of the cases."""
    ids = [submission_id(contest, one) for one in contest["submissions"]]
    rows = [f"{chance.choice(ids)},{chance.choice(['AC', 'AC', 'WA', 'CE'])}" for _ in range(chance.randrange(5))]
    data = "\n".join([HEADER, *rows, ""]).encode()
    for _ in range(chance.choice([0, 0, 1, 2])):
        at = chance.randrange(len(data) + 1)
        data = data[:at] + chance.choice(PIECES) + data[at + chance.choice([0, 0, 1, 3]) :]
    return data


def rows_of(contest):
    """The rows of what was proposed and released, as sqlite3 prints them."""
    proposed = [[one["submission"], one["type"], one["account"], one["time"]] for one in contest["proposals"]]
    released = [[one["submission"], one["round"], one["type"], one["time"]] for one in contest["releases"]]
    return "".join("|".join(map(str, row)) + "\n" for row in proposed + released)


ROWS = """SELECT 's' || team || '-' || k, type, account, time FROM proposals ORDER BY seq;
SELECT 's' || team || '-' || k, n, type, time FROM releases ORDER BY seq;"""


def try_spoiled(desk):
    """Files with random changes, beside the second opinion."""
    chance, kinds = random.Random(desk.options.seed), {}
    worlds = [begun(desk, verification) for verification in (False, True)]
    for number in range(desk.options.spoiled):
        base, contest = worlds[number % 2]
        folder, data = desk.new_folder(), file_of(chance, contest)
        copy_contest(base, folder)
        (folder / "verdicts.csv").write_bytes(data)
        line, after = verdict_file_opinion.imported(contest, TEN_O_CLOCK, "verdicts-csv", data)
        wanted = (0, line + "\n", "") if line.startswith("added") else (1, "", line + "\n")
        given = desk.run(folder, "import", "cup.db", "verdicts-csv", "verdicts.csv", before=clock.at(TEN))
        desk.same(f"{data!r}", (given, asked(folder / "cup.db", ROWS)), (wanted, rows_of(after)))
        kinds[line] = kinds.get(line, 0) + 1
        shutil.rmtree(folder)
    print(f"{len(kinds)} kinds of answers", flush=True)
    desk.note(len(kinds) >= min(12, desk.options.spoiled // 8), f"too few kinds of answers: {sorted(kinds)}")


# --- Large files and kills ---------------------------------------------------------------------------

COUNTS = "SELECT count(*) FROM proposals; SELECT count(*) FROM releases; SELECT count(DISTINCT team * 1000 + k) FROM releases;"
OF_A_TEAM = 480


def large(desk):
    """A folder with a contest of many submissions and the file of their verdicts."""
    count = desk.options.submissions
    places = -(-count // OF_A_TEAM)
    teams = "".join(f"n{n},Team {n},,\n" for n in range(1, places + 1))
    accounts = "id,role,team_id,token\nj1,judge,,token-j1\n"
    folder = demo.made(desk, {**demo.FILES, "teams-csv": f"id,name,group_ids,hidden\n{teams}", "accounts-csv": accounts})
    rows = [(row % places + 1, row // places + 1) for row in range(count)]
    with opened(folder / "cup.db") as database:
        for seq, (place, number) in enumerate(rows, 1):
            insert(database, "submissions", (seq, place, number, START + number, "a", "cpp", None, b"abc", None))
    records = [f"s{place}-{number},{'AC' if number % 3 else 'WA'}" for place, number in rows]
    (folder / "verdicts.csv").write_text("\n".join([HEADER, *records, ""]), encoding="utf-8")
    return folder


def killed(desk, base, number, delay):
    """Whether all stands after a kill, and what is wrong then."""
    folder = desk.new_folder()
    copy_contest(base, folder)
    shutil.copy(base / "verdicts.csv", folder)
    # By the clock of the machine, after the end: a kill would reach faketime alone, and not what it runs.
    words = [desk.path, "import", "cup.db", "verdicts-csv", "verdicts.csv"]
    with subprocess.Popen(words, cwd=folder, stdout=subprocess.PIPE, stderr=subprocess.PIPE) as running:
        time.sleep(delay)
        running.kill()
        told = running.communicate()[0].decode()
    board = desk.run(folder, "board", "cup.db", "--audience", "jury", "--at", "2024-03-02T09:59:00Z", "--format", "csv")
    solved = sum(int(line.split(",")[3]) for line in board[1].split("\n")[1:-1])
    counts = asked(folder / "cup.db", COUNTS).split()
    shutil.rmtree(folder)
    count = desk.options.submissions
    stands = counts == [str(count)] * 3
    is_right = stands or (counts == ["0"] * 3 and told == "")
    is_right = is_right and (solved > 0) == stands and board[0] == 0 and told in ("", f"added {count}\n")
    return stands, None if is_right else f"killed after {delay:.3f} s: {told!r}, then {counts}, {solved} solved"


def try_kills(desk):
    """A large import is killed: it leaves all of its rows or none, and all if that was printed."""
    base, count, kills = large(desk), desk.options.submissions, desk.options.kills
    folder = desk.new_folder()
    copy_contest(base, folder)
    shutil.copy(base / "verdicts.csv", folder)
    words, taken = ("import", "cup.db", "verdicts-csv", "verdicts.csv"), []
    for wanted in (added(count), added(0)):
        start = time.monotonic()
        given = desk.run(folder, *words, before=clock.at(TEN), timeout=900)
        taken.append(time.monotonic() - start)
        desk.same(f"verdicts of {count} submissions", given, wanted)
    desk.same("the rows then", asked(folder / "cup.db", COUNTS).split(), [str(count)] * 3)
    chance, stood = random.Random(desk.options.seed), 0
    for number in range(kills):
        # The last of them comes when the import is long done.
        delay = chance.uniform(0, taken[0]) if number < kills - 1 else 3 * taken[0]
        stands, wrong = killed(desk, base, number, delay)
        desk.note(wrong is None, wrong)
        stood += stands
    print(f"kills within {taken[0]:.1f} s: {stood} of {kills} left all rows", flush=True)
    desk.note(kills == 0 or 0 < stood < kills, "kills came all too early or all too late to say anything")


if __name__ == "__main__":
    PARTS = (try_released, try_verified, try_spoiled, try_kills)
    sys.exit(program.main(__doc__, Program, PARTS, program="desk", spoiled=400, submissions=240_000, kills=12, seed=41))
