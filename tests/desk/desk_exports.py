#!/usr/bin/env -S python3 -B
"""Holds what `desk awards` and `desk export` print beside what they must of a contest in a file.

    desk_exports.py [--program PATH] [--made N] [--every N] [--seed N]

N made contests (120) of the demo contest's teams and problems, some of them with final results and some thawed: their awards,
for anyone and for the jury, before and after each of these moments, and all their submissions. As many with more teams, with
groups of which a team may win two, and with other places of medals: their results as the ICPC's systems take them, if they are
final. Then an export whose output takes so many bytes and no more, other outputs that fail, and what is refused. At the end each
Nth call for memory (7th) of an export, of awards and of a board is refused, each alone: the answer is E25, after the front of an
export that was written by then, or the text.

Takes faketime and a C compiler. Ends with the line `N passed, M failed`; the exit status is 0 if M is 0.
"""

import csv
import hashlib
import io
import json
import random
import shutil
import sys

from lib import clock, demo, desk_opinion, program
from lib.demo import START
from lib.desk_opinion import moment, submission_id
from lib.program import FAULT, FILE, Program, compiled, limited_to, ran_refused, refused, refused_in_turn
from lib.replay_opinion import reltime_text
from lib.sqlite import dump, insert, opened

FIELDS = ["id", "team_id", "problem_id", "language_id", "time", "contest_time", "judgement_type_id", "sha256"]
MINUTE = 60_000
END = START + demo.REHEARSAL["duration"]
FINAL, THAW = END + 10 * MINUTE, END + 20 * MINUTE
EMPTY = ",".join(FIELDS) + "\n"
JURY = {"role": "judge", "team": None}
COLOURS, PLACES = ("gold", "silver", "bronze"), (1, 1, 1)
ICPC = ("export", "cup.db", "--format", "icpc")
NOT_FINAL = refused("E9 NotOpen")


def made_contest(seed, teams=demo.FILES["teams-csv"]):
    """A contest of these teams for the second opinion, with what was submitted and released."""
    chance = random.Random(seed)
    final = chance.random() < 0.7
    thaw = THAW if final and chance.random() < 0.7 else None
    contest = desk_opinion.new_contest(demo.REHEARSAL, START, thaw, FINAL if final else None)
    contest["types"] = [{"penalty": False, **one} for one in json.loads(demo.FILES["judgement-types"])]
    contest["problems"] = json.loads(demo.FILES["problems"])
    contest["groups"] = json.loads(demo.FILES["groups"])
    for row in csv.DictReader(io.StringIO(teams)):
        groups = row["group_ids"].split()
        contest["teams"].append({"id": row["id"], "name": row["name"], "group_ids": groups, "hidden": row["hidden"] == "true"})
    for team in contest["teams"]:
        time = START
        for number in range(1, chance.randrange(6) + 1):
            time += chance.randrange(0, 50 * MINUTE)
            one = {"team": team["id"], "number": number, "time": time, "problem": chance.choice("ab"), "file": chance.randbytes(chance.randrange(1, 40))}
            one["language"], one["entry"] = chance.choice([("cpp", None), ("java", "Main")])
            contest["submissions"].append(one)
            if final or chance.random() < 0.7:
                which = submission_id(contest, one)
                contest["releases"].append(desk_opinion.first_release(time, which, chance.choice(["AC", "AC", "WA", "CE"])))
    return contest


def kept(desk, contest, files=demo.FILES):
    """A folder in which cup.db keeps the contest, whose settings are in these files."""
    folder = demo.made(desk, files)
    verdicts = {one["submission"]: one for one in contest["releases"]}
    with opened(folder / "cup.db") as database:
        released = 0
        for seq, one in enumerate(contest["submissions"], 1):
            place = desk_opinion.place_of(contest, one["team"])
            row = (seq, place, one["number"], one["time"], one["problem"], one["language"], one["entry"], one["file"], None)
            insert(database, "submissions", row)
            verdict = verdicts.get(submission_id(contest, one))
            if verdict is not None:
                released += 1
                insert(database, "proposals", (released, place, one["number"], verdict["type"], "j1", one["time"]))
                insert(database, "releases", (released, place, one["number"], 1, verdict["type"], one["time"]))
        database.execute("UPDATE contest SET thaw = ?, finalized = ?", (contest["thaw"], contest["finalized"]))
    return folder


def awards_text(contest, now, caller):
    """A line for each award that the caller is shown."""
    names = {team["id"]: team["name"] for team in contest["teams"]}
    shown = desk_opinion.awards(contest, now, caller)
    return "".join(f"{one['id']}: {one['citation']}: {', '.join(names[team] for team in one['team_ids'])}\n" for one in shown)


def export_text(contest):
    """All submissions, by time, team id and number."""
    last = {one["submission"]: one["type"] for one in contest["releases"]}
    text = io.StringIO()
    writer = csv.writer(text, lineterminator="\n")
    writer.writerow(FIELDS)
    for one in sorted(contest["submissions"], key=lambda one: (one["time"], one["team"].encode(), one["number"])):
        which = submission_id(contest, one)
        writer.writerow([which, one["team"], one["problem"], one["language"], moment(one["time"]), reltime_text(one["time"] - START),
                         last.get(which, ""), hashlib.sha256(one["file"]).hexdigest()])  # fmt: skip
    return text.getvalue()


def larger_files(chance, places):
    """Files of the demo contest with more teams, in groups by chance, and with so many places of each medal."""
    groups = [" ".join(chance.sample(["north", "south", "guests"], chance.randrange(4))) for _ in range(6)]
    rows = [f"t{10 + number},Team {number},{ids}," for number, ids in enumerate(groups)]
    medals = json.dumps(dict(zip(COLOURS, places)))
    init = demo.STARTED.replace('"duration"', f'"medals":{medals},"duration"')
    return {**demo.FILES, "init": init, "teams-csv": demo.FILES["teams-csv"] + "".join(row + "\n" for row in rows)}


def groups_won(contest, rows):
    """Of each team that is best in some group the name of the first of these, by their ids."""
    won = {}
    for group in sorted(contest["groups"], key=lambda one: one["id"].encode()):
        members = {team["id"] for team in contest["teams"] if group["id"] in team["group_ids"]}
        own = [row for row in rows if row["team_id"] in members and row["score"]["num_solved"]]
        for row in own:
            if row["rank"] == min(other["rank"] for other in own):
                won.setdefault(row["team_id"], group["name"])
    return won


def results_text(contest, places):
    """The results by the jury's board, with so many places of each medal."""
    rows = desk_opinion.scoreboard(contest, contest["finalized"], JURY)["rows"]
    won, lines = groups_won(contest, rows), ["results\t1"]
    medals = [f"{colour.title()} Medal" for colour, count in zip(COLOURS, places) for _ in range(count)]
    for row in rows:
        score = row["score"]
        medal = medals[row["rank"] - 1] if score["num_solved"] and row["rank"] <= len(medals) else "Ranked"
        last = -1 if score["time"] is None else score["time"]
        fields = (row["team_id"], row["rank"], medal, score["num_solved"], score["total_time"], last, won.get(row["team_id"], ""))
        lines.append("\t".join(map(str, fields)))
    return "".join(line + "\n" for line in lines)


def try_results(desk):
    """Made contests with more teams: their results, or that they aren't final."""

    def one(index):
        seed = desk.options.seed * 1_000_000 + index
        chance = random.Random(seed)
        places = [chance.randrange(4) for _ in COLOURS]
        files = larger_files(chance, places)
        contest = made_contest(seed, files["teams-csv"])
        folder = kept(desk, contest, files)
        wanted = NOT_FINAL if contest["finalized"] is None else (0, results_text(contest, places), "")
        desk.answers(f"contest {index}, results", wanted, folder, *ICPC)
        desk.answers(f"contest {index}, export as CSV", (0, export_text(contest), ""), folder, "export", "cup.db", "--format", "csv")
        return wanted[1]

    with program.lanes() as pool:
        texts = list(pool.map(one, range(desk.options.made)))
    for what in ("Gold Medal", "Silver Medal", "Bronze Medal", "Ranked", "\t-1\t\n", "\tNorth\n", "\tSouth\n", "\tGäste\n"):
        desk.note(any(what in text for text in texts), f"no results with {what!r}")


def try_made(desk):
    """Made contests, as each who may look is shown them."""

    def one(index):
        contest = made_contest(desk.options.seed * 1_000_000 + index)
        folder = kept(desk, contest)
        for now in (END - MINUTE, FINAL - 1, FINAL, THAW - 1, THAW):
            for words, caller in (((), None), (("--jury",), JURY)):
                asked = ("awards", "cup.db", *words, "--at", moment(now))
                desk.answers(f"contest {index}, {' '.join(asked)}", (0, awards_text(contest, now, caller), ""), folder, *asked)
        desk.answers(f"contest {index}, export", (0, export_text(contest), ""), folder, "export", "cup.db")

    with program.lanes() as pool:
        list(pool.map(one, range(desk.options.made)))


def try_cuts(desk):
    """Exports of three submissions or more, whose output fails after so many bytes: in each row, and at each end. The program writes
    a few bytes to the contest's file too, so there are as many as the header has at least."""
    contest = next(one for one in map(made_contest, range(100)) if len(one["submissions"]) > 2)
    folder, text = kept(desk, contest), export_text(contest)
    desk.answers("the first export, which fills the cells", (0, text, ""), folder, "export", "cup.db")
    ends = [at + 1 for at, char in enumerate(text) if char == "\n"]
    for count in sorted({*ends[:-1], *(end + 9 for end in ends[:-1]), ends[-1] - 1}):
        with open(folder / "out", "wb") as output:
            given = desk.run(folder, "export", "cup.db", stdout=output, preexec_fn=limited_to(count))
        desk.same(f"an output of {count} bytes", (given, (folder / "out").read_text()), (FILE, text[:count]))
        desk.answers(f"the export after {count} bytes", (0, text, ""), folder, "export", "cup.db")


def try_cut_results(desk):
    """Results whose output fails after so many bytes."""
    files = larger_files(random.Random(1), PLACES)
    contest = next(one for one in (made_contest(seed, files["teams-csv"]) for seed in range(100)) if one["finalized"])
    folder, text = kept(desk, contest, files), results_text(contest, PLACES)
    data = text.encode()
    desk.answers("the first export, which fills the cells", (0, text, ""), folder, *ICPC)
    for count in (len(data) // 2, len(data) - 1):
        with open(folder / "out", "wb") as output:
            given = desk.run(folder, *ICPC, stdout=output, preexec_fn=limited_to(count))
        desk.same(f"an output of {count} bytes", (given, (folder / "out").read_bytes()), (FILE, data[:count]))
        desk.answers(f"the results after {count} bytes", (0, text, ""), folder, *ICPC)


def try_refused(desk):
    """Awards by the clock, a contest that hasn't begun, words, files and outputs at fault."""
    contest = made_contest(1)
    contest["finalized"], contest["thaw"] = FINAL, None
    folder = kept(desk, contest)
    then = clock.at(clock.text_of(FINAL))
    desk.answers("awards by the clock", (0, awards_text(contest, FINAL, JURY), ""), folder, "awards", "cup.db", "--jury", before=then)
    desk.answers("a clock before 1970", refused("Clock"), folder, "awards", "cup.db", before=clock.at("1960-01-01 00:00:00"))
    no_moment = "error: '9:30' of '--at' is no moment, as 2024-03-02T10:30:00Z\n"
    desk.answers("no moment", (2, "", no_moment), folder, "awards", "cup.db", "--at", "9:30")
    for words in (("awards", "cup.db", "--jury"), ("export", "cup.db"), ICPC):
        command, _, *options = words
        desk.answers("a file that keeps no contest", FAULT, folder, command, "none.db", *options, before=then)
        with open("/dev/full", "w", encoding="utf-8") as full:
            desk.answers(f"{words} to an output that is full", FILE, folder, *words, before=then, stdout=full)
        status, out, err = desk.run(folder, *words, "more")
        desk.same(f"{words} with a word more", (status, out, "more" in err), (2, "", True))
    no_format = "error: '--format <FORMAT>' is csv or icpc\n"
    for word in ("text", "ICPC", ""):
        desk.answers(f"the form {word!r}", (2, "", no_format), folder, "export", "cup.db", "--format", word)
    desk.answers("the export after that", (0, export_text(contest), ""), folder, "export", "cup.db")
    unset = demo.made(desk, {**demo.FILES, "init": demo.CONTEST})
    desk.answers("nothing to export", (0, EMPTY, ""), unset, "export", "cup.db")
    desk.answers("results of a contest without a start", NOT_FINAL, unset, *ICPC)
    desk.answers("nothing to award", (0, "", ""), unset, "awards", "cup.db", "--jury", before=then)


def try_memory(desk):
    """Calls for memory that are refused: the file shows what it did before, or has its cells, which the first command fills."""
    contest = next(one for one in map(made_contest, range(100)) if len(one["submissions"]) > 2 and one["finalized"])
    folder, library = kept(desk, contest), compiled("refuse_call", desk.folder)
    before, contents = dump(folder / "cup.db"), (folder / "cup.db").read_bytes()
    by_moment = (("awards", "cup.db", "--jury", "--at", moment(FINAL)), ("board", "cup.db", "--at", moment(END)))
    for words in (("export", "cup.db"), ICPC, *by_moment):
        text = desk.run(folder, *words)[1].encode()
        desk.note(text != b"", f"{words} with all memory")
        filled = dump(folder / "cup.db")

        def one(call):
            own = desk.new_folder()
            (own / "cup.db").write_bytes(contents)
            (status, out, err), refused = ran_refused([desk.path, *words], library, call, False, cwd=own)
            is_kept = (own / "cup.db").read_bytes() == contents or dump(own / "cup.db") in (before, filled)
            shutil.rmtree(own)
            is_front = words[0] == "export" and text.startswith(out)
            is_told = status == 1 and err == b"refused: E25 Memory\n" and (out == b"" or is_front)
            desk.note(((status, out, err) == (0, text, b"") or is_told) and is_kept, f"{words}, call {call} refused: {status}, {out!r:.300}, {err!r}")
            return refused, is_told

        desk.note(refused_in_turn(one, desk.options.every) > 0, f"{words}: no call that was refused came to E25")


if __name__ == "__main__":
    parts = (try_made, try_results, try_cuts, try_cut_results, try_refused, try_memory)
    sys.exit(program.main(__doc__, Program, parts, program="desk", made=120, every=7, seed=42))
