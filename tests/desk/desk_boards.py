#!/usr/bin/env -S python3 -B
"""Holds the boards of `desk board` beside those that a contest in a file must show.

    desk_boards.py [--program PATH] [--made N] [--seed N]

The worked boards of tests/data/replay are asked of a file with the same contest, and then N made contests (300), for
anyone, for the jury and for a team, of all teams and of groups, as text and as CSV; these are lib/replay_opinion.py's.
A contest is set up by `desk init` and `desk import`, and its submissions, with their verdicts released, are written by
sqlite3: those up to the moment that is asked for, since a board counts all that stand. Then the first example's CSV, a
worked board of a group, and what is refused.

Takes faketime. Ends with the line `N passed, M failed`; the exit status is 0 if M is 0.
"""

import sys

from lib import clock, demo, program
from lib.demo import START
from lib.desk_opinion import moment
from lib.kept_contests import groups_of, kept, made_case
from lib.program import DATA, FAULT, FILE, ROOT, Program, refused
from lib.replay_opinion import Shown, board_csv, board_text, read_replay, read_words
from lib.sqlite import insert, opened

FIRST_CSV = "rank,team_id,team,solved,time,last,A\n1,t1,Alpha,1,30,10,+3/10\n2,t2,Beta,1,30,30,+1/30\n"


def same(desk, what, folder, contest, shown, wanted=None):
    """Both forms of the board, as somebody sees it at a moment."""
    who = "jury" if shown.jury else "public" if shown.team is None else shown.team
    group = [key for key, (name, _) in groups_of(contest).items() if name == shown.group]
    words = ("board", "cup.db", "--audience", who, "--at", moment(START + shown.now), *(("--group", *group) if group else ()))
    text = board_text(contest, shown) if wanted is None else wanted
    for form, right in (("text", text), ("csv", board_csv(contest, shown))):
        desk.answers(f"{what}, {' '.join(words)}", (0, right, ""), folder, *words, "--format", form)


def try_worked(desk):
    """The worked boards of replay, of contests in files."""
    for file in sorted((DATA / "replay").glob("*/*.csv")):
        options = file.with_suffix(".options").read_text(encoding="utf-8").splitlines()[1:]
        jury, thawed, at = read_words(["replay", *options])
        contest, wanted = read_replay(file.read_bytes()), file.with_suffix(".txt").read_text(encoding="utf-8")
        shown = Shown(contest, jury, thawed, at)
        same(desk, file.stem, kept(desk, contest, shown, thawed), contest, shown, wanted)


def try_made(desk):
    """Made contests, for each who may look."""

    def one(index):
        (_, thawed, at), contest = made_case(desk.options.seed, index)
        shown = Shown(contest, False, thawed, at)
        folder = kept(desk, contest, shown, thawed)
        teams = list(contest.teams)
        own = teams[index % len(teams) :][:1] if teams else []
        for jury, team in [(False, None), (True, None), *((False, team) for team in own)]:
            same(desk, f"contest {index}", folder, contest, Shown(contest, jury, thawed, at, team))
        for jury, group in [(index % 2 == 1, group) for group in groups_of(contest).values()]:
            same(desk, f"contest {index}", folder, contest, Shown(contest, jury, thawed, at, None, group))

    with program.lanes() as pool:
        list(pool.map(one, range(desk.options.made)))


def try_first(desk):
    """The first example: the lines of `desk replay`, and its CSV; the words, the clock and the file at fault."""
    contest = read_replay((ROOT / "examples/first.csv").read_bytes())
    shown = Shown(contest, False, False, None)
    folder = kept(desk, contest, shown, False)
    end, board = moment(START + shown.now), (ROOT / "examples/first.public.txt").read_text(encoding="utf-8")
    then = clock.at(clock.text_of(START + shown.now))
    csv, nobody = ("--format", "csv"), "error: 'public-' of '--audience' is no team's id\n"
    no_moment = "error: '9:30' of '--at' is no moment, as 2024-03-02T10:30:00Z\n"
    calls = [((), then, (0, board, "")), (("--at", end), (), (0, board, "")), (("--at", end, *csv), (), (0, FIRST_CSV, "")),
             (csv, then, (0, FIRST_CSV, "")), (("--audience", "public-"), then, (2, "", nobody)),
             (("--group", "north"), then, (2, "", "error: 'north' of '--group' is no group's id\n")),
             (("--audience", "public-", "--group", "north"), then, (2, "", nobody)),
             (("--at", "9:30"), (), (2, "", no_moment)),
             (("--format", "json"), (), (2, "", "error: '--format <FORMAT>' is text or csv\n"))]  # fmt: skip
    for words, before, wanted in calls:
        desk.answers(f"board cup.db {words}", wanted, folder, "board", "cup.db", *words, before=before)
    desk.answers("a clock before 1970", refused("Clock"), folder, "board", "cup.db", before=clock.at("1960-01-01 00:00:00"))
    desk.answers("a file that keeps no contest", FAULT, folder, "board", "none.db", "--at", end)
    with open("/dev/full", "w", encoding="utf-8") as full:
        desk.answers("an output that is full", FILE, folder, "board", "cup.db", "--at", end, stdout=full)


def try_group(desk):
    """A worked board of a group: on the whole board its last team has the third rank."""
    teams = "id,name,group_ids,hidden\nt1,Alpha,,\nt2,Beta,north,\nt3,Gamma,north,\nt9,Staff,north,true\n"
    problems = '[{"id":"a","label":"A","name":"Apples","ordinal":0}]'
    folder = demo.made(desk, {**demo.FILES, "problems": problems, "groups": '[{"id":"north","name":"North"}]', "teams-csv": teams})
    with opened(folder / "cup.db") as database:
        for team, minute in enumerate((30, 30, 31, 1), 1):
            time = START + 60_000 * minute
            insert(database, "submissions", (team, team, 1, time, "a", "cpp", None, b"x", None))
            insert(database, "proposals", (team, team, 1, "AC", "import", time))
            insert(database, "releases", (team, team, 1, 1, "AC", time))
    words = ("board", "cup.db", "--at", "2024-03-02T09:40:00.000+00:00")
    title, heading = "Demo Cup\nPublic board{}, contest time 0:40:00.000, running\n", "Rank  Team   Solved    Time          A\n"
    rows = ["   1  Beta        1      30      +1/30\n", "   {}  Gamma       1      31      +1/31\n"]
    whole = title.format("") + heading + "   1  Alpha       1      30      +1/30\n" + rows[0] + rows[1].format(3)
    group = title.format(" of North") + heading + rows[0] + rows[1].format(2)
    csv = "rank,team_id,team,solved,time,last,A\n1,t2,Beta,1,30,30,+1/30\n2,t3,Gamma,1,31,31,+1/31\n"
    for more, wanted in (((), whole), (("--group", "north"), group), (("--group", "north", "--format", "csv"), csv)):
        desk.answers(f"board cup.db {more}", (0, wanted, ""), folder, *words, *more)


if __name__ == "__main__":
    sys.exit(program.main(__doc__, Program, (try_worked, try_made, try_first, try_group), program="desk", made=300, seed=20))
