"""The contest of a replay file in a file of the desk, with its submissions, their verdicts, and groups."""

from . import demo, replay_files
from .demo import START
from .desk_opinion import moment
from .import_opinion import compact
from .replay_opinion import Refused, WrongWords, read_replay, read_words, reltime_text
from .sqlite import insert, opened

LANGUAGES = '[{"id":"cpp","name":"C++","entry_point_required":false}]'


def groups_of(contest):
    """The groups that a contest is given, by their ids: the name and the teams of each. One has each second team, one the hidden
    ones, one all, and one none."""
    teams = list(contest.teams)
    hidden = [key for key in teams if contest.teams[key][1]]
    return {"second": ("Zoë, 東京", teams[1::2]), "hidden": ("Hidden", hidden), "all": ("All \"of\" them", teams), "none": ("No team", [])}


def files_of(contest):
    """The contest's files for `desk init` and `desk import`, by their names."""
    head = {"id": "c", "name": contest.name, "duration": reltime_text(contest.duration), "start_time": moment(START)}
    if contest.freeze is not None:
        head["scoreboard_freeze_duration"] = reltime_text(contest.duration - contest.freeze)
    types = [{"id": key, "name": row[0], "solved": row[1], "penalty": row[2]} for key, row in contest.types.items()]
    problems = [{"id": key, "label": row[0], "name": row[1], "ordinal": row[2]} for key, row in contest.problems.items()]
    groups = groups_of(contest)
    in_groups = {key: [group for group, (_, members) in groups.items() if key in members] for key in contest.teams}
    teams = [{"id": key, "name": row[0], "hidden": row[1], "group_ids": in_groups[key]} for key, row in contest.teams.items()]
    files = {"judgement-types": compact(types), "languages": LANGUAGES, "problems": compact(problems)}
    named = [{"id": group, "name": name} for group, (name, _) in groups.items()]
    return {"init": compact(head), **files, "groups": compact(named), "teams": compact(teams)}


def submissions_of(contest, until):
    """Each submission up to a moment: its time, its team's number, its own number, its problem and its verdict, if it has one."""
    rows = []
    for place, team in enumerate(contest.teams, 1):
        for number, (problem, time, verdict) in enumerate(contest.submissions.get(team, []), 1):
            if time <= until:
                rows.append((time, place, number, problem, verdict))
    return sorted(rows, key=lambda row: row[:3])


def kept(desk, contest, shown, thawed):
    """A folder in which cup.db keeps the contest, with its submissions and their verdicts, and the thaw at the end."""
    folder = demo.made(desk, files_of(contest))
    with opened(folder / "cup.db") as database:
        released = 0
        for seq, (time, team, number, problem, verdict) in enumerate(submissions_of(contest, shown.now), 1):
            insert(database, "submissions", (seq, team, number, START + time, problem, "cpp", None, b"x", None))
            if verdict is not None:
                released += 1
                insert(database, "proposals", (released, team, number, verdict, "import", START + time))
                insert(database, "releases", (released, team, number, 1, verdict, START + time))
        if thawed and contest.freeze is not None:
            database.execute("UPDATE contest SET thaw = ?", (START + contest.duration,))
    return folder


def made_case(seed, index):
    """A contest without a fault, and the words that were made with it."""
    while True:
        words, data = replay_files.case(seed, index)
        try:
            return read_words(words), read_replay(data)
        except (Refused, WrongWords):
            seed += 1_000_000
