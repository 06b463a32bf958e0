"""A contest of a large hall: 500 teams at twelve problems, and so many submissions of theirs, each with a verdict."""

from . import clock, demo
from .demo import START
from .sqlite import insert, opened

TEAMS, PROBLEMS = 500, 12
PROBLEM = "p1"
SENT, JUDGED = START + 60_000, "2024-03-02 09:03:00"


def token(number):
    """That of the team with this number, from 1."""
    return f"token-h{number}"


def files():
    """The files of its director: those of the demo contest, and a hall's."""
    places = range(1, TEAMS + 1)
    problems = [f'{{"id":"p{one}","label":"P{one}","name":"Problem {one}","ordinal":{one}}}' for one in range(1, PROBLEMS + 1)]
    own = {
        "problems": f"[{','.join(problems)}]",
        "teams-csv": "id,name,group_ids,hidden\n" + "".join(f"h{one},Team {one},,\n" for one in places),
        "accounts-csv": "id,role,team_id,token\nj1,judge,,token-j1\nwatch,analyst,,token-watch\n"
        + "".join(f"h{one},team,h{one},{token(one)}\n" for one in places),
    }
    return {**demo.FILES, **own}


def made(desk, submissions):
    """A folder with the contest. What a hall sends in hours is written into its tables, and a file has the verdicts."""
    folder = demo.made(desk, files())
    rows = [(row % TEAMS + 1, row // TEAMS + 1) for row in range(submissions)]
    with opened(folder / "cup.db") as database:
        for place, (team, number) in enumerate(rows):
            problem = f"p{number % PROBLEMS + 1}"
            insert(database, "submissions", (place + 1, team, number, SENT + place, problem, "cpp", None, b"abc", None))
    records = [f"s{team}-{number},{'AC' if (team + number) % 3 else 'WA'}" for team, number in rows]
    (folder / "verdicts.csv").write_text("\n".join(["submission_id,judgement_type_id", *records, ""]), encoding="utf-8")
    given = desk.run(folder, "import", "cup.db", "verdicts-csv", "verdicts.csv", before=clock.at(JUDGED))
    desk.same("the verdicts", given, (0, f"added {submissions}\n", ""))
    return folder
