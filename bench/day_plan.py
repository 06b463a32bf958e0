"""A day of a contest from a seed: its files, and what each team sends when."""

import base64
import collections
import random
import sys
import pathlib

sys.path.insert(0, str(pathlib.Path(__file__).resolve().parent.parent / "tests"))

from lib.import_opinion import compact

START, LENGTH, FREEZE = 1_709_370_000_000, 18_000_000, 3_600_000  # 2024-03-02T09:00:00Z
CONTEST = "day"
TYPES = [{"id": "AC", "name": "correct", "solved": True, "penalty": False},
         {"id": "WA", "name": "wrong answer", "solved": False, "penalty": True},
         {"id": "TLE", "name": "too slow", "solved": False, "penalty": True},
         {"id": "CE", "name": "compile error", "solved": False, "penalty": False}]  # fmt: skip
LANGUAGES = [
    {"id": "cpp", "name": "C++", "entry_point_required": False},
    {"id": "java", "name": "Java", "entry_point_required": True},
]
JUDGES = [f"j{number}" for number in range(1, 6)]

# What a team sends: when in contest time, a submission's or a question's body, and which verdict it will get.
Sending = collections.namedtuple("Sending", "time kind body verdict")


def token(account):
    return f"token-of-{account}"


class Plan:
    """So many teams and problems, and so many submissions of each team on average."""

    def __init__(self, teams, problems, submissions, seed):
        self.random = random.Random(seed)
        self.teams = [
            {"id": f"t{n}", "name": f"Team {n}", "hidden": n == teams, "group_ids": []} for n in range(1, teams + 1)
        ]
        self.problems = [
            {"id": f"p{n}", "label": f"P{n}", "name": f"Problem {n}", "ordinal": n} for n in range(1, problems + 1)
        ]
        self.sendings = {team["id"]: self.sendings_of(submissions) for team in self.teams}

    def sendings_of(self, submissions):
        """A team's sendings, by time: attempts at problems until each is solved, and now and then a question."""
        count = self.random.randint(submissions // 2, submissions + submissions // 2)
        made = [self.submission() for _ in range(count)]
        if self.random.random() < 0.3:
            body = compact(
                {
                    "text": f"Is {self.random.randint(0, 99)} allowed?",
                    "problem_id": self.random.choice(self.problems)["id"],
                }
            )
            made.append(Sending(self.random.randrange(LENGTH), "clarifications", body, None))
        return sorted(made)

    def submission(self):
        language = self.random.choice(LANGUAGES)
        file = base64.b64encode(self.random.randbytes(self.random.randint(200, 6_000))).decode()
        body = {
            "problem_id": self.random.choice(self.problems)["id"],
            "language_id": language["id"],
            "files": [{"data": file}],
        }
        if language["entry_point_required"]:
            body["entry_point"] = "Main"
        return Sending(
            self.random.randrange(LENGTH),
            "submissions",
            compact(body),
            self.random.choice(["AC", "WA", "WA", "TLE", "CE"]),
        )

    def accounts(self):
        teams = [(f"a{team['id']}", "team", team["id"]) for team in self.teams]
        return [*teams, *((judge, "judge", "") for judge in JUDGES), ("director", "admin", "")]

    def files(self):
        """The files of its director, as lib/demo.py makes a contest of them."""
        head = {"id": CONTEST, "name": "A day", "start_time": "2024-03-02T09:00:00.000+00:00", "duration": "5:00:00",
                "scoreboard_freeze_duration": "1:00:00", "verification": True}  # fmt: skip
        records = [",".join((row, role, team, token(row))) for row, role, team in self.accounts()]
        rows = {
            "init": head,
            "judgement-types": TYPES,
            "languages": LANGUAGES,
            "problems": self.problems,
            "teams": self.teams,
        }
        return {
            **{name: compact(value) for name, value in rows.items()},
            "accounts-csv": "\n".join(["id,role,team_id,token", *records]) + "\n",
        }
