"""A contest of some size, made from a seed: teams of many places and their day, as a hall sees it. Its files are those of a
director, and its days are told to a desk that serves by posts.

Teams go on to the next problem once they have solved one or tire of it. So many of them rise in the freeze, and some don't.
"""

import base64
import json

from .chance import Chance
from .demo import START
from .desk_opinion import moment
from .nginx import Client

NAMES = [
    "Night Owls, Lund", "Oslo Penguins", "Zoë & the Rustlers", "فريق النيل", "Łódź Lions", "Río Tigers", "Team \u202egnitros\u202c", "Ångström",
    "Three Fjords", "Привет, мир", "Ñandúes", "The Latecomers", "Universität der langen Namen zu Musterhausen am See, zweite Mannschaft", "Otters",
]  # fmt: skip
PROBLEMS = ["Anchors", "Bread", "Canals", "Dust", "Eels", "Fog", "Gates", "Herons", "Islands", "Jetties"]
SPANS = '"duration":"5:00:00","scoreboard_freeze_duration":"1:00:00"'
AT = "contests/demo"


def teams():
    """Ids, names and groups."""
    return [(f"t{place}", name, "north" if place % 2 else "south") for place, name in enumerate(NAMES, 1)]


def files():
    """The director's files; the token of each account is `token-` and its id. One team is hidden."""
    rows = [{"id": row, "name": name, "group_ids": [group]} for row, name, group in teams()]
    rows.append({"id": "staff", "name": "Staff", "hidden": True})
    problems = [{"id": name.lower(), "label": name[0], "name": name, "ordinal": place} for place, name in enumerate(PROBLEMS)]
    accounts = [f"{row['id']},team,{row['id']}" for row in rows] + ["judge,judge,", "adm,admin,", "watch,analyst,"]
    return {
        "init": f'{{"id":"demo","name":"Northern Finals 2026","start_time":"{moment(START)}",{SPANS}}}',
        "judgement-types": '[{"id":"AC","name":"correct","solved":true},{"id":"WA","name":"wrong answer","solved":false,"penalty":true},'
        '{"id":"CE","name":"compile error","solved":false}]',
        "languages": '[{"id":"cpp","name":"C++"}]',
        "groups": '[{"id":"north","name":"North"},{"id":"south","name":"South"}]',
        "problems": json.dumps(problems),
        "teams": json.dumps(rows),
        "accounts-csv": "id,role,team_id,token\n" + "".join(f"{row},token-{row.split(',')[0]}\n" for row in accounts),
    }


class Day(Chance):
    """What each team sends: its time in milliseconds of contest time, the team, the problem and the verdict."""

    def at_problem(self, team, problem, skill, minute):
        """The attempts at one problem from a minute on, up to the accepted one or until the team tires; and the minute after them."""
        found, is_done = [], False
        while minute < 299 and not is_done:
            solves = self.random.random() < skill
            found.append((int(minute * 60_000), team, problem, "AC" if solves else self.often("WA", ["CE"], 0.9)))
            minute, is_done = minute + self.random.uniform(6, 22), solves or self.random.random() < 0.15
        return found, minute

    def attempts(self, team, skill):
        """All attempts of a team. Problems are harder the later they stand, and each team takes them nearly in their order."""
        found, minute = [], self.random.uniform(4, 30)
        order = sorted(PROBLEMS, key=lambda name: PROBLEMS.index(name) + self.random.uniform(-3, 3))
        for hardness, problem in enumerate(order):
            tried, minute = self.at_problem(team, problem.lower(), skill, minute)
            found, minute = found + tried, minute + 3 * hardness
        return found

    def all(self):
        rows = [row for row, _, _ in teams()] + ["staff"]
        skills = {row: self.random.uniform(0.3, 0.8) for row in rows}
        return sorted(one for row in rows for one in self.attempts(row, skills[row]))


def as_told(pages, attempts):
    """Tells the desk of these attempts, each at its time, with its verdict a minute later. No verdict is told if it is None."""
    clients = {}
    for time, team, problem, verdict in attempts:
        pages.at(moment(START + time).replace("T", " ").partition("+")[0])
        file = [{"data": base64.b64encode(b"x").decode()}]
        own = clients.setdefault(team, Client(pages.port, f"token-{team}", is_plain=True))
        status, _, body = own.ask("POST", f"/{AT}/submissions", json.dumps({"problem_id": problem, "language_id": "cpp", "files": file}))
        pages.note(status == 200, f"{team} submits {problem} at {time}: {body}")
        if verdict is not None:
            judges(pages, json.loads(body)["id"], verdict)


def judges(pages, submission, verdict):
    judge = Client(pages.port, "token-judge", is_plain=True)
    value = {"submission_id": submission, "judgement_type_id": verdict}
    status, _, body = judge.ask("POST", "/jury/proposals", json.dumps(value))
    judge.close()
    pages.note(status == 200, f"{submission} is {verdict}: {body}")
