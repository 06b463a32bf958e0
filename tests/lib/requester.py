"""What all who may ask ask of the rehearsal, by a seed."""

from . import desk_opinion
from .adder import Adder
from .changer import Changer
from .clarifier import Clarifier
from .demo import AT_REHEARSAL, START
from .import_opinion import compact
from .rehearsal import ACCOUNTS, END, FREEZE
from .rejudger import AT_REJUDGINGS, Rejudger
from .replay_opinion import reltime_text
from .timekeeper import Timekeeper

HOUR = 3_600_000


def closing(contest):
    """What the jury asks until results may be final: rejudgings are cancelled, all is judged, then results are made final."""
    asked = [("token-adm", None, "POST", f"{AT_REJUDGINGS}/{number}/cancel", "")
             for number, one in enumerate(contest["rejudgings"], 1) if one["state"] == "open"]  # fmt: skip
    released = {one["submission"] for one in contest["releases"]}
    for one in contest["submissions"]:
        which = desk_opinion.submission_id(contest, one)
        if which not in released:
            body = compact({"submission_id": which, "judgement_type_id": "AC"})
            asked += [("token-j1", None, "POST", "/jury/proposals", body), ("token-j2", None, "POST", "/jury/verifications", body)]
    return asked + [("token-adm", None, "POST", "/jury/finalize", "")]


def longer(contest, now):
    """What an administrator asks: an hour more, from now on if the contest has ended."""
    duration = max(contest["duration"], now - (START if contest["start"] is None else contest["start"])) + HOUR
    return "token-adm", None, "POST", "/jury/extension", compact({"duration": reltime_text(duration)})


def prolonging(chance, contest, now):
    """A moment before the freeze, in it or after the end, not before now, and what an administrator asks then."""
    now = max(now, chance.one([START, FREEZE, END]) + chance.random.randint(0, HOUR // 2))
    return now, longer(contest, now)


class Requester(Adder, Changer, Clarifier, Rejudger, Timekeeper):
    """What is asked next."""

    def submission(self, contest):
        made = contest["submissions"]
        return desk_opinion.submission_id(contest, self.one(made)) if made and self.random.random() < 0.95 else "s1-99"

    def request(self, contest):
        """Who asks, a key, a method, a path and a body."""
        what, accounts = self.random.random(), [row for row, _, _ in ACCOUNTS]
        if what > 0.96:
            return self.about_clock(contest, accounts)
        if what > 0.93:
            return self.about_rows(contest, accounts)
        if what > 0.89:
            return self.about_changes(contest, accounts)
        if what < 0.5:
            return (self.about_clarifications if what < 0.25 else self.about_rejudgings)(contest, accounts)
        role = self.random.random()
        if role < 0.3:
            team = self.one(["1", "2", "3", "9"])
            body = {"problem_id": self.one("abc"), "language_id": "cpp", "files": [{"data": self.one(["YWJj", "", "YWJk"])}]}
            return f"token-a{team}", self.often(None, ["k1", "k2", "k3"], 0.8), "POST", f"{AT_REHEARSAL}/submissions", compact(body)
        if role < 0.6:
            judge = self.often(f"token-{self.one(['j1', 'j2', 'adm'])}", ["token-a1", "token-o1", "public"], 0.95)
            body = {"submission_id": self.submission(contest), "judgement_type_id": self.often(self.one(["AC", "WA"]), ["CE", "TLE"], 0.9)}
            return judge, None, "POST", self.one(["/jury/proposals", "/jury/verifications"]), compact(body)
        who = self.often(f"token-{self.one(ACCOUNTS)[0]}", ["public"], 0.75)
        which = self.submission(contest)
        group = self.often(self.one([row["id"] for row in contest["groups"]] or ["north"]), ["east", ""], 0.9)
        paths = ["scoreboard", f"groups/{group}/scoreboard", "judgements", f"judgements/{which}.{self.often('1', ['2', '2', '3', '01'], 0.7)}",
                 "submissions", f"submissions/{which}", f"submissions/{which}/files", "state", "awards", "awards/winner", "account", "event-feed",
                 self.often("event-feed", ["event-feed/", "event-feed/1"], 0.8)]  # fmt: skip
        path = self.often(f"{AT_REHEARSAL}/{self.one(paths)}", ["/jury/proposals", "/jury/verifications"], 0.85)
        return who, None, self.often("GET", ["HEAD"], 0.95), path, ""
