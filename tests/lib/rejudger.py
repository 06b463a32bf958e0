"""What is asked of rejudgings, by a seed."""

from . import desk_opinion, rejudging_opinion
from .chance import Chance
from .import_opinion import compact

AT_REJUDGINGS = "/jury/rejudgings"
REASONS = ["data", "The checker of B", 'Łódź, 東京 and "\\"', "x" * 200, "é" * 100]
WRONG_REASONS = ["", None, 7, ["data"], "x" * 201, "é" * 100 + "x", "two\nlines", "\x00", "\x7f", "\x85"]
WRONG_IDS = [None, "s1-1", {}, [], [7], [None], [""], ["-"], ["s 1"], [["s1-1"]], ["s1-1", "s1-1"], ["s1-1", "?"], ["", ""],
             ["s 1", "s 1"], ["s1-1", "S1-1"], ["é" * 40, "s1-1\n"],
             [f"s9-{n}" for n in range(501)]]  # fmt: skip
BODIES = ["", "{", "[]", '"data"', "{}", '{"reason":"\\ud83d","submission_ids":["s1-1"]}', '{"submission_id":"s1-1"}',
          '{"reason":7,"reason":"d\\u00e9","submission_ids":[],"submission_ids":["s1-1"]}',
          '{"submission_id":7,"submission_id":"s1-1","judgement_type_id":"A\\u0043","x":[]}']  # fmt: skip
NUMBERS = ["0", "01", "+1", "-1", "99", "x", "", "1.0", "%31", "18446744073709551617"]
JURY = ["j1", "j2", "adm"]


def is_open(rejudging):
    return rejudging["state"] == "open"


def is_complete(rejudging):
    return is_open(rejudging) and all(one["ready"] for one in rejudging["members"])


class Rejudger(Chance):
    """Choices of the jury, that are often taken."""

    def rejudging(self, contest, *wanted):
        """The number, as a text, of a rejudging: mostly of one that is as wanted first, or else next."""
        numbers = [(str(number), one) for number, one in enumerate(contest["rejudgings"], 1)]
        found = [[number for number, one in numbers if is_wanted(one)] for is_wanted in wanted]
        anyone = [number for number, _ in numbers] or ["1"]
        return self.often(self.often(self.one(next(filter(None, found), anyone)), anyone, 0.93), NUMBERS, 0.96)

    def opening(self, contest):
        """The body of a post that opens one: mostly over submissions of which it may be."""
        known = [desk_opinion.submission_id(contest, one) for one in contest["submissions"]]
        held, released = rejudging_opinion.members_of_open(contest), {one["submission"] for one in contest["releases"]}
        free = [which for which in known if which in released and which not in held]
        ids = self.random.sample(free, min(len(free), self.random.randint(1, 3)))
        if not ids or self.random.random() < 0.15:
            other = self.often(self.one(known or ["s1-1"]), [self.one(held or ["s1-99"]), "s1-99", "s9"], 0.6)
            ids.insert(self.random.randint(0, len(ids)), other)
        row = {"reason": self.often(self.one(REASONS), WRONG_REASONS, 0.95), "submission_ids": self.often(ids, WRONG_IDS, 0.95)}
        row = {name: value for name, value in row.items() if value is not None or self.random.random() < 0.5}
        return self.often(compact(row), BODIES, 0.97)

    def judgement(self, contest, number):
        """The body of a post for a member, of a rejudging of this number: mostly of one that waits, and of the type it has."""
        numbers = {str(place): one["members"] for place, one in enumerate(contest["rejudgings"], 1)}
        members = numbers.get(number, []) or [{"submission": "s1-1", "type": None, "ready": False}]
        waiting = [one for one in members if not one["ready"]]
        chosen = self.often(self.one(waiting or members), members, 0.85)
        verdict = self.often(chosen["type"] or "AC", ["AC", "WA", "CE"], 0.7)
        row = {"submission_id": self.often(chosen["submission"], ["s1-1", "s2-1", "s1-99", "x", "-", None], 0.9)}
        row["judgement_type_id"] = self.often(verdict, ["TLE", "ac", "", None], 0.93)
        return self.often(compact(row), BODIES, 0.97)

    def rejudging_post(self, contest):
        """A path and a body."""
        part = self.random.random()
        if part < 0.25:
            return AT_REJUDGINGS, self.opening(contest)
        if part < 0.7:
            number = self.rejudging(contest, is_open)
            return f"{AT_REJUDGINGS}/{number}/verdicts", self.judgement(contest, number)
        body = self.often("", BODIES, 0.9)
        if part < 0.93:
            return f"{AT_REJUDGINGS}/{self.rejudging(contest, is_complete, is_open)}/apply", body
        return f"{AT_REJUDGINGS}/{self.rejudging(contest, is_open)}/cancel", body

    def about_rejudgings(self, contest, accounts):
        """Who asks, a key, a method, a path and a body."""
        who = self.often(f"token-{self.one(JURY)}", [f"token-{self.one(accounts)}", "public", "token-none"], 0.93)
        if self.random.random() < 0.8:
            path, body = self.rejudging_post(contest)
            path, method = self.often(path, [f"{path}/", f"{path}x"], 0.98), self.often("POST", ["GET", "PUT"], 0.97)
            return who, self.often(None, ["k1", "?"], 0.97), method, path, body
        path = self.often(AT_REJUDGINGS, [f"{AT_REJUDGINGS}/{self.rejudging(contest)}"], 0.4)
        return who, None, self.often("GET", ["HEAD", "POST", "DELETE"], 0.9), path, ""
