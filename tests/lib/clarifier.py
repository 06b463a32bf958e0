"""What is asked of clarifications, by a seed."""

from . import clarification_opinion
from .chance import Chance
from .demo import AT_REHEARSAL
from .import_opinion import compact

TEXTS = ["Is 0 allowed?", "Yes.", "No comment.", 'Łódź, 東京 and "\\"', "two\nlines\tof \x01\x7f\x85", "\x00", "\U0001f388"]
WRONG_TEXTS = ["", None, 7, ["Yes."], "x" * 4096, "x" * 4097, "é" * 2048, "é" * 2048 + "x"]
BODIES = ["", "{", "[]", '"Yes."', '{"text":"\\ud83d"}', '{"text":"Yes.","text":null}', '{"text":null,"text":"Y\\u00e9s."}']
KEYS = [None, "k1", "k2", "k3", "k4"]
AT_ALL = f"{AT_REHEARSAL}/clarifications"


def is_of_team(account):
    """The accounts a and b with a number are those of the team with this number."""
    return account[0] in "ab" and account[1:].isdigit()


class Clarifier(Chance):
    """Choices, and what was posted so far."""

    def __init__(self, seed):
        super().__init__(seed)
        self.posts = []

    def clarification_id(self, contest):
        made = [clarification_opinion.clarification_id(contest, one) for one in contest["clarifications"]] or ["g-1"]
        return self.often(self.one(made), ["g-99", "g1-1", "g2-1", "g1-01", "c1-01", "c7-1", "G-1", "g"], 0.9)

    def clarification(self, contest, account):
        """The body of a post by an account."""
        is_team, own = is_of_team(account), f"t{account[1:]}"
        row = {"text": self.often(self.one(TEXTS), WRONG_TEXTS, 0.93)}
        row["problem_id"] = self.often(None, ["a", "b", "c", "a", "b", "c", "x", self.one(["", 7])], 0.7)
        row["reply_to_id"] = self.often(None, [*(self.clarification_id(contest) for _ in range(9)), self.one(["-", []])], 0.6)
        row["from_team_id"] = self.often(None, [own, own, "t1"], 0.8 if is_team else 0.97)
        goes_to_group = not is_team and self.random.random() < 0.35
        row["to_team_id"] = self.often(None, ["t1", "t2", "t3", "t9", "t7", own], 0.97 if is_team or goes_to_group else 0.4)
        groups = [one["id"] for one in contest["groups"]] or ["north"]
        row["to_group_id"] = self.often(self.one(groups), ["east", 7], 0.95) if goes_to_group else self.often(None, groups, 0.98)
        row = {name: value for name, value in row.items() if value is not None or self.random.random() < 0.2}
        return self.often(compact(row), BODIES, 0.97)

    def posting(self, contest, accounts):
        """Who posts, under which key, and what: often what was posted before, or nearly."""
        if self.posts and self.random.random() < 0.4:
            account, key, body = self.one(self.posts)
            side = [one for one in accounts if is_of_team(one) == is_of_team(account)]
            account = self.often(account, [self.one(side), *(one for one in side if one[1:] == account[1:])], 0.4)
            return account, self.often(key, [*KEYS, "?"], 0.9), self.often(body, [self.clarification(contest, account)], 0.8)
        account = self.one(accounts)
        self.posts.append((account, self.often(self.one(KEYS), ["?"], 0.97), self.clarification(contest, account)))
        return self.posts[-1]

    def about_clarifications(self, contest, accounts):
        """Who asks, a key, a method, a path and a body."""
        if self.random.random() < 0.55:
            account, key, body = self.posting(contest, accounts)
            return self.often(f"token-{account}", ["public"], 0.97), key, "POST", AT_ALL, body
        who = self.often(f"token-{self.one(accounts)}", ["public"], 0.7)
        path = self.often(AT_ALL, [f"{AT_ALL}/{self.clarification_id(contest)}"], 0.4)
        path = self.often(path, [f"{AT_ALL}/", f"{path}/x", "/contests/cup/clarifications"], 0.97)
        return who, None, self.often("GET", ["HEAD", "PATCH", "PUT"], 0.93), path, ""
