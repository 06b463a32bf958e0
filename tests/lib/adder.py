"""What an administrator adds while the contest goes on, by a seed: accounts and teams."""

from .chance import Chance
from .demo import AT_REHEARSAL
from .import_opinion import compact

ROLES = {"n1": ("team", "t1"), "n2": ("judge", None), "n3": ("analyst", None), "n4": ("admin", None), "j1": ("judge", None)}


class Adder(Chance):
    """An account or a team that is added, or what one that was added asks."""

    def account(self):
        which = self.one(list(ROLES))
        role, team = ROLES[which]
        body = {"id": self.often(which, ["import", "-", 3], 0.95), "role": self.often(role, ["staff", "team"], 0.95), "token": f"token-{which}"}
        body["token"] = self.often(body["token"], ["short", "token-j1", "token n1", None], 0.93)
        body["team_id"] = self.often(team, ["t9", "t77", "", None], 0.9)
        return {name: value for name, value in body.items() if value is not None or self.random.random() < 0.5}

    def team(self):
        which = self.one(["t5", "t6", "t1"])
        body = {"id": self.often(which, ["-t", None], 0.97), "name": self.often(f"Late {which}", ["Alpha", "", 7], 0.9)}
        body["group_ids"] = self.often([], [["north"], ["north", "north"], ["x"], None], 0.6)
        body["hidden"] = self.often(False, [True, "no", None], 0.8)
        return {name: value for name, value in body.items() if value is not None or self.random.random() < 0.5}

    def about_rows(self, contest, accounts):
        """Who asks, a key, a method, a path and a body."""
        if self.random.random() < 0.3:
            return f"token-{self.one(list(ROLES))}", None, "GET", f"{AT_REHEARSAL}/{self.one(['account', 'submissions', 'teams'])}", ""
        who = self.often("token-adm", [f"token-{self.one(accounts)}", "token-n4", "public"], 0.85)
        path, made = self.one([("/jury/accounts", self.account), ("/jury/teams", self.team)])
        return who, self.often(None, ["k1"], 0.9), self.often("POST", ["GET", "PATCH"], 0.95), path, self.often(compact(made()), ["", "{", "[]"], 0.97)
