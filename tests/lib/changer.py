"""What an administrator changes while the contest goes on, by a seed: how long it lasts, tokens, and names of teams."""

from .chance import Chance
from .demo import AT_REHEARSAL
from .director import WRONG_SPANS
from .import_opinion import LONGEST_CONTEST, compact
from .replay_opinion import reltime_text

# Accounts whose token may be replaced and put back. All others that ask keep theirs.
REPLACED = ["n1", "n2", "b1", "a3"]
# How much longer a contest is to last, mostly.
LONGER = [0, 60_000, 600_000, 1_200_000, 7_200_000]


class Changer(Chance):
    """A change that is often taken, or what is read of one."""

    def extension(self, contest):
        duration, freeze = contest["duration"], contest["freeze"] or 0
        longer = self.often(self.one(LONGER), [-1, 1, LONGEST_CONTEST - duration, LONGEST_CONTEST - duration + 1], 0.93)
        body = {"duration": self.often(reltime_text(max(0, duration + longer)), [None, *WRONG_SPANS], 0.95)}
        given = [freeze, freeze, freeze + longer, self.random.randint(0, duration), duration + longer, duration + longer + 1]
        if self.random.random() < 0.3:
            body["scoreboard_freeze_duration"] = self.often(reltime_text(max(0, self.one(given))), [None, *WRONG_SPANS], 0.9)
        return body

    def new_token(self, contest):
        which = self.often(self.one(REPLACED), ["import", "n3", "-", None], 0.95)
        token = self.often(f"token-{which}", [f"other-{which}"], 0.5)
        if self.random.random() < 0.1:
            which, token = self.one(["adm", "j1"]), self.one(["token-adm", "token-j1"])
        return {"account_id": which, "token": self.often(token, ["short", "token n1", "x" * 128, "x" * 129, 7, None], 0.93)}

    def new_name(self, contest):
        which = self.often(self.one(["t1", "t2", "t3", "t5"]), ["t9", "t77", "-t", None], 0.9)
        names = [f"Late {which}", f"Name {which}", "Alpha", "Zeta", "Łódź"]
        return {"team_id": which, "name": self.often(self.one(names), ["x" * 200, "x" * 201, "", "a\tb", 7, None], 0.93)}

    def about_changes(self, contest, accounts):
        """Who asks, a key, a method, a path and a body."""
        if self.random.random() < 0.3:
            who = self.often(f"other-{self.one(REPLACED)}", ["public"], 0.5)
            return who, None, "GET", AT_REHEARSAL + self.one(["", "/account", "/teams", "/scoreboard", "/judgements"]), ""
        who = self.often("token-adm", [f"token-{self.one(accounts)}", "token-n4", "public"], 0.93)
        made = {"/jury/extension": self.extension, "/jury/tokens": self.new_token, "/jury/names": self.new_name}
        path = self.often("/jury/extension", list(made), 0.4)
        body = compact({name: value for name, value in made[path](contest).items() if value is not None or self.random.random() < 0.5})
        body = self.often(body, ["", "{", "[]", body.replace("}", ',"id":"other","x":[7]}')], 0.93)
        return who, self.often(None, ["k1", "?"], 0.9), self.often("POST", ["GET", "PATCH"], 0.97), path, body
