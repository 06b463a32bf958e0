"""What is asked of the clock, by a seed."""

from .chance import Chance
from .demo import AT_REHEARSAL, START
from .desk_opinion import moment
from .import_opinion import compact

WRONG_TIMES = [7, "", "now", "2024-03-02", "2024-03-02T10:00:00", "1969-12-31T23:59:59.999+00:00", "2024-03-02T10:00:00.000100+00:00", []]
TIMES = ["9998-12-31T19:00:00.000+00:00", "9998-12-31T18:59:59.999+00:00", "2024-03-02T11:00:00.500+01:00"]
BODIES = ["", "{", "[]", "null", "{}", '{"id":"rehearsal"}', '{"id":null,"start_time":null}', '{"id":"other","start_time":null}',
          '{"start_time":7,"start_time":null,"x":[]}', '{"start_time":null,"scoreboard_thaw_time":null}']  # fmt: skip


class Timekeeper(Chance):
    """Choices of an administrator, that are often taken."""

    def __init__(self, seed):
        super().__init__(seed)
        # On some days nobody lifts the freeze: else hardly a contest would be extended.
        self.thaws = self.random.random() < 0.5

    def mark(self, contest):
        """A start or a thaw that is asked for, mostly one that may be set."""
        end = (contest["start"] or START) + contest["duration"]
        if not self.thaws or self.random.random() < 0.5:
            start = moment(START + self.random.randint(-2_000_000, 2_000_000))
            return "start_time", self.often(start, [None, *TIMES, *WRONG_TIMES], 0.8)
        thaw = moment(end + self.often(self.random.randint(0, 9_000_000), [0, -1], 0.7))
        return "scoreboard_thaw_time", self.often(thaw, [None, *TIMES, *WRONG_TIMES], 0.85)

    def clock_body(self, contest):
        row = dict([self.mark(contest)])
        row.update([self.mark(contest)] if self.random.random() < 0.05 else [])
        row.update({"id": self.often("rehearsal", ["other", None], 0.8)} if self.random.random() < 0.2 else {})
        return self.often(compact(row), BODIES, 0.9)

    def about_clock(self, contest, accounts):
        """Who asks, a key, a method, a path and a body."""
        who = self.often("token-adm", [f"token-{self.one(accounts)}", "public", "token-none"], 0.9)
        if self.random.random() < 0.3:
            return who, None, self.often("POST", ["GET", "PATCH"], 0.95), "/jury/finalize", self.often("", BODIES)
        return who, None, self.often("PATCH", ["POST", "PUT"], 0.95), AT_REHEARSAL, self.clock_body(contest)
