"""A page of web/ as a client: what it asks the desk for once it is loaded, every few seconds, and after a post of its
own. What that is it reads in web/shared/timetable.js."""

import json
import random
import time

from day_plan import CONTEST
from lib.timetable import path_of, timetable

HERE = f"/contests/{CONTEST}"
SETTINGS = ["problems", "languages", "teams", "groups", "judgement-types"]
# Beats that are quicker than that are spread by a tenth (web/shared/polling.js).
HASTE = 10


def name_of(path):
    """What is asked for, in a word, whichever row or file it is."""
    pieces = path.split("/")
    return "files" if pieces[-1] == "files" else pieces[3] if len(pieces) > 3 else pieces[2]


class Beat:
    """Paths that are asked for together, and when they are due by the machine's clock."""

    def __init__(self, seconds, paths, sooner=None):
        self.seconds, self.sooner = seconds, sooner or seconds
        self.paths, self.asked, self.spread = [path_of(CONTEST, path) for path in paths], -1e9, 1

    def asked_now(self):
        self.asked, self.spread = time.monotonic(), random.uniform(0.9, 1.1) if self.seconds < HASTE else 1

    def due(self, is_soon):
        return self.asked + (self.sooner if is_soon else self.seconds) * self.spread


class Page:
    """A page of a kind, which asks by a function of method and path. A team's page names its team, and asks for lists
    sooner while a submission of its own waits."""

    def __init__(self, ask, kind, team=None):
        self.ask, self.team, self.is_soon = ask, team, False
        self.seen = {"submissions": set(), "judgements": set()}
        self.beats = [Beat(**beat) for beat in timetable()[kind]]

    def take(self, path, reply):
        """Takes a list, and so knows whether a submission of its own waits. A team sees the files of its own alone."""
        if self.team is None or name_of(path) not in self.seen:
            return
        rows = json.loads(reply)
        own = {one["id"] for one in rows if "files" in one}
        self.seen[name_of(path)] = own or {one["submission_id"] for one in rows if "submission_id" in one}
        self.is_soon = bool(self.seen["submissions"] - self.seen["judgements"])

    def load(self):
        """What it asks for before it shows anything, and then for the first time."""
        self.ask("GET", f"{HERE}/account")
        self.ask("GET", f"{HERE}/state")
        if self.team is not None:
            self.ask("GET", f"{HERE}/teams/{self.team}")
        self.all()
        for name in SETTINGS:
            self.ask("GET", f"{HERE}/{name}")

    def before_post(self, record=None):
        """What it asks for before each post: which contest this is and, of a decision about a record, whether it stands."""
        self.ask("GET", f"{HERE}/state")
        if record is not None:
            self.ask("GET", f"{HERE}/{record}")

    def round(self, beats):
        for beat in beats:
            beat.asked_now()
            for path in beat.paths:
                self.ask("GET", path)

    def all(self):
        self.round(self.beats)

    def quick(self):
        self.round(self.beats[:1])

    def next(self):
        """The moment of the machine's clock at which something is due."""
        return min(beat.due(self.is_soon) for beat in self.beats)

    def ask_due(self):
        self.round([beat for beat in self.beats if beat.due(self.is_soon) <= time.monotonic()])

    def ask_until(self, moment):
        """Asks what is due until a moment of the machine's clock comes."""
        while self.next() < moment:
            time.sleep(max(0.0, self.next() - time.monotonic()))
            self.ask_due()
        time.sleep(max(0.0, moment - time.monotonic()))
