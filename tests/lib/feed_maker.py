"""Event feeds that spell a contest, made from a seed.

A feed is written as a system of one version of the Contest API writes it, or by turns as each of them does. It says more than the
contest: objects that are wrong at first and corrected, others that are taken away again, teams that are moved into a hidden group or
out of it, judgements that are begun, corrected, superseded or invalid, submissions out of the contest's time, collections that are
sent anew, empty lines and types that nobody reads. Its board is that of the contest.
"""

import json

from . import replay_files
from .chance import Chance
from .replay_opinion import reltime_text

VERSIONS = ("2020-03", "2022-07", "2023-06")
HIDDEN, SHOWN = "staff", "north"  # two groups
KEEPALIVES = [b"", b"", b" ", b"\t", b"\r", b" \t \r"]
OTHERS = [
    {"type": "state", "id": None, "data": {"started": None}},
    {"type": "languages", "id": "cpp", "data": {"id": "cpp", "name": "C++"}},
    {"type": "organizations", "id": None, "data": []},
    {"type": "runs", "id": "7", "data": {"id": "7", "judgement_id": "none", "ordinal": 1, "run_time": 0.25}},
    {"type": "clarifications", "id": "c1", "data": None},
    {"type": "x", "data": {"id": -1}},
]
MORE = {"icpc_id": "7", "rgb": "#fff", "time_limit": 1.5, "x": [{}], "uuid": None}  # members that nobody reads


class FeedMaker(Chance):
    """What is written next. A plain feed spells each event in one way, and is short."""

    def __init__(self, seed, contest, version=None, is_plain=False):
        super().__init__(seed)
        self.contest, self.version, self.is_plain = contest, version, is_plain
        self.steps = []  # (when, type, id, data): data is an object, or None if that is taken away
        self.lines, self.stands = [], {}

    def maybe(self, part):
        return self.random.random() < part

    def time(self, time):
        return reltime_text(time) if self.is_plain else replay_files.reltime(self.random, time)

    # --- Steps -------------------------------------------------------------------------------------

    def track(self, kind, key, *states, begin=None):
        """An object that is at each of these states in turn: an object's members, or None. It begins at a moment from 0 to 1."""
        begin = self.random.random() if begin is None else begin
        whens = [begin, *sorted(self.random.uniform(begin, 1) for _ in states[1:])]
        for when, state in zip(whens, states):
            self.steps.append((when, kind, key, None if state is None else {"id": key, **state}))

    def object(self, kind, key, right, wrong, begin=None):
        """An object that is right at the end. At times it is wrong first; and if nobody asks for its place, at times it goes and
        comes again."""
        states = self.often([right], [[wrong, right], [right, wrong, right], [right, right]], 0.7)
        if begin is None and self.maybe(0.1):
            states = [wrong, None, right]
        self.track(kind, key, *states, begin=begin)

    def head(self):
        contest = self.contest
        row = {self.one(["name", "formal_name"]): contest.name, "duration": self.time(contest.duration)}
        if "formal_name" in row and self.maybe(0.5):
            row["name"] = "Short"
        if contest.freeze is not None:
            row["scoreboard_freeze_duration"] = self.time(contest.duration - contest.freeze)
        if contest.penalty != 20 or self.maybe(0.5):
            row["penalty_time"] = self.one([contest.penalty, self.time(60_000 * contest.penalty)])
        self.object("contest", "x", row, {"name": "Draft", "duration": "1:00:00", "scoreboard_freeze_duration": None}, begin=0)
        if self.maybe(0.1):
            self.track("contest", "other", {**row, "name": "Other", "formal_name": None}, begin=self.random.random())

    def settings(self):
        for key, (name, solved, penalty) in self.contest.types.items():
            flags = {"solved": solved, "penalty": penalty}
            row = {"name": name, **{flag: value for flag, value in flags.items() if value or self.maybe(0.6)}}
            self.object("judgement-types", key, row, {"name": "Other", "solved": not solved})
        for key, (label, name, ordinal) in self.contest.problems.items():
            self.object("problems", key, {"label": label, "name": name, "ordinal": ordinal}, {"label": f"old {key}", "name": name, "ordinal": 7})
        for key in (HIDDEN, SHOWN):
            is_hidden = key == HIDDEN
            self.object("groups", key, {"name": key, **({"hidden": is_hidden} if is_hidden or self.maybe(0.3) else {})}, {"hidden": not is_hidden})
        for key, (name, is_hidden) in self.contest.teams.items():
            self.object("teams", key, self.team(name, is_hidden), self.team("Other", not is_hidden))

    def team(self, name, is_hidden):
        """A team's members: it is hidden by itself, or by one of its groups."""
        groups = self.often([], [[SHOWN], ["gone"], [SHOWN, "gone"]], 0.5)
        says = is_hidden and self.maybe(0.4)
        groups = groups + [HIDDEN] if is_hidden and not says else groups
        row = {"display_name": name, "name": "Short"} if self.version != "2020-03" and self.maybe(0.4) else {"name": name}
        return {**row, **({"group_ids": groups} if groups or self.maybe(0.5) else {}), **({"hidden": says} if says or self.maybe(0.2) else {})}

    def submissions(self):
        """All submissions, in an order in which those of one team at one time stand as they do in the contest."""
        rows = [(team, *one) for team, own in self.contest.submissions.items() for one in own]
        order = sorted(range(len(rows)), key=lambda _: self.random.random())
        places = {}
        for place in sorted(order):
            places.setdefault((rows[place][0], rows[place][2]), []).append(place)
        for slots in places.values():
            for slot, place in zip(sorted(order.index(one) for one in slots), slots):
                order[slot] = place
        whens = sorted(self.random.random() for _ in order)
        for when, number in zip(whens, order):
            team, problem, time, verdict = rows[number]
            key, row = f"s{number}", {"team_id": team, "problem_id": problem, "contest_time": self.time(time)}
            wrong = {**row, "problem_id": self.one(["gone", problem]), "contest_time": self.time(0)}
            self.object("submissions", key, {**row, "language_id": "cpp", "time": "2024-03-02T09:05:00.000Z"}, wrong, begin=when)
            self.judgements(key, verdict, time)

    def judgement(self, submission, verdict, ended, **more):
        row = {"submission_id": submission, **more}
        if verdict is not None or self.maybe(0.3):
            row["judgement_type_id"] = verdict
        return row if ended is None else {**row, "end_contest_time": self.time(ended)}

    def judgements(self, submission, verdict, time):
        """Judgements that come to a verdict, or to none."""
        wrong, later, number = self.one([*self.contest.types, None]), time + self.random.randint(1, 600_000), self.random.randint(0, 9)
        invalid = {self.one(["valid", "current"] if self.version != "2020-03" else ["valid"]): False}
        right = self.judgement(submission, verdict, later)
        first, second = f"j{submission}.1", f"j{submission}.2"
        if verdict is None:
            gone, off = [self.judgement(submission, wrong, time), None], [self.judgement(submission, wrong, time, **invalid)]
            tracks = self.one([[], [(first, [right])], [(first, off)], [(first, gone)]])
        elif number < 4 or wrong is None:
            tracks = [(first, [right] if number < 3 else [self.judgement(submission, None, None), right])]
        else:
            other = self.judgement(submission, wrong, time)
            tracks = self.one([
                [(first, [other, right])],  # corrected
                [(first, [other]), (second, [right])], [(second, [right]), (first, [other])],  # superseded
                [(first, [self.judgement(submission, wrong, later)]), (second, [right])],  # the later of equals
                [(second, [right]), (first, [self.judgement(submission, wrong, None)])],  # one that doesn't say when
                [(second, [right]), (first, [self.judgement(submission, wrong, later + 1, **invalid)])],
                [(second, [right]), (first, [self.judgement(submission, wrong, later + 1), None])],
                [(second, [right]), (first, [self.judgement(submission, None, None)])],
            ])  # fmt: skip
        for begin, (key, states) in zip(sorted(self.random.random() for _ in tracks), tracks):
            self.track("judgements", key, *states, begin=begin)

    def ghosts(self):
        """Objects that are taken away again, and ones that count for nothing."""
        types, problems, teams = (list(rows) or ["gone"] for rows in (self.contest.types, self.contest.problems, self.contest.teams))
        row = {"team_id": self.one(teams), "problem_id": self.one(problems)}
        rows = {"judgement-types": {"name": "Ghost", "solved": True}, "problems": {"label": "Ghost", "name": "Ghost", "ordinal": 0},
                "groups": {"hidden": True}, "teams": {"name": "Ghost"}, "submissions": {**row, "contest_time": "0:00:00"},
                "judgements": {"submission_id": "s0", "judgement_type_id": self.one(types), "end_contest_time": "999:00:00"}}  # fmt: skip
        for kind, one in rows.items():
            for number in range(self.often(0, [1, 2], 0.7)):
                self.track(kind, f"ghost{number}", one, None)
        if "gone" not in row.values() and self.maybe(0.3):
            for number, time in enumerate([self.contest.duration, -1, self.contest.duration + 1][: self.random.randint(1, 3)]):
                self.track("submissions", f"late{number}", {**row, "contest_time": self.time(time)})
                self.track("judgements", f"late{number}", self.judgement(f"late{number}", self.one([*self.contest.types, None]), None))
        if self.maybe(0.3):
            self.track("judgements", "orphan", self.judgement("gone", self.one([*self.contest.types, None]), 0))

    # --- Lines -------------------------------------------------------------------------------------

    def spelled(self, value):
        """The JSON of a value, in one of its spellings."""
        if self.is_plain:
            return json.dumps(value, ensure_ascii=False, separators=(",", ":")).encode()
        separators = self.one([(",", ":"), (", ", ": "), (" ,\t", " :\r")])
        return json.dumps(value, ensure_ascii=self.maybe(0.3), separators=separators).encode()

    def with_more(self, row):
        """An object with members that nobody reads, and ones that are null, in another order."""
        if self.is_plain or self.maybe(0.5):
            return row
        members = [*row.items(), *self.random.sample(list(MORE.items()), self.random.randint(0, 2))]
        self.random.shuffle(members)
        return dict(members)

    def add(self, event):
        """A line, and now and then one that says nothing."""
        members = list(event.items())
        if not self.is_plain and self.maybe(0.3):
            self.random.shuffle(members)
        self.lines.append(self.spelled(dict(members)))
        if self.maybe(0.1):
            self.lines.append(self.one(KEEPALIVES))
        if self.maybe(0.1):
            self.lines.append(self.spelled(self.one(OTHERS)))

    def add_2020(self, kind, key, data):
        number = str(len(self.lines) + 1)
        op = "delete" if data is None else "update" if key in self.stands.get(kind, {}) else "create"
        self.add({"id": number, "type": "contests" if kind == "contest" else kind, "op": op, "data": self.with_more(data or {"id": key})})

    def add_later(self, kind, key, data):
        named = key if kind != "contest" else None
        if data is None and named is None:
            self.add({"type": kind, "data": None, "token": "t", "id": key})
        elif data is not None and named is not None and self.maybe(0.1):
            row = {name: value for name, value in data.items() if name != "id"}  # named by the event alone
            self.add({"type": kind, "id": named, "data": self.with_more(row)})
        else:
            self.add({"type": kind, "id": named, "data": None if data is None else self.with_more(data), "token": str(len(self.lines))})

    def add_anew(self, kind):
        """A whole collection as it stands, at times behind an event that takes it away."""
        rows = list(self.stands.get(kind, {}).values())
        if self.maybe(0.3):
            self.add({"type": kind, "id": None, "data": None})
        self.add({"type": kind, "id": None, "data": rows} if self.maybe(0.7) else {"type": kind, "data": rows})

    def write(self):
        """The lines of the feed."""
        for part in (self.head, self.settings, self.submissions, self.ghosts):
            part()
        for _, kind, key, data in sorted(self.steps, key=lambda step: step[0]):
            version = self.version or self.one(VERSIONS)
            (self.add_2020 if version == "2020-03" else self.add_later)(kind, key, data)
            rows = self.stands.setdefault(kind, {})
            rows.pop(key, None) if data is None else rows.update({key: data})
            if version != "2020-03" and self.maybe(0.03):
                self.add_anew(kind)
        return self.lines


def joined(chance, lines):
    """The bytes of a feed. The last line may lack its end."""
    return b"\n".join(lines) + chance.often(b"\n", [b""], 0.8) if lines else b""
