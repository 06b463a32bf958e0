"""What a director imports, by a seed."""

import re

from . import desk_opinion
from .chance import Chance
from .clock_opinion import LAST_MOMENT
from .desk_opinion import moment
from .import_opinion import HEADERS, LONGEST_CONTEST, PLACES, compact
from .replay_opinion import reltime_text
from .timekeeper import TIMES, WRONG_TIMES

SETTINGS = ["judgement-types", "languages", "groups", "problems", "teams"]
NAMES = ["Alpha", "Beta", "Gamma, the third", 'The "Deltas"', "Łódź", "東京", ""]
IDS = {"judgement-types": ["AC", "WA", "CE"], "languages": ["cpp", "java"], "groups": ["north", "south"],
       "problems": ["a", "b", "c"], "teams": ["t1", "t2", "t3", "t9"]}  # fmt: skip
ACCOUNTS = ["a1", "b1", "a2", "a3", "a9", "j1", "j2", "adm", "o1"]

# What may or may not stand for a duration, and for the minutes of a penalty.
WRONG_SPANS = ["5:00", "05:00:00.0", "5:60:00", "-5:00:00", "-0:00:00", f"{'0' * 20}5:00:00", f"{'9' * 20}:00:00", 18000,
               "", [], True]  # fmt: skip
PENALTIES = [None, 0, 1000, 1001, -1, 20.0, "0:20:00", "-0:00:00", "0:20:30", "16:40:00", "16:41:00", "20", "", True, {}]


class Director(Chance):
    """Files of every kind, mostly ones that are taken."""

    def settings_row(self, kind):
        row = {"id": self.often(self.one(IDS[kind]), ["x", "-x", "", None, 7], 0.95)}
        row["name"] = self.often(f"Name {row['id']}", NAMES, 0.9)
        if kind == "judgement-types":
            row["solved"] = self.often(row["id"] == "AC", [True, "true", None], 0.97)
            row["penalty"] = self.often(row["id"] == "WA", [True, None], 0.9)
        elif kind == "languages":
            row["entry_point_required"] = self.often(row["id"] == "java", [None, 1, True], 0.95)
        elif kind == "problems":
            row["label"] = self.often(str(row["id"]).upper(), ["A", "B", "", None], 0.9)
            row["ordinal"] = self.often(len(str(row["id"])), [0, 65535, 65536, 1.5, None, "1"], 0.9)
        elif kind == "teams":
            row["hidden"] = self.often(row["id"] == "t9", [True, False, None, "false"], 0.95)
            row["group_ids"] = self.often(["north"], [[], [], ["south"], ["north", "south"], ["south", "south"], ["east"], None, ["-"]], 0.5)
        return {name: value for name, value in row.items() if self.random.random() < 0.98}

    def contest_file(self):
        """The file of a contest, mostly one that is taken."""
        duration = self.often(self.random.randint(1, 36_000_000), [1, LONGEST_CONTEST, LONGEST_CONTEST + 1, 0], 0.95)
        freeze = self.often(self.random.randint(0, duration), [duration, duration + 1], 0.95)
        places = {name: self.often(self.random.randint(0, 100), [None, None, 101, -1, 4.0], 0.95) for name in PLACES}
        row = {
            "id": self.often("cup", ["x" * 36, "x" * 37, "-cup", "", None, 7], 0.95),
            "name": self.often("Cup", NAMES, 0.8),
            "duration": self.often(reltime_text(duration), WRONG_SPANS, 0.93),
            "scoreboard_freeze_duration": self.often(reltime_text(freeze), [None, *WRONG_SPANS], 0.95),
            "start_time": self.often(moment(self.random.randint(0, LAST_MOMENT)), [None, *TIMES, *WRONG_TIMES], 0.9),
            "scoreboard_type": self.often("pass-fail", [None, "score", 7], 0.95),
            "penalty_time": self.often(self.random.randint(0, 1000), PENALTIES, 0.8),
            "verification": self.often(self.one([True, False]), [None, "true"], 0.95),
            "medals": self.often(places, [None, {}, [], 4], 0.95),
        }  # fmt: skip
        always = ("id", "name", "duration")
        return compact({name: it for name, it in row.items() if self.random.random() < (0.99 if name in always else 0.8)})

    def quoted(self, field):
        """A field of a CSV file, with quotation marks if it needs them, and sometimes if it doesn't."""
        return '"' + field.replace('"', '""') + '"' if re.search('[",]', field) or self.random.random() < 0.05 else field

    def teams_record(self):
        row = self.settings_row("teams")
        groups = row.get("group_ids") or []
        fields = [str(row.get("id", "")), row.get("name", ""), self.often(" ", ["  ", ","], 0.98).join(groups)]
        return fields + [self.often({True: "true", False: ""}.get(row.get("hidden"), "false"), ["TRUE", "no", "false"], 0.97)]

    def accounts_record(self):
        account = self.often(self.one(ACCOUNTS), ["j2", "-", "import"], 0.97)
        role = {"a": "team", "b": "team", "j": "judge", "i": "judge", "o": "analyst"}.get(account[:1], "judge") if account != "adm" else "admin"
        team = "t" + account[1:] if role == "team" else ""
        token = self.often(f"token-{account}", ["token-j1", "short", "token j1", "token-x==", "=token-x"], 0.95)
        return [account, self.often(role, ["Team", "judge", ""], 0.97), self.often(team, ["t1", "t7", ""], 0.96), token]

    def file(self, kind):
        """A file of some kind, mostly one that is taken."""
        if kind in SETTINGS:
            text = compact([self.settings_row(kind) for _ in range(self.random.randint(0, 3))])
            return self.often(text, ["{}", "", text[:-1], "[7]"], 0.96) + "\n"
        made = self.teams_record if kind == "teams-csv" else self.accounts_record
        rows = [made() for _ in range(self.random.randint(0, 4))]
        return self.csv_file(HEADERS[kind].decode(), rows)

    def csv_file(self, header, rows):
        lines = [",".join(map(self.quoted, row[: self.often(len(row), [len(row) - 1], 0.98)])) for row in rows]
        return "\n".join([self.often(header, ["id,name", ""], 0.97), *lines]) + "\n"

    def verdicts_file(self, contest):
        """A file of verdicts, for submissions that stand or don't."""
        made = [desk_opinion.submission_id(contest, one) for one in contest["submissions"]] or ["s1-1"]
        rows = []
        for _ in range(self.random.choice([0, 1, 1, 2, 3])):
            which = self.often(self.one(made), [f"s{self.random.randint(1, 4)}-{self.random.randint(1, 4)}", "s1-01", "-s1"], 0.93)
            rows.append([which, self.often("AC", ["WA", "WA", "CE", "TLE", ""], 0.6)])
        return self.csv_file("submission_id,judgement_type_id", rows)
