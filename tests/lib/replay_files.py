"""Replay files and command lines made from a seed, for replay_boards.py and desk_boards.py.

A case is made from its seed and its number alone. `case` makes files without a fault, and some with
any changes at all; `faulty_case` makes one whose first fault is meant to be of a chosen kind.

Names come from a fixed list whose widths replay_opinion.columns knows, and changes of single bytes
neither make nor touch a character outside ASCII, so that a name is never of unknown width.
"""

import random

HEADER = [b"kind", b"id", b"f1", b"f2", b"f3"]
FILE_LIMIT = 16_777_216  # bytes
NAMES = [
    "Alpha", "Beta", "Gamma", "A", "Bits, Bytes & Co", 'The "Quoted"', "  spaced  ", "Zoë", "Ångström",
    "e\u0301tude", "東京大学", "清华大学", "서울대학교", "ﾃｽﾄ", "ＦＵＬＬ", "Привет", "🎉 party", "ñandú",
    "a rather long team name that takes more room than most of the others do", "x" * 200, "é" * 100,
]
LABELS = ["A", "B", "C", "D", "Ä", "題", "題目題目題目", "long label", "exactly 9", '"', ",", "Z" * 30]
IDS = ["a", "b", "c", "A", "B", "x1", "x-1", "x.1", "x_1", ".", "_", "0", "00", "t1", "t10", "t2", "Z" * 36]
DURATIONS = [1, 999, 60_000, 600_000, 3_600_500, 18_000_000, 3_600_000_000]


def reltime(rng, time):
    """A spelling of a time: mostly the usual one, at times with needless zeros or decimals."""
    sign = "-" if time < 0 else ""
    seconds, millis = divmod(abs(time), 1000)
    hours = f"{seconds // 3600:0{rng.choice([1, 1, 1, 1, 2, 7])}}"
    decimals = f".{millis:03}" if millis or rng.random() < 0.2 else ""
    return f"{sign}{hours}:{seconds // 60 % 60:02}:{seconds % 60:02}{decimals}"


def time_near(rng, marks, limit):
    """A time from 0 to below the limit: at a mark, just beside one, or anywhere."""
    if rng.random() < 0.5:
        time = rng.choice(marks) + rng.choice([-60_000, -1, 0, 0, 1, 59_999, 60_000])
    else:
        time = rng.randrange(limit)
    return min(max(time, 0), limit - 1)


class Plan:
    """A contest as lists of records, with what is needed to add to it."""

    def __init__(self, rng):
        self.rng = rng
        self.duration = rng.choice(DURATIONS)
        self.freeze = rng.choice([None, 0, self.duration, rng.randrange(self.duration + 1)])
        start_of_freeze = self.duration if self.freeze is None else self.duration - self.freeze
        self.marks = [0, 600_000, start_of_freeze, self.duration]
        self.types = rng.sample(IDS, rng.randrange(1, 6))
        self.problems = rng.sample(IDS, rng.choice([0, 1, 2, 2, 3, 5, 8]))
        self.teams = rng.sample(IDS, rng.choice([0, 1, 2, 3, 4, 6, 10]))
        self.head = [self.contest()]
        self.definitions = self.type_rows() + self.problem_rows() + self.team_rows()
        self.submissions = self.submission_rows()

    def contest(self):
        freeze = "" if self.freeze is None else reltime(self.rng, self.freeze)
        title = self.rng.choice(NAMES)
        return ["contest", self.rng.choice(IDS), title, reltime(self.rng, self.duration), freeze]

    def type_rows(self):
        flag = lambda: self.rng.choice(["true", "false"])
        return [["type", key, self.rng.choice(NAMES), flag(), flag()] for key in self.types]

    def problem_rows(self):
        labels = self.rng.sample(LABELS, len(self.problems))
        ordinals = [self.rng.choice(["0", "0", "1", "2", "007", "65535"]) for _ in self.problems]
        return [
            ["problem", key, label, self.rng.choice(NAMES), ordinal]
            for key, label, ordinal in zip(self.problems, labels, ordinals)
        ]

    def team_rows(self):
        names = self.rng.sample(NAMES, self.rng.randrange(1, 6))
        hidden = lambda: self.rng.choice(["", "", "", "false", "true"])
        return [["team", key, self.rng.choice(names), hidden(), ""] for key in self.teams]

    def submission(self):
        time = time_near(self.rng, self.marks, self.duration)
        verdict = self.rng.choice(self.types + [""])
        team, problem = self.rng.choice(self.teams), self.rng.choice(self.problems)
        return ["submission", team, problem, reltime(self.rng, time), verdict]

    def submission_rows(self):
        if not self.teams or not self.problems:
            return []
        rows = [self.submission() for _ in range(self.rng.choice([0, 1, 4, 12, 30, 60]))]
        if self.rng.random() < 0.3:  # attempts that differ in nothing but the team: ties
            team = self.rng.choice(self.teams)
            rows += [[row[0], team] + row[2:] for row in rows]
        return rows + (self.rivals() if self.rng.random() < 0.3 else [])

    def rivals(self):
        """Two teams' attempts whose totals are equal if nothing else counts: 20 minutes for 20 minutes."""
        if len(self.teams) < 2 or self.duration < 3_600_000:
            return []
        self.types = [key for key in self.types if key not in ("ok", "no")] + ["ok", "no"]
        self.definitions += [["type", "ok", "OK", "true", "false"], ["type", "no", "No", "false", "true"]]
        early, late = self.rng.sample(self.teams, 2)
        problem = self.rng.choice(self.problems)
        minute = self.rng.randrange(1, 30) * 60_000
        attempts = [(early, minute - 1, "no"), (early, minute, "ok"), (late, minute + 1_200_000, "ok")]
        return [
            ["submission", team, problem, reltime(self.rng, time), verdict]
            for team, time, verdict in attempts
        ]

    def rows(self):
        """All records: definitions in any order, some of them twice, then submissions."""
        self.rng.shuffle(self.definitions)
        twice = [list(row) for row in self.definitions if self.rng.random() < 0.1]
        tail = self.submissions + twice
        if self.rng.random() < 0.5:
            self.rng.shuffle(tail)
        return [[field.encode() for field in row] for row in self.head + self.definitions + tail]


# --- Faults in a record ----------------------------------------------------------------------------

BAD_IDS = [b"", b"-a", b"a b", b"Z" * 37, b"a/b", "é".encode(), b"a\x00", b" a", b"a\n"]
BAD_NAMES = [
    b"", b"x" * 201, "é".encode() * 101, b"a\tb", b"a\nb", b"a\rb", b"\x00", b"a\x7f", "a\u0085".encode(),
    b"a\xff", b"\xc3", b"\xed\xa0\x80",
]
BAD_TRUTHS = [b"", b"True", b"1", b"yes", b" true", b"false "]
BAD_ORDINALS = [b"", b"65536", b"-1", b"+1", b"1.0", b" 1", b"0x1", b"99999999999999999999999", "٣".encode()]
BAD_TIMES = [
    b"", b"5:00", b"0:60:00", b"0:00:60", b"0:05:00.5", b"0:05:00.0000", b"0:5:00", b"0:05:0", b":05:00",
    b"--0:05:00", b"+0:05:00", b" 0:05:00", b"0:05:00 ", b"0:05:00.", b"0-05-00", b"0:05:00,000",
    b"70380768:00:00", b"99999999999999999999:00:00", "٣:00:00".encode(),
]
LATE_TIMES = [b"-0:00:00.001", b"-1:00:00", b"1000:00:00", b"70380767:59:59.999", b"-70380767:59:59.999"]
BAD_DURATIONS = BAD_TIMES + [b"0:00:00", b"-0:00:00", b"-0:00:01", b"1000:00:00.001", b"1001:00:00"]
BAD_FREEZES = BAD_TIMES[1:] + [b"-0:00:00.001", b"1000:00:00.001", b"5000:00:00"]
NO_ROW = [b"nobody", b"T1", b"-", b""]

BAD_FIELDS = {
    b"contest": {1: BAD_IDS, 2: BAD_NAMES, 3: BAD_DURATIONS, 4: BAD_FREEZES},
    b"type": {1: BAD_IDS, 2: BAD_NAMES, 3: BAD_TRUTHS, 4: BAD_TRUTHS},
    b"problem": {1: BAD_IDS, 2: BAD_NAMES, 3: BAD_NAMES, 4: BAD_ORDINALS},
    b"team": {1: BAD_IDS, 2: BAD_NAMES, 3: BAD_TRUTHS[1:], 4: [b"x", b" ", b"\xff", b"\x00"]},
    b"submission": {1: BAD_IDS + NO_ROW, 2: BAD_IDS + NO_ROW, 3: BAD_TIMES + LATE_TIMES, 4: BAD_IDS[1:] + NO_ROW},
}
BAD_KINDS = [b"", b"Contest", b"TYPE", b"submissions", b" team", b"contest\x00", b"\xff", b"kind", b"language"]


def rows_of(rows, kind):
    return [row for row in rows if len(row) == 5 and row[0] == kind]


def spoil_field(rng, rows):
    """A bad value in a field of some kind's record, at times in two fields."""
    kind = rng.choice(list(BAD_FIELDS))
    of_kind = rows_of(rows, kind)
    if of_kind:
        row = rng.choice(of_kind)
        for place in rng.sample(list(BAD_FIELDS[kind]), rng.choice([1, 1, 1, 2])):
            row[place] = rng.choice(BAD_FIELDS[kind][place])


def spoil_time(rng, rows):
    """A contest time outside the contest, at times beside a team, a problem or a type that isn't there."""
    submissions, contests = rows_of(rows, b"submission"), rows_of(rows, b"contest")
    if submissions and contests:
        row = rng.choice(submissions)
        row[3] = rng.choice(LATE_TIMES + [contests[0][3]] * 5)
        if rng.random() < 0.3:
            row[rng.choice([1, 2, 4])] = b"nobody"


def take_label(rng, rows):
    """A problem with the label of another one."""
    problems = rows_of(rows, b"problem")
    if len(problems) > 1:
        one, other = rng.sample(problems, 2)
        one[2] = other[2]


def spoil_kind(rng, rows):
    rng.choice(rows)[0] = rng.choice(BAD_KINDS)


def spoil_count(rng, rows):
    row = rng.choice(rows)
    if rng.random() < 0.5:
        row.append(rng.choice([b"", b"x"]))
    else:
        del row[rng.randrange(1, len(row) + 1) :]


def move_row(rng, rows):
    row = rows.pop(rng.choice([0, rng.randrange(len(rows))]))
    rows.insert(rng.randrange(len(rows) + 1), row)


def drop_row(rng, rows):
    del rows[rng.choice([0, rng.randrange(len(rows))])]


def repeat_row(rng, rows):
    """Repeats a record, as it is or with one field taken from another."""
    row = list(rng.choice(rows))
    other = rng.choice(rows)
    if rng.random() < 0.7 and len(other) == len(row) > 1:
        place = rng.randrange(1, len(row))
        row[place] = other[place]
    rows.insert(rng.randrange(len(rows) + 1), row)


def change_field(rng, rows):
    """A field of one record into the same field of another."""
    row, other = rng.choice(rows), rng.choice(rows)
    if len(row) == len(other):
        place = rng.randrange(len(row))
        row[place] = other[place]


def overfill(rng, rows):
    """More rows of one kind than there may be, or as many: the limit itself is no fault."""
    over = rng.choice([0, 0, 1, 2])
    kind = rng.choice([b"type", b"problem", b"team", b"submission"])
    if kind == b"submission":
        rows += [[b"team", b"full", b"Full", b"", b""], [b"problem", b"many", b"Many", b"Many", b"1"]]
        rows += [[kind, b"full", b"many", b"0:00:00", b""] for _ in range(500 + over)]
        return
    standing = len({row[1] for row in rows_of(rows, kind)})
    limit = 500 if kind == b"team" else 40
    for n in range(limit - standing + over):
        key = b"extra%d" % n
        tail = {b"type": [b"true", b"true"], b"problem": [b"Extra", b"7"], b"team": [b"", b""]}[kind]
        rows.append([kind, key, b"Extra %d" % n] + tail)
    if kind == b"problem" and rng.random() < 0.5:
        rows[-1][2] = rows_of(rows, kind)[0][2]


ROW_FAULTS = [
    (spoil_field, 12), (spoil_kind, 2), (spoil_count, 2), (move_row, 2), (drop_row, 2), (repeat_row, 5),
    (spoil_time, 3), (take_label, 1), (change_field, 4), (overfill, 1),
]


# --- The bytes of a file ---------------------------------------------------------------------------


def quoted(rng, field):
    """A field with quotation marks if it needs them, and at times if it doesn't."""
    needs = any(mark in field for mark in b',"\r\n')
    if needs or rng.random() < 0.05:
        return b'"' + field.replace(b'"', b'""') + b'"'
    return field


def spell(rng, rows):
    """A file's bytes: any line ends, blank lines, with or without a byte order mark and a last end."""
    end = rng.choice([b"\n", b"\n", b"\n", b"\r\n", b"\r", None])
    blank = rng.choice([0, 0, 0, 0.1])
    parts = [b"\xef\xbb\xbf"] if rng.random() < 0.1 else []
    for row in rows:
        if rng.random() < blank:
            parts.append(rng.choice([b"\n", b"\r", b"\r\n", b"\n\n\r"]))
        parts.append(b",".join(quoted(rng, field) for field in row))
        parts.append(end or rng.choice([b"\n", b"\r\n", b"\r"]))
    if rng.random() < 0.2 and rows:
        parts.pop()
    return b"".join(parts)


ODD_BYTES = [
    b'"', b'""', b",", b"\n", b"\r", b"\r\n", b"\x00", b" ", b"-", b":", b"0", b"a", b"\x7f", b"\xff", b"\x80",
]


def change_bytes(rng, data):
    """Puts in, takes out or replaces single bytes, characters outside ASCII left alone."""
    data = bytearray(data)
    for _ in range(rng.choice([1, 1, 2, 5])):
        places = [place for place, byte in enumerate(data) if byte < 0x80]
        if not places:
            break
        place = rng.choice(places)
        if rng.random() < 0.6:  # replace or take out
            data[place : place + 1] = rng.choice(ODD_BYTES) if rng.random() < 0.6 else b""
        else:
            data[place:place] = rng.choice(ODD_BYTES)
    return bytes(data)


def spoil_start(rng, data):
    """The byte order mark, the header and the end of the file."""
    mark = b"\xef\xbb\xbf"
    return rng.choice([
        mark + mark + data,
        mark[:2] + data,
        mark,
        b"",
        b"\n\n",
        b"\n" + mark + data,
        data.replace(b"kind,id", b"kind, id", 1),
        data.replace(b"kind,id", b"id,kind", 1),
        data.replace(b"kind,id", b"Kind,id", 1),
        data.replace(b"f2,f3", b"f2,f3,f4", 1),
        data.replace(b"f2,f3", b"f2", 1),
        data.replace(b"f2,f3", b'f2,"f3"', 1),
        data[data.find(b"\n") + 1 :],
        data[: len(data) // 2],
        data + b'"',
        data + b",",
    ])


# --- Command lines ---------------------------------------------------------------------------------


def words_for(rng, plan):
    """Options that `desk replay` takes, in any order."""
    options = []
    if rng.random() < 0.3:
        options.append(["--jury"])
    if rng.random() < 0.3:
        options.append(["--thawed"])
    if rng.random() < 0.5:
        mark = rng.choice(plan.marks + [plan.duration * 2, rng.randrange(plan.duration + 1)])
        text = reltime(rng, max(0, mark + rng.choice([-1, 0, 0, 1])))
        options.append(rng.choice([["--at", text], [f"--at={text}"]]))
    rng.shuffle(options)
    if rng.random() < 0.05:
        options.append(["--"])
    return ["replay"] + [word for option in options for word in option]


WRONG_WORDS = [
    ["--at"], ["--at", "5:00"], ["--at", ""], ["--at=-0:00:00.001"], ["--at=-1:00:00"], ["--at=0:60:00"],
    ["--at=70380768:00:00"], ["--jury", "--jury"], ["--thawed", "--thawed"],
    ["--at", "0:01:00", "--at", "0:01:00"], ["--jury=true"], ["--thawed="], ["--public"], ["jury"],
    ["file.csv"], ["--at", "--jury"], ["--JURY"], ["--thaw"], ["--", "--jury"], ["--", "--"], ["--", ""],
    ["--at", "--"], ["--at=--"], ["-"], ["-j"], [""], ["replay"], ["--at=0:01:00", "0:02:00"], ["--at 0:01:00"],
]
ODD_WORDS = [["--at=-0:00:00"], ["--at=000:00:00"], ["--at=70380767:59:59.999"]]


# --- Files with a fault of a chosen kind -----------------------------------------------------------
# Each takes the records of a contest without a fault and puts one in, if the contest has room for
# it. Which kind a file's first fault is, is for replay_opinion.py to say.


def name_what_is_missing(rng, rows):
    """A submission of a team, at a problem or with a type that isn't there, or stands further down."""
    submissions = rows_of(rows, b"submission")
    if not submissions:
        return
    row = rng.choice(submissions)
    if rng.random() < 0.5:
        row[rng.choice([1, 2, 4])] = rng.choice([b"nobody", b"T1", row[1], row[2]])
    else:
        rows.remove(row)
        rows.insert(rng.randrange(1, len(rows) + 1), row)
    if rng.random() < 0.2:
        row[3] = rng.choice(LATE_TIMES)


def reuse_key(rng, rows):
    """A type, problem or team again with other content, or a problem with another one's label."""
    definitions = [row for row in rows if row[0] in (b"type", b"problem", b"team")]
    if not definitions:
        return
    row = list(rng.choice(definitions))
    other = {b"type": b"false", b"problem": b"12345", b"team": b"true"}[row[0]]
    if rng.random() < 0.5:
        row[2] = b"Another name"
    elif row[0] == b"problem" and rng.random() < 0.5:
        row[1] = b"another-id"
    else:
        row[3 if row[0] != b"problem" else 4] = other
    rows.insert(rng.randrange(1, len(rows) + 1), row)


def open_another(rng, rows):
    """A second contest record, or the first one not in front."""
    row = rows_of(rows, b"contest")[0]
    if rng.random() < 0.5:
        rows.remove(row)
    rows.insert(rng.randrange(1, len(rows) + 1), list(row))


def lose_contest(rng, rows):
    """No contest record of five fields; other records may be at fault as well."""
    row = rows_of(rows, b"contest")[0]
    change = rng.choice(["drop", "longer", "shorter", "renamed"])
    if change == "drop":
        rows.remove(row)
    elif change == "longer":
        row.append(b"")
    elif change == "shorter":
        del row[4]
    else:
        row[0] = rng.choice(BAD_KINDS)
    if rows and rng.random() < 0.5:
        rng.choice(rows)[0] = rng.choice(BAD_KINDS)


MALFORMED = [spoil_field, spoil_field, spoil_field, spoil_kind, spoil_count, open_another]
MAKERS = {
    "refused: E22 ImportRow Malformed": MALFORMED,
    "refused: E22 ImportRow UnknownReference": [name_what_is_missing],
    "refused: E22 ImportRow KeyReused": [reuse_key, reuse_key, take_label],
    "refused: E22 ImportRow TableFull": [overfill],
    "refused: E22 ImportRow NotOpen": [spoil_time],
    "refused: E1 Malformed": [lose_contest],
    "refused: E6 BodyTooLarge": MALFORMED,
    "wrong words": MALFORMED,
}


def faulty_case(seed, index, attempt, kind):
    """The words and the bytes of a case that is meant to have this fault, which takes some attempts."""
    rng = random.Random(f"{seed}/{index}/{attempt}")
    plan = Plan(rng)
    rows = plan.rows()
    words = words_for(rng, plan)
    if kind not in ("refused: E6 BodyTooLarge", "wrong words") or rng.random() < 0.5:
        rng.choice(MAKERS[kind])(rng, rows)
    data = spell(rng, [HEADER] + rows)
    if kind == "refused: E1 Malformed" and rng.random() < 0.5:
        data = spoil_start(rng, spell(rng, [HEADER] + plan.rows()))
    if kind == "refused: E6 BodyTooLarge":
        filling = rng.choice([b"\n", b"\r\n", b"x", b",", b'"', b"\xff"])
        missing = max(0, FILE_LIMIT + rng.choice([1, 2, 1000]) - len(data))
        data += (filling * (missing // len(filling) + 1))[:missing]
    if kind == "wrong words":
        words = words + rng.choice(WRONG_WORDS)
    return words, data


# --- A case ----------------------------------------------------------------------------------------


def case(seed, index):
    """The words and the file's bytes of a case: most are without a fault, and every fourth one gets
    changes of any kind, which may be faults, several of them, or harmless."""
    rng = random.Random(f"{seed}/{index}")
    plan = Plan(rng)
    rows = plan.rows()
    words = words_for(rng, plan)
    if index % 4 != 0:
        return words, spell(rng, [HEADER] + rows)
    if rng.random() < 0.05:
        words = ["replay"] + rng.choice(WRONG_WORDS + ODD_WORDS)
    kind = rng.random()
    if kind < 0.75:
        faults, weights = zip(*ROW_FAULTS)
        for fault in rng.choices(faults, weights, k=rng.choice([1, 1, 1, 2, 3])):
            if rows:
                fault(rng, rows)
    data = spell(rng, [HEADER] + rows)
    if 0.75 <= kind < 0.95 or rng.random() < 0.1:
        data = change_bytes(rng, data)
    if kind >= 0.95:
        data = spoil_start(rng, data)
    return words, data


def large_cases():
    """Files at the limit of a file's bytes, one byte over it, and others of unusual size."""
    head = b"kind,id,f1,f2,f3\ncontest,big,Big Cup,5:00:00,1:00:00\nteam,t1,Alpha,,\n"
    bad = b"kind,id,f1,f2,f3\nnonsense\ncontest,big,Big Cup,5:00:00,1:00:00\n"
    mark = b"\xef\xbb\xbf"

    def padded(text, size):
        return ["replay"], text + b"\n" * (size - len(text))

    yield "exactly at the limit", *padded(head, FILE_LIMIT)
    yield "a byte over the limit", *padded(head, FILE_LIMIT + 1)
    yield "at the limit with its byte order mark", *padded(mark + head, FILE_LIMIT)
    yield "over the limit by its byte order mark", *padded(mark + head, FILE_LIMIT + 3)
    yield "over the limit and with a fault", *padded(bad, FILE_LIMIT + 1)
    zeros = b"problem,a,A,A," + b"0" * 100_000 + b"\n"
    yield "zeros as hours", ["replay", "--at", "0" * 5000 + ":30:00"], head + zeros
    yield "one long field", ["replay"], head + b'team,t2,"' + b"x" * 3_000_000 + b'",,\n'
    yield "one long record", ["replay"], head + b"," * 3_000_000 + b"\n"
