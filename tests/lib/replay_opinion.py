#!/usr/bin/env python3
"""A second opinion on `desk replay`: the plainest scoring of a replay file.

    replay_opinion.py replay [--jury] [--thawed] [--at RELTIME]  < FILE

It reads a replay file on standard input and prints the text board, or the refusal, that `desk` must
give. docs/FORMATS.md says what both are. It is written to be read beside the public standards and to
share nothing with the program that it checks: ranks are found by counting, a cell by going through
its attempts, and nothing is kept up to date along the way.

Sources: RELTIME is that of the ICPC Contest API 2023-06. Cells, penalties and ranks follow the
scoring of the Contest Control System Requirements, and the freeze, by the time of the submission,
the DOMjudge manual. Quoting is that of Rust's csv crate, which reads more than RFC 4180 allows.
"""

import csv
import io
import re
import sys
import unicodedata

FILE_LIMIT = 16_777_216  # bytes
TYPE_LIMIT = 40
PROBLEM_LIMIT = 40
TEAM_LIMIT = 500
SUBMISSION_LIMIT = 500  # of one team
LONGEST_DURATION = 1000 * 3_600_000  # milliseconds
LONGEST_TIME = 253_370_764_799_999  # milliseconds
GREATEST_ORDINAL = 65_535
PENALTY = 20  # minutes
HEADER = [b"kind", b"id", b"f1", b"f2", b"f3"]


class WrongWords(Exception):
    """The command line is off its form: status 2."""


class Refused(Exception):
    """The file is refused: status 1 and this line."""


class Fault(Exception):
    """The record in hand is at fault, for this cause."""


# --- The records of a file -------------------------------------------------------------------------


def records_of(data):
    """The records of a CSV text, each a list of fields, each of them bytes.

    A comma ends a field. A line feed, a carriage return or both end a record. Lines with nothing at
    all on them are no records. A quotation mark opens a quoted field only as the field's first byte;
    in it, two marks stand for one, and one ends the quoted part. What follows it up to the comma is
    taken as it stands, marks included. The end of the text ends whatever is open.
    """
    if data.startswith(b"\xef\xbb\xbf"):
        data = data[3:]
    records, fields, field = [], [], bytearray()
    state = "before a record"
    for byte in data:
        if state == "quoted":
            if byte == ord('"'):
                state = "after a mark"
            else:
                field.append(byte)
        elif state == "after a mark" and byte == ord('"'):
            field.append(byte)
            state = "quoted"
        elif byte in b"\r\n":
            if state != "before a record":
                fields.append(bytes(field))
                records.append(fields)
                fields, field = [], bytearray()
                state = "before a record"
        elif byte == ord(","):
            fields.append(bytes(field))
            field = bytearray()
            state = "before a field"
        elif byte == ord('"') and state in ("before a record", "before a field"):
            state = "quoted"
        else:
            field.append(byte)
            state = "plain"
    if state != "before a record":
        fields.append(bytes(field))
        records.append(fields)
    return records


# --- The values of a field -------------------------------------------------------------------------
# Each takes the field's bytes and gives the value, or raises Fault("Malformed").


def identifier(field):
    if not re.fullmatch(rb"[A-Za-z0-9_.][A-Za-z0-9_.-]{0,35}", field):
        raise Fault("Malformed")
    return field.decode()


def name(field):
    try:
        text = field.decode("utf-8")
    except UnicodeDecodeError:
        raise Fault("Malformed")
    control = any(ord(c) < 0x20 or 0x7F <= ord(c) <= 0x9F for c in text)
    if not 1 <= len(field) <= 200 or control:
        raise Fault("Malformed")
    return text


def truth(field):
    if field not in (b"true", b"false"):
        raise Fault("Malformed")
    return field == b"true"


def truth_or_empty(field):
    return False if field == b"" else truth(field)


def number(digits):
    """A number from its decimal digits; one of more than 18 digits is only known to be too large."""
    digits = digits.lstrip(b"0") or b"0"
    return int(digits) if len(digits) <= 18 else 10**18


def ordinal(field):
    if not re.fullmatch(rb"[0-9]+", field) or number(field) > GREATEST_ORDINAL:
        raise Fault("Malformed")
    return number(field)


def reltime(field):
    """The milliseconds of (-)?(h)*h:mm:ss(.uuu)?"""
    match = re.fullmatch(rb"(-?)([0-9]+):([0-5][0-9]):([0-5][0-9])(?:\.([0-9]{3}))?", field)
    if not match:
        raise Fault("Malformed")
    sign, hours, minutes, seconds, millis = match.groups()
    time = ((number(hours) * 60 + int(minutes)) * 60 + int(seconds)) * 1000 + int(millis or b"0")
    if time > LONGEST_TIME:
        raise Fault("Malformed")
    return -time if sign else time


def empty(field):
    if field != b"":
        raise Fault("Malformed")


# --- The contest that a file holds -----------------------------------------------------------------


class Contest:
    def __init__(self):
        self.name = None  # of the contest; None until its record was read
        self.duration = None  # milliseconds
        self.freeze = None  # the freeze moment in milliseconds, or None
        self.penalty = PENALTY  # minutes; a replay file names no other
        self.types = {}  # id: (name, solved, penalty)
        self.problems = {}  # id: (label, name, ordinal)
        self.teams = {}  # id: (name, hidden)
        self.submissions = {}  # team id: list of (problem id, time, type id or None), by time


def read_contest(contest, fields):
    if contest.name is not None:
        raise Fault("Malformed")
    identifier(fields[1])
    title = name(fields[2])
    duration = reltime(fields[3])
    if not 0 < duration <= LONGEST_DURATION:
        raise Fault("Malformed")
    if fields[4] != b"":
        freeze_duration = reltime(fields[4])
        if not 0 <= freeze_duration <= duration:
            raise Fault("Malformed")
        contest.freeze = duration - freeze_duration
    contest.name, contest.duration = title, duration


def add(rows, limit, key, content, clashes):
    """Adds a row under its key: an equal one again adds nothing, another one is refused."""
    if key in rows:
        if rows[key] != content:
            raise Fault("KeyReused")
        return
    if clashes:
        raise Fault("KeyReused")
    if len(rows) >= limit:
        raise Fault("TableFull")
    rows[key] = content


def read_type(contest, fields):
    key = identifier(fields[1])
    content = (name(fields[2]), truth(fields[3]), truth(fields[4]))
    add(contest.types, TYPE_LIMIT, key, content, False)


def read_problem(contest, fields):
    key = identifier(fields[1])
    content = (name(fields[2]), name(fields[3]), ordinal(fields[4]))
    label_taken = any(label == content[0] for label, _, _ in contest.problems.values())
    add(contest.problems, PROBLEM_LIMIT, key, content, label_taken)


def read_team(contest, fields):
    key = identifier(fields[1])
    content = (name(fields[2]), truth_or_empty(fields[3]))
    empty(fields[4])
    add(contest.teams, TEAM_LIMIT, key, content, False)


def read_submission(contest, fields):
    team, problem = identifier(fields[1]), identifier(fields[2])
    time = reltime(fields[3])
    verdict = identifier(fields[4]) if fields[4] != b"" else None
    if team not in contest.teams or problem not in contest.problems:
        raise Fault("UnknownReference")
    if verdict is not None and verdict not in contest.types:
        raise Fault("UnknownReference")
    earlier = contest.submissions.setdefault(team, [])
    if len(earlier) >= SUBMISSION_LIMIT:
        raise Fault("TableFull")
    if not 0 <= time < contest.duration:
        raise Fault("NotOpen")
    if earlier:
        time = max(time, earlier[-1][1])
    earlier.append((problem, time, verdict))


READERS = {
    b"contest": read_contest,
    b"type": read_type,
    b"problem": read_problem,
    b"team": read_team,
    b"submission": read_submission,
}


def judge(contest, fields):
    """Takes one record in, or raises its Fault. The first record must be the contest."""
    if len(fields) != len(HEADER) or fields[0] not in READERS:
        raise Fault("Malformed")
    if contest.name is None and fields[0] != b"contest":
        raise Fault("Malformed")
    READERS[fields[0]](contest, fields)


def read_replay(data):
    """The contest of a replay file, or Refused for the file or for its first record at fault."""
    if len(data) > FILE_LIMIT:
        raise Refused("E6 BodyTooLarge")
    records = records_of(data)
    if not records or records[0] != HEADER:
        raise Refused("E1 Malformed")
    records = records[1:]
    if not any(len(fields) == len(HEADER) and fields[0] == b"contest" for fields in records):
        raise Refused("E1 Malformed")
    contest = Contest()
    for place, fields in enumerate(records, 1):
        try:
            judge(contest, fields)
        except Fault as fault:
            raise Refused(f"E22 ImportRow {place} {fault}")
    return contest


# --- Scoring ---------------------------------------------------------------------------------------


class Shown:
    """What is asked for: whose board, at which moment, and whether the freeze is lifted by then. A team sees its own whole.
    The board of a group, its name and the ids of its teams, has these alone."""

    def __init__(self, contest, jury, thawed, at, team=None, group=None):
        self.jury, self.team = jury, team
        self.group, self.members = group or (None, contest.teams)
        self.now = contest.duration if at is None else at
        self.thawed = thawed and contest.duration <= self.now  # the thaw is set to the end


def seen_verdict(contest, shown, team, time, verdict):
    """The verdict as the board shows it: held back if the submission is frozen."""
    frozen = contest.freeze is not None and time >= contest.freeze
    return verdict if shown.jury or shown.team == team or shown.thawed or not frozen else None


class Cell:
    """One team at one problem. An attempt counts if no earlier one is seen as solved."""

    def __init__(self, contest, shown, team, problem):
        self.judged = self.pending = self.penalties = 0
        self.solved = None  # the minute, rounded down
        for wanted, time, verdict in contest.submissions.get(team, []):
            if wanted != problem or time > shown.now or self.solved is not None:
                continue
            seen = seen_verdict(contest, shown, team, time, verdict)
            if seen is None:
                self.pending += 1
                continue
            self.judged += 1
            _, solving, penalised = contest.types[seen]
            if solving:
                self.solved = time // 60_000
            elif penalised:
                self.penalties += 1

    def text(self):
        text = ""
        if self.solved is not None:
            text = f"+{self.judged}/{self.solved}"
        elif self.judged:
            text = f"-{self.judged}"
        if self.pending:
            text += f"?{self.pending}"
        return text or "."


class Row:
    """A team's row: its cells, how many it solved, its total and its last solved minute."""

    def __init__(self, contest, shown, team, problems):
        self.team = team
        self.name = contest.teams[team][0]
        self.cells = [Cell(contest, shown, team, problem) for problem in problems]
        solved = [cell for cell in self.cells if cell.solved is not None]
        self.solved = len(solved)
        self.total = sum(cell.solved + contest.penalty * cell.penalties for cell in solved)
        self.last = max((cell.solved for cell in solved), default=0)  # of no use if nothing is solved

    def beats(self, other):
        if self.solved != other.solved:
            return self.solved > other.solved
        if self.total != other.total:
            return self.total < other.total
        return self.last < other.last


def board_rows(contest, shown, problems):
    """The shown teams with their ranks, by rank, then name, then id, both by their bytes."""
    rows = [Row(contest, shown, team, problems) for team, (_, hidden) in contest.teams.items() if not hidden and team in shown.members]
    for row in rows:
        row.rank = 1 + sum(other.beats(row) for other in rows)
    return sorted(rows, key=lambda row: (row.rank, row.name.encode(), row.team.encode()))


# --- The text --------------------------------------------------------------------------------------


def columns(text):
    """The terminal columns of a text: two for a wide character, none for a combining mark.

    This agrees with Rust's unicode_width on plain letters, on letters with combining marks, on
    Chinese, Japanese and Korean text and on single emoji: that is as far as the tests go. It doesn't
    on sequences that unicode_width takes as one, such as emoji joined by U+200D, variation
    selectors or the Arabic lam-alef.
    """
    width = 0
    for c in text:
        if unicodedata.category(c) in ("Mn", "Me", "Cf") or 0x1160 <= ord(c) <= 0x11FF:
            continue
        width += 2 if unicodedata.east_asian_width(c) in "WF" else 1
    return width


def left(text, width):
    return text + " " * (width - columns(text))


def right(text, width):
    return " " * (width - columns(text)) + text


def reltime_text(time):
    """A relative time, with its sign before the whole."""
    seconds, millis = divmod(abs(time), 1000)
    return f"{'-' if time < 0 else ''}{seconds // 3600}:{seconds // 60 % 60:02}:{seconds % 60:02}.{millis:03}"


def word(contest, shown):
    if contest.freeze is not None and contest.freeze <= shown.now and not shown.thawed:
        return "frozen"
    return "ended" if contest.duration <= shown.now else "running"


def columns_of(contest):
    """The problems, by ordinal and then by id."""
    return sorted(contest.problems, key=lambda key: (contest.problems[key][2], key.encode()))


def board_text(contest, shown):
    """The text board. The contest starts at time 0 and is never finalized."""
    problems = columns_of(contest)
    rows = board_rows(contest, shown, problems)
    names = max([4] + [columns(row.name) for row in rows])

    def line(rank, team, solved, total, cells):
        parts = [right(rank, 4), left(team, names), right(solved, 6), right(total, 6)]
        return "  ".join(parts + [right(cell, 9) for cell in cells]) + "\n"

    audience = "Jury" if shown.jury else "Public" if shown.team is None else f"Team {shown.team}"
    text = contest.name + "\n"
    of_group = "" if shown.group is None else f" of {shown.group}"
    text += f"{audience} board{of_group}, contest time {reltime_text(shown.now)}, {word(contest, shown)}\n"
    text += line("Rank", "Team", "Solved", "Time", [contest.problems[key][0] for key in problems])
    for row in rows:
        cells = [cell.text() for cell in row.cells]
        text += line(str(row.rank), row.name, str(row.solved), str(row.total), cells)
    return text


def board_csv(contest, shown):
    """The board as CSV: the same rows."""
    problems = columns_of(contest)
    out = io.StringIO()
    records = csv.writer(out, lineterminator="\n")
    records.writerow(["rank", "team_id", "team", "solved", "time", "last", *(contest.problems[key][0] for key in problems)])
    for row in board_rows(contest, shown, problems):
        last = row.last if row.solved else ""
        records.writerow([row.rank, row.team, row.name, row.solved, row.total, last, *(cell.text() for cell in row.cells)])
    return out.getvalue()


# --- The command -----------------------------------------------------------------------------------


def read_words(words):
    """The options (jury, thawed, at) of a command line that begins with the word `replay`."""
    if words[:1] != ["replay"]:
        raise WrongWords
    given = {}
    rest = list(words[1:])
    if rest[-1:] == ["--"]:  # the end of the options; nothing may stand after it
        rest.pop()
    while rest:
        option, equals, value = rest.pop(0).partition("=")
        if option not in ("--jury", "--thawed", "--at") or option in given:
            raise WrongWords
        if option == "--at" and not equals:
            if not rest or rest[0].startswith("-"):  # a value that begins with - needs the form --at=
                raise WrongWords
            value = rest.pop(0)
        if option != "--at" and equals:
            raise WrongWords
        given[option] = value
    at = None
    if "--at" in given:
        try:
            at = reltime(given["--at"].encode("utf-8", "surrogateescape"))
        except Fault:
            raise WrongWords
        if at < 0:
            raise WrongWords
    return "--jury" in given, "--thawed" in given, at


def replay(words, data):
    """What the command gives: its status, standard output and standard error."""
    try:
        jury, thawed, at = read_words(words)
        contest = read_replay(data)
        return 0, board_text(contest, Shown(contest, jury, thawed, at)).encode(), b""
    except WrongWords:
        return 2, b"", b"usage: replay [--jury] [--thawed] [--at RELTIME]\n"
    except Refused as refusal:
        return 1, b"", f"refused: {refusal}\n".encode()


def main():
    status, out, err = replay(sys.argv[1:], sys.stdin.buffer.read(FILE_LIMIT + 1))
    sys.stdout.buffer.write(out)
    sys.stderr.buffer.write(err)
    return status


if __name__ == "__main__":
    sys.exit(main())
