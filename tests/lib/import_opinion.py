"""A second opinion on what the desk answers to imports, and on the values in what it is sent.

docs/FORMATS.md says what may stand in a file; fields of CSV files are read as replay_opinion.py reads those of a replay file.
"""

import copy
import hashlib
import itertools
import json
import math
import re

from . import replay_opinion
from .replay_opinion import Fault

LIMITS = {"types": 40, "languages": 40, "problems": 40, "groups": 50, "teams": 500, "accounts": 2000}
NESTING = 127
STRING = re.compile(r'"(?:[^"\\]|\\.)*"', re.DOTALL)
NUMBERS = {"Malformed": 1, "BodyTooLarge": 6, "SettingsClosed": 23}
COLLECTIONS = {"judgement-types": "types", "languages": "languages", "problems": "problems", "groups": "groups", "teams": "teams"}
HEADERS = {"teams-csv": b"id,name,group_ids,hidden", "accounts-csv": b"id,role,team_id,token"}


class Refused(Exception):
    """A request or a file is refused, by this name."""


# --- Values ----------------------------------------------------------------------------------------


def is_id(value):
    return isinstance(value, str) and re.fullmatch(r"[A-Za-z0-9_.][A-Za-z0-9_.-]{0,35}", value) is not None


def is_name(value):
    return isinstance(value, str) and bool(re.fullmatch(r"[^\x00-\x1f\x7f-\x9f]+", value)) and len(value.encode()) <= 200


def is_token(value):
    return isinstance(value, str) and re.fullmatch(r"[A-Za-z0-9._~+/-]+=*", value) is not None and 8 <= len(value) <= 128


def is_truth(value):
    return isinstance(value, bool)


def number_to(most):
    return lambda value: isinstance(value, int) and not isinstance(value, bool) and 0 <= value <= most


is_ordinal = number_to(65_535)


def member(row, name, is_right, usual=None):
    """A member of an object; one that is absent or null is as usual, and at fault if nothing is usual."""
    value = row.get(name) if isinstance(row, dict) else None
    if value is None and usual is not None:
        return usual
    if not is_right(value):
        raise Fault("Malformed")
    return value


def number_of(text):
    """A number of JSON: a whole one as it is, any other, and `-0`, as a fraction, unless it is out of range."""
    if math.isinf(float(text)):
        raise Fault("Malformed")
    return int(text) if len(text) < 400 and text.lstrip("-").isdigit() and text != "-0" else float(text)


def no_number(text):
    raise Fault("Malformed")


def json_of(data):
    """The value that bytes are the JSON of; of two members of one name the last. It nests so deep at most, and is UTF-8."""
    try:
        text = data.decode("utf-8") if isinstance(data, bytes) else data
        value = json.loads(text, parse_int=number_of, parse_float=number_of, parse_constant=no_number)
        strings = STRING.findall(text) if "\\" in text else []
        "".join(map(json.loads, strings)).encode("utf-8")
    except (json.JSONDecodeError, UnicodeError, RecursionError):
        raise Fault("Malformed")
    marks = re.sub(r"[^\[\]{}]+", "", STRING.sub("", text))
    depths = itertools.accumulate(1 if mark in "[{" else -1 for mark in marks)
    if max(depths, default=0) > NESTING:
        raise Fault("Malformed")
    return value


def has_come(one, now):
    return one is not None and one <= now


def compact(value):
    return json.dumps(value, separators=(",", ":"), sort_keys=True, ensure_ascii=False)


# --- The contest -------------------------------------------------------------------------------------

LONGEST_CONTEST = 3_600_000_000
PLACES = ("gold", "silver", "bronze")


def span(value):
    """The milliseconds of a relative time that isn't below zero."""
    try:
        time = replay_opinion.reltime(value.encode())
    except AttributeError:
        raise Fault("Malformed")
    if time < 0:
        raise Fault("Malformed")
    return time


def penalty_of(value):
    """The minutes of a whole number, or of a relative time of whole minutes."""
    if isinstance(value, str):
        minutes, rest = divmod(span(value), 60_000)
        value = -1 if rest else minutes
    if not number_to(1000)(value):
        raise Fault("Malformed")
    return value


def head_of(row):
    """The row of a contest that an object says, up to its start."""
    made = {"id": member(row, "id", is_id), "name": member(row, "name", is_name)}
    made["duration"] = span(row.get("duration"))
    freeze = row.get("scoreboard_freeze_duration")
    made["freeze"] = None if freeze is None else span(freeze)
    if not 0 < made["duration"] <= LONGEST_CONTEST or (made["freeze"] or 0) > made["duration"]:
        raise Fault("Malformed")
    member(row, "scoreboard_type", lambda value: value == "pass-fail", "pass-fail")
    made["penalty"] = penalty_of(member(row, "penalty_time", lambda _: True, 20))
    made["verification"] = member(row, "verification", is_truth, False)
    medals = member(row, "medals", lambda value: isinstance(value, dict), {})
    return {**made, **{name: member(medals, name, number_to(100), 4) for name in PLACES}}


# --- Files -----------------------------------------------------------------------------------------


def groups_of(ids, contest):
    """The groups of a team, each once, and all of them there."""
    if len(set(ids)) != len(ids):
        raise Fault("Malformed")
    if any(all(group["id"] != one for group in contest["groups"]) for one in ids):
        raise Fault("UnknownReference")
    return ids


def row_of(kind, row, contest):
    """The list that an object of a file goes to, and the row."""
    row_id, label = member(row, "id", is_id), {}
    if kind == "problems":
        label = {"label": member(row, "label", is_name)}
    made = {"id": row_id, **label, "name": member(row, "name", is_name)}
    if kind == "judgement-types":
        made["solved"] = member(row, "solved", is_truth)
        made["penalty"] = member(row, "penalty", is_truth, False)
    elif kind == "languages":
        made["entry_point_required"] = member(row, "entry_point_required", is_truth, False)
    elif kind == "problems":
        made["ordinal"] = member(row, "ordinal", is_ordinal)
    elif kind == "teams":
        ids = member(row, "group_ids", lambda ids: isinstance(ids, list) and all(map(is_id, ids)), [])
        made["hidden"] = member(row, "hidden", is_truth, False)
        made["group_ids"] = groups_of(ids, contest)
    return COLLECTIONS[kind], made


def digest_of(token):
    """What is kept of the bytes of a token."""
    return hashlib.sha256(token).hexdigest()


def csv_row(kind, fields, contest):
    """The same of a record of a CSV file."""
    if len(fields) != 4:
        raise Fault("Malformed")
    if kind == "teams-csv":
        row_id, name = replay_opinion.identifier(fields[0]), replay_opinion.name(fields[1])
        ids = [replay_opinion.identifier(word) for word in fields[2].split(b" ")] if fields[2] else []
        hidden = replay_opinion.truth_or_empty(fields[3])
        return "teams", {"id": row_id, "name": name, "group_ids": groups_of(ids, contest), "hidden": hidden}
    row_id, role = replay_opinion.identifier(fields[0]), fields[1].decode("utf-8", "replace")
    team = replay_opinion.identifier(fields[2]) if role == "team" else None
    has_form = role in ("team", "judge", "admin", "analyst") and not (team is None and fields[2])
    if row_id == "import" or not has_form or not is_token(fields[3].decode("utf-8", "replace")):
        raise Fault("Malformed")
    if team is not None and all(one["id"] != team for one in contest["teams"]):
        raise Fault("UnknownReference")
    return "accounts", {"id": row_id, "role": role, "team": team, "digest": digest_of(fields[3])}


def posted_account(row, contest):
    """An account that a posted object says."""
    row_id, team = member(row, "id", is_id), member(row, "team_id", is_id, "")
    role, token = (member(row, name, lambda text: isinstance(text, str)) for name in ("role", "token"))
    fields = [text.encode("utf-8", "replace") for text in (row_id, role, team, token)]
    return csv_row("accounts-csv", fields, contest)[1]


def is_new(rows, which, row):
    """Whether a row is added to those that stand."""
    for other in rows:
        if other["id"] == row["id"]:
            if other != row:
                raise Fault("KeyReused")
            return False
    if any(other[held] == row[held] for held in ("label", "digest") if held in row for other in rows):
        raise Fault("KeyReused")
    if len(rows) >= LIMITS[which]:
        raise Fault("TableFull")
    return True


def records_in(kind, data):
    """What a file lists, each with the function that makes a row of it."""
    if kind in HEADERS:
        records = replay_opinion.records_of(data)
        if not records or b",".join(records[0]) != HEADERS[kind] or len(records[0]) != 4:
            raise Refused("Malformed")
        return records[1:], csv_row
    try:
        rows = json_of(data)
    except Fault:
        raise Refused("Malformed")
    if not isinstance(rows, list):
        raise Refused("Malformed")
    return rows, row_of


def refusal(refused):
    """What is printed of a file that is refused as a whole."""
    return f"refused: E{NUMBERS[str(refused)]} {refused}"


def imported(contest, now, kind, data):
    """What is answered to an import of settings or accounts, and the contest after it."""
    after, added = copy.deepcopy(contest), 0
    try:
        records, made = records_in(kind, data)
        for number, record in enumerate(records, 1):
            try:
                which, row = made(kind, record, after)
                if is_new(after[which], which, row):
                    after[which].append(row)
                    added += 1
            except Fault as fault:
                return f"refused: E22 ImportRow {number} {fault}", contest
        is_closed = has_come(contest["start"], now) or contest["submissions"]
        if kind != "accounts-csv" and added and is_closed:
            raise Refused("SettingsClosed")
    except Refused as refused:
        return refusal(refused), contest
    return f"added {added}", after
