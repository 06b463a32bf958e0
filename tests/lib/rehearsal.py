"""The rehearsal with all that is set up at its desk: what its director's files say, and the same as the second opinion keeps it.
The token of each account is `token-` and its id."""

import base64
import copy
import hashlib

from . import desk_opinion
from .demo import REHEARSAL, START
from .desk_opinion import moment
from .import_opinion import compact
from .replay_opinion import reltime_text

END = START + REHEARSAL["duration"]
FREEZE = END - REHEARSAL["freeze"]
TYPES = [{"id": "AC", "name": "correct", "solved": True, "penalty": False},
         {"id": "WA", "name": "wrong answer", "solved": False, "penalty": True},
         {"id": "CE", "name": "compile error", "solved": False, "penalty": False}]  # fmt: skip
LANGUAGES = [{"id": "cpp", "name": "C++", "entry_point_required": False}, {"id": "java", "name": "Java", "entry_point_required": True}]
PROBLEMS = [{"id": "b", "label": "B", "name": "B", "ordinal": 1}, {"id": "c", "label": "C", "name": "C", "ordinal": 0},
            {"id": "a", "label": "A", "name": "A", "ordinal": 0}]  # fmt: skip
GROUPS = [{"id": "north", "name": "North"}]
TEAMS = [("t1", "Alpha", False, []), ("t2", "Beta", False, []), ("t9", "Staff", True, []), ("t3", "Gamma", False, ["north"])]
ACCOUNTS = [("a1", "team", "t1"), ("a2", "team", "t2"), ("a3", "team", "t3"), ("a9", "team", "t9"), ("adm", "admin", ""),
            ("b1", "team", "t1"), ("j1", "judge", ""), ("j2", "judge", ""), ("o1", "analyst", "")]  # fmt: skip


def team_rows():
    return [{"id": row, "name": name, "hidden": hidden, "group_ids": groups} for row, name, hidden, groups in TEAMS]


def contest_of(verification, thaw=None):
    """The contest, as the second opinion keeps it."""
    contest = desk_opinion.new_contest({**REHEARSAL, "verification": verification}, START, thaw, None)
    rows = {"types": TYPES, "languages": LANGUAGES, "problems": PROBLEMS, "groups": GROUPS, "teams": team_rows()}
    digest = hashlib.sha256
    rows["accounts"] = [{"id": row, "role": role, "team": team or None, "digest": digest(f"token-{row}".encode()).hexdigest()}
                        for row, role, team in ACCOUNTS]  # fmt: skip
    return {**contest, **copy.deepcopy(rows)}


def files_of(verification):
    """The files of a director: of the contest itself first, which `desk init` takes, and then one of each kind."""
    head = {"id": REHEARSAL["id"], "name": REHEARSAL["name"], "duration": reltime_text(REHEARSAL["duration"]),
            "scoreboard_freeze_duration": reltime_text(REHEARSAL["freeze"]), "start_time": moment(START),
            "verification": verification}  # fmt: skip
    files = {"init": head, "judgement-types": TYPES, "languages": LANGUAGES, "problems": PROBLEMS, "groups": GROUPS, "teams": team_rows()}
    records = [",".join([row, role, team, f"token-{row}"]) for row, role, team in ACCOUNTS]
    accounts = "\n".join(["id,role,team_id,token", *records]) + "\n"
    return {**{name: compact(rows) for name, rows in files.items()}, "accounts-csv": accounts}


def sent(who, key, method, path, body):
    """The bytes of a request."""
    fields = "" if who == "public" else f"Authorization: Bearer {who}\r\n"
    fields += f"Idempotency-Key: {key}\r\n" if key is not None else ""
    data = body.encode()
    return f"{method} {path} HTTP/1.1\r\nHost: x\r\n{fields}Content-Length: {len(data)}\r\n\r\n".encode() + data


def posted(problem="a", size=3):
    """The body of a submission with a file of so many bytes."""
    data = base64.b64encode(b"abc".ljust(size, b"d")).decode()
    return compact({"problem_id": problem, "language_id": "cpp", "files": [{"data": data}]})


def judged(which, verdict):
    """The body of a verdict that is proposed."""
    return compact({"submission_id": which, "judgement_type_id": verdict})
