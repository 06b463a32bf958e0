"""A second opinion on what a file of verdicts adds to a contest.

Written to be read beside docs/FORMATS.md, as import_opinion.py is, which tells of every other kind of file: whole lists, filtered
for each record, and nothing kept along the way.
"""

import copy

from . import import_opinion, replay_opinion
from .desk_opinion import PROPOSAL_LIMIT, first_release, submission_id
from .import_opinion import Refused
from .replay_opinion import Fault

HEADER = [b"submission_id", b"judgement_type_id"]
ACCOUNT = "import"


def is_added(contest, which, verdict):
    """Whether the verdict of a record is added to those that stand."""
    if all(submission_id(contest, one) != which for one in contest["submissions"]):
        raise Fault("UnknownReference")
    if all(one["id"] != verdict for one in contest["types"]):
        raise Fault("UnknownReference")
    made = [one for one in contest["proposals"] if one["submission"] == which]
    for one in made:
        if one["account"] == ACCOUNT:
            if one["type"] != verdict:
                raise Fault("KeyReused")
            return False
    if len(made) >= PROPOSAL_LIMIT:
        raise Fault("TableFull")
    if any(one["submission"] == which for one in contest["releases"]):
        raise Fault("AlreadyReleased")
    return True


def judge(contest, now, fields):
    """How many verdicts a record adds, none or one; where nobody verifies it, its verdict is released."""
    if len(fields) != 2:
        raise Fault("Malformed")
    which, verdict = map(replay_opinion.identifier, fields)
    if not is_added(contest, which, verdict):
        return 0
    contest["proposals"].append({"account": ACCOUNT, "submission": which, "type": verdict, "time": now})
    if not contest["verification"]:
        contest["releases"].append(first_release(now, which, verdict))
    return 1


def judged(contest, now, data):
    """What is answered to a file of verdicts, and the contest after it."""
    after, added = copy.deepcopy(contest), 0
    records = replay_opinion.records_of(data)
    if not records or records[0] != HEADER:
        raise Refused("Malformed")
    for number, record in enumerate(records[1:], 1):
        try:
            added += judge(after, now, record)
        except Fault as fault:
            return f"refused: E22 ImportRow {number} {fault}", contest
    return f"added {added}", after


def imported(contest, now, kind, data):
    """What is answered to an import of any kind, and the contest after it."""
    if kind != "verdicts-csv":
        return import_opinion.imported(contest, now, kind, data)
    try:
        return judged(contest, now, data)
    except Refused as refused:
        return import_opinion.refusal(refused), contest
