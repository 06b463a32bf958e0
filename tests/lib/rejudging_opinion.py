"""A second opinion on what the desk answers to the jury about rejudgings.

Written to be read beside docs/FORMATS.md, as desk_opinion.py is, which asks it: whole lists, and nothing kept along the way.
"""

from .import_opinion import Refused, is_id, is_name, member, json_of
from .replay_opinion import Fault

MEMBER_LIMIT = 500
LIMIT = 100_000
STEPS = ("verdicts", "apply", "cancel")


def offered(path):
    """The methods that a path under /jury/rejudgings offers, the last word of its route and the text in the number's place; None
    for any other path."""
    pieces = path.split("/")
    if pieces[:3] != ["", "jury", "rejudgings"] or not all(pieces[1:]):
        return None
    if len(pieces) == 3:
        return ["GET", "HEAD", "POST"], "rejudgings", None
    if len(pieces) == 4:
        return ["GET", "HEAD"], "rejudgings", pieces[3]
    return (["POST"], pieces[4], pieces[3]) if len(pieces) == 5 and pieces[4] in STEPS else None


def rejudging_object(number, rejudging):
    names = {"judgement_type_id": "type", "ready": "ready", "submission_id": "submission"}
    shown = [{name: one[part] for name, part in names.items()} for one in rejudging["members"]]
    return {"id": str(number), "members": shown, "reason": rejudging["reason"], "state": rejudging["state"]}


def found(contest, text):
    """The number that is written so, and its rejudging."""
    for number, rejudging in enumerate(contest["rejudgings"], 1):
        if str(number) == text:
            return number, rejudging
    raise Refused("NotFound")


def members_of_open(contest):
    """The ids of the submissions that are judged again now."""
    are_open = [rejudging for rejudging in contest["rejudgings"] if rejudging["state"] == "open"]
    return [one["submission"] for rejudging in are_open for one in rejudging["members"]]


def read(body, **rights):
    """The members of a posted object, each right by a test."""
    try:
        row = json_of(body)
        return [member(row, name, is_right) for name, is_right in rights.items()]
    except Fault:
        raise Refused("Malformed")


def may_be_members(ids):
    are_texts = isinstance(ids, list) and all(isinstance(it, str) for it in ids)
    return are_texts and 1 <= len(ids) <= MEMBER_LIMIT and len(set(ids)) == len(ids)


def open_one(contest, known, body):
    """The rejudging that a post opens; the submissions with the known ids are there."""
    reason, ids = read(body, reason=is_name, submission_ids=may_be_members)
    if any(which not in known for which in ids):
        raise Refused("UnknownReference")
    if contest["finalized"] is not None:
        raise Refused("NotOpen")
    if any(all(release["submission"] != which for release in contest["releases"]) for which in ids):
        raise Refused("RejudgingIncomplete")
    if any(which in members_of_open(contest) for which in ids):
        raise Refused("InRejudging")
    if len(contest["rejudgings"]) >= LIMIT:
        raise Refused("TeamLimit")
    members = [{"submission": which, "type": None, "account": None, "ready": False} for which in ids]
    contest["rejudgings"].append({"reason": reason, "state": "open", "members": members})
    return rejudging_object(len(contest["rejudgings"]), contest["rejudgings"][-1])


def judge(contest, rejudging, caller, which, verdict):
    """A judge names the type of a member: it is ready without verification, or once another account named the same."""
    own = [one for one in rejudging["members"] if one["submission"] == which]
    if not own or all(row["id"] != verdict for row in contest["types"]):
        raise Refused("UnknownReference")
    if rejudging["state"] != "open":
        raise Refused("RejudgingClosed")
    is_named = own[0]["type"] == verdict and (own[0]["ready"] or own[0]["account"] != caller["id"])
    is_ready = is_named or not contest["verification"]
    own[0].update(type=verdict, account=None if is_ready else caller["id"], ready=is_ready)


def apply(contest, now, rejudging):
    """Releases the types of all members, each in the next round of its submission."""
    if rejudging["state"] != "open":
        raise Refused("RejudgingClosed")
    if not all(one["ready"] for one in rejudging["members"]):
        raise Refused("RejudgingIncomplete")
    for one in rejudging["members"]:
        number = 1 + sum(release["submission"] == one["submission"] for release in contest["releases"])
        contest["releases"].append({"submission": one["submission"], "round": number, "type": one["type"], "time": now})
    rejudging["state"] = "applied"


def cancel(rejudging):
    if rejudging["state"] != "open":
        raise Refused("RejudgingClosed")
    rejudging["state"] = "cancelled"


def answered(contest, now, caller, known, method, name, which, body):
    """What the jury is answered on a path that offers the method."""
    if name == "rejudgings" and method == "POST":
        return open_one(contest, known, body)
    if name == "rejudgings" and which is None:
        return [rejudging_object(number, one) for number, one in enumerate(contest["rejudgings"], 1)]
    posted = read(body, submission_id=is_id, judgement_type_id=is_id) if name == "verdicts" else None
    number, rejudging = found(contest, which)
    if name == "verdicts":
        judge(contest, rejudging, caller, *posted)
    elif name == "apply":
        apply(contest, now, rejudging)
    elif name == "cancel":
        cancel(rejudging)
    return rejudging_object(number, rejudging)
