"""A second opinion on clarifications: who hears which, how they are served, and what becomes of one that is posted."""

from .contest_opinion import is_jury, moment, owns, place_of, sees_all
from .import_opinion import Refused, is_id, json_of, member
from .replay_opinion import Fault, reltime_text

TEXT_LIMIT = 4_096
REQUEST_LIMIT = 200
JURY_LIMIT = 100_000


def whose(clarification):
    """Whose it is: a team's, a group's, or, of neither, one to all."""
    return clarification["team"], clarification["group"]


def clarification_id(contest, clarification):
    team, group = whose(clarification)
    series = "g" if team is None else f"c{place_of(contest, team)}"
    series += "" if group is None else str([row["id"] for row in contest["groups"]].index(group) + 1)
    return f"{series}-{clarification['number']}"


def is_in(contest, caller, group):
    """Whether a caller is a team that is in a group."""
    return any(owns(caller, team["id"]) and group in team["group_ids"] for team in contest["teams"])


def hears(contest, caller, clarification):
    team, group = whose(clarification)
    if group is not None:
        return sees_all(caller) or is_in(contest, caller, group)
    return team is None or sees_all(caller) or owns(caller, team)


def heard_clarifications(contest, caller):
    """The clarifications that a caller hears, by time and the bytes of their ids."""
    heard = [one for one in contest["clarifications"] if hears(contest, caller, one)]
    return sorted(heard, key=lambda one: (one["time"], clarification_id(contest, one).encode()))


def clarification_object(contest, clarification, caller):
    """A clarification as a caller who hears it is served it: what it answers is told to who hears that too."""
    heard = [clarification_id(contest, one) for one in heard_clarifications(contest, caller)]
    (team, group), is_by_jury = whose(clarification), clarification["is_by_jury"]
    return {
        **({} if group is None else {"to_group_id": group}),
        "contest_time": reltime_text(clarification["time"] - contest["start"]),
        "from_team_id": None if is_by_jury else team,
        "id": clarification_id(contest, clarification),
        "problem_id": clarification["problem"],
        "reply_to_id": clarification["reply"] if clarification["reply"] in heard else None,
        "text": clarification["text"],
        "time": moment(clarification["time"]),
        "to_team_id": team if is_by_jury else None,
    }


def is_text(value):
    return isinstance(value, str) and 1 <= len(value.encode()) <= TEXT_LIMIT


def said(body, caller):
    """What a clarification's post says: whose it is, a team's, a group's or for all, and its problem, its reply and its text."""
    try:
        row = json_of(body)
        text = member(row, "text", is_text)
        names = ("problem_id", "reply_to_id", "from_team_id", "to_team_id", "to_group_id")
        problem, reply, sender, receiver, group = [member(row, name, is_id, "") or None for name in names]
    except Fault:
        raise Refused("Malformed")
    said = {"group": group, "problem": problem, "reply": reply, "text": text}
    if is_jury(caller) and sender is None and (receiver is None or group is None):
        return {"team": receiver, **said}
    if not is_jury(caller) and sender in (None, caller["team"]) and receiver is None and group is None:
        return {"team": caller["team"], **said}
    raise Refused("Malformed")


def may_write(contest, now, caller):
    """Whether the clock lets a caller write: a team while the contest runs, the jury from the start on."""
    start = contest["start"]
    if start is None or now < start or contest["finalized"] is not None:
        return False
    return is_jury(caller) or now < start + contest["duration"]


def clarify(contest, now, caller, key, body):
    """The clarification that a post stands for, new or old."""
    if caller is None or caller["role"] == "analyst":
        raise Refused("RoleForbids")
    if key is not None and not is_id(key):
        raise Refused("Malformed")
    wanted, stands = said(body, caller), contest["clarifications"]
    heard = [clarification_id(contest, one) for one in heard_clarifications(contest, caller)]
    for named, there in (("problem", contest["problems"]), ("team", contest["teams"]), ("group", contest["groups"])):
        if wanted[named] is not None and all(row["id"] != wanted[named] for row in there):
            raise Refused("UnknownReference")
    if wanted["reply"] is not None and wanted["reply"] not in heard:
        raise Refused("UnknownReference")
    by_side = [one for one in stands if one["is_by_jury"] == is_jury(caller)]
    sharing = [one for one in by_side if (one["account"] == caller["id"] if is_jury(caller) else one["team"] == caller["team"])]
    for one in sharing:
        if key is not None and one["key"] == key:
            if any(one[part] != wanted[part] for part in wanted):
                raise Refused("KeyReused")
            return one
    if not may_write(contest, now, caller):
        raise Refused("NotOpen")
    if sum(whose(one) == whose(wanted) for one in by_side) >= (JURY_LIMIT if is_jury(caller) else REQUEST_LIMIT):
        raise Refused("TeamLimit")
    number = 1 + sum(whose(one) == whose(wanted) for one in stands)
    new = {**wanted, "number": number, "is_by_jury": is_jury(caller), "account": caller["id"], "time": now, "key": key}
    stands.append(new)
    return new
