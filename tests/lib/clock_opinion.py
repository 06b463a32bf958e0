"""A second opinion on what the desk answers to administrators about its clock.

Written to be read beside docs/FORMATS.md, as desk_opinion.py is, which asks it: whole lists, and nothing kept along the way.
"""

import datetime

from .import_opinion import LONGEST_CONTEST, Refused, has_come, json_of, span
from .replay_opinion import Fault

EPOCH = datetime.datetime(1970, 1, 1, tzinfo=datetime.timezone.utc)
LAST_MOMENT = 253_370_764_799_999
MARKS = {"start_time": "start", "scoreboard_thaw_time": "thaw"}


def time_of(value):
    """The milliseconds since 1970 of a text that shows a moment, in the forms that lib/timekeeper.py asks."""
    try:
        microseconds = (datetime.datetime.fromisoformat(value.replace("Z", "+00:00")) - EPOCH) // datetime.timedelta(microseconds=1)
    except (AttributeError, TypeError, ValueError):
        raise Refused("Malformed")
    if microseconds % 1000 or not 0 <= microseconds <= LAST_MOMENT * 1000:
        raise Refused("Malformed")
    return microseconds // 1000


def wanted(contest, body):
    """The mark that a body names, and its moment; a start may be None."""
    try:
        row = json_of(body)
    except Fault:
        raise Refused("Malformed")
    named = [name for name in MARKS if isinstance(row, dict) and name in row]
    if len(named) != 1 or row.get("id", contest["id"]) != contest["id"]:
        raise Refused("Malformed")
    mark, value = MARKS[named[0]], row[named[0]]
    return mark, None if mark == "start" and value is None else time_of(value)


def may_start(contest, now, start):
    if contest["submissions"] or contest["clarifications"] or contest["thaw"] is not None or contest["finalized"] is not None:
        return False
    return not has_come(contest["start"], now) and (start is None or now < start <= LAST_MOMENT - contest["duration"])


def may_thaw(contest, now, thaw):
    has_freeze = contest["start"] is not None and contest["freeze"] is not None
    return has_freeze and not has_come(contest["thaw"], now) and contest["start"] + contest["duration"] <= thaw


def set_clock(contest, now, body):
    """Sets the start or the thaw."""
    mark, one = wanted(contest, body)
    if not {"start": may_start, "thaw": may_thaw}[mark](contest, now, one):
        raise Refused("ClockRefused")
    contest[mark] = one


def wanted_extension(body):
    """The duration that a body names, and the freeze duration, which may be None."""
    try:
        row = json_of(body)
        if not isinstance(row, dict):
            raise Fault("Malformed")
        duration = span(row.get("duration"))
        freeze = span(row["scoreboard_freeze_duration"]) if "scoreboard_freeze_duration" in row else None
    except Fault:
        raise Refused("Malformed")
    if not 0 < duration <= LONGEST_CONTEST or (freeze or 0) > duration:
        raise Refused("Malformed")
    return duration, freeze


def has_frozen(contest, now, duration, freeze):
    """Whether a freeze so long before the end of a contest so long has come: by the clock, or by a submission's time."""
    if contest["start"] is None or freeze is None:
        return False
    times = [now] + [one["time"] for one in contest["submissions"]]
    return any(contest["start"] + duration - freeze <= time for time in times)


def may_extend(contest, now, duration, freeze):
    if contest["finalized"] is not None or contest["thaw"] is not None or duration < contest["duration"]:
        return False
    if contest["start"] is not None and contest["start"] + duration <= now:
        return False
    moments = [(contest["duration"], contest["freeze"]), (duration, freeze)]
    return freeze is None or not any(has_frozen(contest, now, *one) for one in moments)


def extend(contest, now, body):
    """Has the contest last longer. A freeze that has come stays where it is; one that hasn't moves with the end, unless the body
    says another."""
    duration, freeze = wanted_extension(body)
    if duration == contest["duration"] and freeze in (None, contest["freeze"]):
        return
    if contest["start"] is not None and contest["start"] + duration > LAST_MOMENT:
        raise Refused("Malformed")
    if not may_extend(contest, now, duration, freeze):
        raise Refused("ClockRefused")
    if freeze is None and contest["freeze"] is not None:
        is_come = has_frozen(contest, now, contest["duration"], contest["freeze"])
        freeze = contest["freeze"] + (duration - contest["duration"] if is_come else 0)
    contest["duration"], contest["freeze"] = duration, freeze


def finalize(contest, now, known):
    """Makes the results final; the contest's submissions have the known ids."""
    released = {release["submission"] for release in contest["releases"]}
    has_ended = contest["start"] is not None and contest["start"] + contest["duration"] <= now
    is_any_open = any(rejudging["state"] == "open" for rejudging in contest["rejudgings"])
    if not has_ended or contest["finalized"] is not None or is_any_open or not released.issuperset(known):
        raise Refused("ClockRefused")
    contest["finalized"] = now
