"""What the second opinions share: who asks, where a team stands, how a moment is written."""

import datetime


def is_jury(caller):
    """Whether a caller judges: a judge or an administrator."""
    return caller is not None and caller["role"] in ("judge", "admin")


def sees_all(caller):
    """Whether a caller reads what the jury reads: an analyst too."""
    return caller is not None and caller["role"] != "team"


def owns(caller, team):
    return caller is not None and caller["role"] == "team" and caller["team"] == team


def place_of(contest, team):
    """A team's place, from 1."""
    return [row["id"] for row in contest["teams"]].index(team) + 1


def moment(milliseconds):
    if milliseconds is None:
        return None
    day = datetime.datetime(1970, 1, 1) + datetime.timedelta(milliseconds=milliseconds)
    return day.strftime("%Y-%m-%dT%H:%M:%S.") + f"{milliseconds % 1000:03}+00:00"
