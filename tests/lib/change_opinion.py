"""What an administrator changes of teams and accounts while the contest goes on, by the second opinion."""

from .import_opinion import Refused, digest_of, is_id, is_name, is_new, is_token, json_of, member, posted_account, row_of
from .replay_opinion import Fault


def account_object(account):
    return {"id": account["id"], "team_id": account["team"], "type": account["role"], "username": account["id"]}


def is_over(contest, now):
    """Whether the contest has ended, or a moment of final results is set."""
    start = contest["start"]
    return (start is not None and now >= start + contest["duration"]) or contest["finalized"] is not None


def row_added(asked):
    """The account or the team that an administrator adds, or that stands already."""
    contest, which = asked.contest, asked.name
    if asked.caller is None or asked.caller["role"] != "admin":
        raise Refused("RoleForbids")
    is_closed = which == "teams" and is_over(contest, asked.now)
    try:
        said = json_of(asked.body)
        row = posted_account(said, contest) if which == "accounts" else row_of("teams", said, contest)[1]
        added = is_new(contest[which], which, row)
    except Fault as fault:
        if str(fault) == "TableFull":
            raise Refused("NotOpen" if is_closed else "TeamLimit")
        raise Refused(str(fault))
    if added and is_closed:
        raise Refused("NotOpen")
    if added:
        contest[which].append(row)
    return account_object(row) if which == "accounts" else row


def found(rows, which):
    """The row that has this id."""
    for row in rows:
        if row["id"] == which:
            return row
    raise Refused("UnknownReference")


def row_changed(asked):
    """The account whose token an administrator replaces, or the team whose name it corrects."""
    contest, is_account = asked.contest, asked.name == "tokens"
    if asked.caller is None or asked.caller["role"] != "admin":
        raise Refused("RoleForbids")
    try:
        said = json_of(asked.body)
        which = member(said, "account_id" if is_account else "team_id", is_id)
        value = digest_of(member(said, "token", is_token).encode()) if is_account else member(said, "name", is_name)
    except Fault:
        raise Refused("Malformed")
    row = found(contest["accounts" if is_account else "teams"], which)
    if is_account and any(other["digest"] == value for other in contest["accounts"] if other is not row):
        raise Refused("KeyReused")
    row["digest" if is_account else "name"] = value
    return account_object(row) if is_account else row
