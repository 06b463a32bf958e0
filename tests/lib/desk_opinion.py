"""A second opinion on what the desk answers: the plainest model of a contest that takes requests.

docs/FORMATS.md says what is asked and answered. It is written to be read beside that page and to share nothing with the
program: whole lists, filtered and counted for each answer, and nothing kept up to date along the way. What imports add to a
contest is told by import_opinion.py, what an administrator changes of teams and accounts by change_opinion.py, what is answered
about clarifications by clarification_opinion.py and about rejudgings by rejudging_opinion.py, how the clock is set by
clock_opinion.py, who wins what by awards_opinion.py, and which events make a feed by feed_opinion.py.
"""

import base64
import binascii
import copy
from dataclasses import dataclass

from . import awards_opinion, clock_opinion, feed_opinion, rejudging_opinion
from .change_opinion import account_object, row_added, row_changed
from .clarification_opinion import clarification_object, clarify, heard_clarifications
from .contest_opinion import is_jury, moment, owns, place_of, sees_all
from .import_opinion import COLLECTIONS, Refused, compact, digest_of, has_come, is_id, is_name, json_of, member
from .replay_opinion import Fault, reltime_text

FILE_LIMIT = 1_048_576
TEAM_LIMIT = 500
PROPOSAL_LIMIT = 1_000
STATUSES = {
    "Malformed": 400, "UnknownToken": 401, "RoleForbids": 403, "NotFound": 404, "Method": 405, "BodyTooLarge": 413,
    "NotOpen": 409, "UnknownReference": 400, "EntryPointMissing": 400, "TeamLimit": 409, "KeyReused": 409, "AlreadyReleased": 409,
    "NothingToVerify": 409, "SameJudge": 403, "TypeDiffers": 409, "RejudgingIncomplete": 409, "InRejudging": 409,
    "RejudgingClosed": 409, "ClockRefused": 409,
}  # fmt: skip


def new_contest(head, start, thaw, finalized):
    """A contest with nothing in it: its head has id, name, duration, freeze, penalty and whether verdicts are verified; each
    mark is set or None."""
    settings = ("types", "languages", "problems", "groups", "teams", "accounts")
    lists = (*settings, "submissions", "proposals", "releases", "clarifications", "rejudgings")
    return {**head, "start": start, "thaw": thaw, "finalized": finalized, **{name: [] for name in lists}}


def contest_object(contest):
    return {
        "duration": reltime_text(contest["duration"]),
        "id": contest["id"],
        "name": contest["name"],
        "penalty_time": contest["penalty"],
        "scoreboard_freeze_duration": reltime_text(contest["freeze"]),
        "scoreboard_thaw_time": moment(contest["thaw"]),
        "scoreboard_type": "pass-fail",
        "start_time": moment(contest["start"]),
    }


def state_object(contest, now):
    """The moments that have come: a thaw once there is something frozen, final results once the contest has ended."""
    start, state = contest["start"], dict.fromkeys(["started", "frozen", "ended", "thawed", "finalized", "end_of_updates"])
    if start is None:
        return state
    end = start + contest["duration"]
    for name, one in (("started", start), ("frozen", end - contest["freeze"]), ("ended", end)):
        state[name] = one if has_come(one, now) else None
    if state["frozen"] is not None and has_come(contest["thaw"], now):
        state["thawed"] = contest["thaw"]
    if state["ended"] is not None and has_come(contest["finalized"], now):
        state["finalized"] = contest["finalized"]
    if state["thawed"] is not None and state["finalized"] is not None:
        state["end_of_updates"] = max(state["thawed"], state["finalized"])
    return {name: moment(one) for name, one in state.items()}


def submission_id(contest, submission):
    return f"s{place_of(contest, submission['team'])}-{submission['number']}"


def submission_object(contest, submission, caller):
    """A submission as the caller is served it."""
    shown = {
        "contest_time": reltime_text(submission["time"] - contest["start"]),
        "id": submission_id(contest, submission),
        "language_id": submission["language"],
        "problem_id": submission["problem"],
        "team_id": submission["team"],
        "time": moment(submission["time"]),
    }
    if sees_all(caller) or owns(caller, submission["team"]):
        href = f"contests/{contest['id']}/submissions/{shown['id']}/files"
        shown["files"] = [{"href": href, "mime": "application/zip"}]
        if submission["entry"] is not None:
            shown["entry_point"] = submission["entry"]
    return shown


def seen_submissions(contest, caller):
    """The submissions that a caller sees, by time, team id and number."""

    def is_seen(submission):
        hidden = next(team["hidden"] for team in contest["teams"] if team["id"] == submission["team"])
        return not hidden or sees_all(caller) or owns(caller, submission["team"])

    seen = [submission for submission in contest["submissions"] if is_seen(submission)]
    return sorted(seen, key=lambda one: (one["time"], one["team"].encode(), one["number"]))


def seen_release(contest, now, submission, caller):
    """The last release on a submission, unless it is held back from the caller; None if there is none to see."""
    which = submission_id(contest, submission)
    released = [one for one in contest["releases"] if one["submission"] == which]
    freeze = contest["start"] + contest["duration"] - contest["freeze"]
    is_held = submission["time"] >= freeze and not has_come(contest["thaw"], now)
    if not released or (is_held and not sees_all(caller) and not owns(caller, submission["team"])):
        return None
    return released[-1]


def judgement_object(contest, release):
    at = {"time": moment(release["time"]), "contest_time": reltime_text(release["time"] - contest["start"])}
    times = {f"{side}_{name}": value for side in ("start", "end") for name, value in at.items()}
    which = release["submission"]
    return {"id": f"{which}.{release['round']}", "judgement_type_id": release["type"], "submission_id": which, **times}


def judgements(contest, now, caller):
    seen = [seen_release(contest, now, one, caller) for one in seen_submissions(contest, caller)]
    return [judgement_object(contest, release) for release in seen if release is not None]


def proposal_object(proposal, is_released):
    names = {"account_id": proposal["account"], "judgement_type_id": proposal["type"], "submission_id": proposal["submission"]}
    return {**names, "released": is_released, "time": moment(proposal["time"])}


def open_proposals(contest, caller):
    """The last proposal of each submission that has no release, in the order of the submissions."""
    found = []
    for submission in seen_submissions(contest, caller):
        which = submission_id(contest, submission)
        made = [one for one in contest["proposals"] if one["submission"] == which]
        if made and all(one["submission"] != which for one in contest["releases"]):
            found.append(proposal_object(made[-1], False))
    return found


def cell(contest, now, team, problem, caller):
    """What a team's attempts at a problem come to, under what the caller sees of it."""
    types, start = {row["id"]: row for row in contest["types"]}, contest["start"]
    counted = {"num_judged": 0, "num_pending": 0, "problem_id": problem["id"], "solved": False}
    penalties = 0
    attempts = [one for one in contest["submissions"] if (one["team"], one["problem"]) == (team["id"], problem["id"])]
    for attempt in sorted(attempts, key=lambda one: (one["time"], one["number"])):
        release = seen_release(contest, now, attempt, caller)
        if release is None:
            counted["num_pending"] += 1
            continue
        counted["num_judged"] += 1
        if types[release["type"]]["solved"]:
            return {**counted, "solved": True, "time": (attempt["time"] - start) // 60_000}, penalties
        penalties += types[release["type"]]["penalty"]
    return counted, penalties


def scoreboard(contest, now, caller, group=None):
    """The teams that aren't hidden, or those of a group: more solved first, then less time, then an earlier last minute; ranks
    count who of these is better."""
    rows = []
    problems = sorted(contest["problems"], key=lambda row: (row["ordinal"], row["id"].encode()))
    for team in contest["teams"]:
        if team["hidden"] or group not in (None, *team["group_ids"]):
            continue
        cells = [cell(contest, now, team, problem, caller) for problem in problems]
        solved = [(one["time"], penalties) for one, penalties in cells if one["solved"]]
        total = sum(minute + contest["penalty"] * penalties for minute, penalties in solved)
        last = max((minute for minute, _ in solved), default=None)
        score = {"num_solved": len(solved), "time": last, "total_time": total}
        key = (-len(solved), total, 0 if last is None else last)
        rows.append((key, team, {"problems": [one for one, _ in cells], "score": score, "team_id": team["id"]}))
    shown = []
    for key, _, row in sorted(rows, key=lambda one: (one[0], one[1]["name"].encode(), one[1]["id"].encode())):
        shown.append({**row, "rank": 1 + sum(other < key for other, _, _ in rows)})
    time = None if contest["start"] is None else reltime_text(now - contest["start"])
    return {"contest_time": time, "rows": shown, "state": state_object(contest, now), "time": moment(now)}


def solves(contest):
    """Each team that isn't hidden with a problem that it solved, and the time of its first submission that solves it."""
    solving = {row["id"] for row in contest["types"] if row["solved"]}
    last = {release["submission"]: release["type"] for release in contest["releases"]}
    hidden = {team["id"] for team in contest["teams"] if team["hidden"]}
    found = {}
    for one in sorted(contest["submissions"], key=lambda one: (one["time"], one["number"])):
        if last.get(submission_id(contest, one)) in solving and one["team"] not in hidden:
            found.setdefault((one["team"], one["problem"]), one["time"])
    return [(team, problem, time) for (team, problem), time in found.items()]


def awards(contest, now, caller):
    """Those of the jury's board, once the caller is shown them."""
    if not awards_opinion.are_shown(contest, now, sees_all(caller)):
        return []
    return awards_opinion.made(contest, scoreboard(contest, now, {"role": "judge", "team": None})["rows"], solves(contest))


def collection(contest, now, name, caller):
    if name == "submissions":
        return [submission_object(contest, one, caller) for one in seen_submissions(contest, caller)]
    if name == "judgements":
        return judgements(contest, now, caller)
    if name == "clarifications":
        return [clarification_object(contest, one, caller) for one in heard_clarifications(contest, caller)]
    if name == "awards":
        return awards(contest, now, caller)
    rows = contest[COLLECTIONS[name]]
    return sorted(rows, key=lambda row: (row["ordinal"], row["id"].encode())) if name == "problems" else rows


def event_feed(contest, now, caller):
    """The feed of all that the caller is served."""
    single = {"contest": contest_object(contest), "state": state_object(contest, now)}
    return feed_opinion.feed(lambda kind: [single[kind]] if kind in single else collection(contest, now, kind, caller))


def posted(body, team):
    """What a team posts: problem, language, entry point and file."""
    try:
        row = json_of(body)
        problem, language = member(row, "problem_id", is_id), member(row, "language_id", is_id)
        entry = member(row, "entry_point", lambda text: text == "" or is_name(text), "")
        files = member(row, "files", lambda files: isinstance(files, list) and len(files) == 1)
        data = member(files[0], "data", lambda text: isinstance(text, str))
        file = base64.b64decode(data.encode(), validate=True)
        if base64.b64encode(file).decode() != data or member(row, "team_id", is_id, team) != team:
            raise Fault("Malformed")
    except (Fault, UnicodeEncodeError, binascii.Error):
        raise Refused("Malformed")
    if len(file) > FILE_LIMIT:
        raise Refused("BodyTooLarge")
    return problem, language, entry or None, file


def submit(contest, now, caller, key, body):
    """The submission that a post stands for, new or old."""
    if caller is None or caller["role"] != "team":
        raise Refused("RoleForbids")
    if key is not None and not is_id(key):
        raise Refused("Malformed")
    problem, language, entry, file = posted(body, caller["team"])
    languages = {row["id"]: row["entry_point_required"] for row in contest["languages"]}
    if all(row["id"] != problem for row in contest["problems"]) or language not in languages:
        raise Refused("UnknownReference")
    if languages[language] and entry is None:
        raise Refused("EntryPointMissing")
    own = [one for one in contest["submissions"] if one["team"] == caller["team"]]
    new = {"team": caller["team"], "number": len(own) + 1, "time": max([now] + [one["time"] for one in own]),
           "problem": problem, "language": language, "entry": entry, "file": file, "key": key}  # fmt: skip
    for one in own:
        if key is not None and one["key"] == key:
            if any(one[part] != new[part] for part in ("problem", "language", "entry", "file")):
                raise Refused("KeyReused")
            return one
    start = contest["start"]
    if start is None or not start <= now < start + contest["duration"] or contest["finalized"] is not None:
        raise Refused("NotOpen")
    if len(own) >= TEAM_LIMIT:
        raise Refused("TeamLimit")
    contest["submissions"].append(new)
    return new


def judged(contest, caller, body):
    """The submission and the judgement type that a judge's post names; what is released already is refused."""
    if not is_jury(caller):
        raise Refused("RoleForbids")
    try:
        row = json_of(body)
        which, verdict = member(row, "submission_id", is_id), member(row, "judgement_type_id", is_id)
    except Fault:
        raise Refused("Malformed")
    if all(submission_id(contest, one) != which for one in contest["submissions"]):
        raise Refused("UnknownReference")
    if all(row["id"] != verdict for row in contest["types"]):
        raise Refused("UnknownReference")
    if any(one["submission"] == which for one in contest["releases"]):
        raise Refused("AlreadyReleased")
    return which, verdict


def first_release(now, which, verdict):
    return {"submission": which, "round": 1, "type": verdict, "time": now}


def propose(contest, now, caller, body):
    """The proposal that a judge's post is; if nobody verifies it, its verdict is released."""
    which, verdict = judged(contest, caller, body)
    if sum(one["submission"] == which for one in contest["proposals"]) >= PROPOSAL_LIMIT:
        raise Refused("TeamLimit")
    proposal = {"account": caller["id"], "submission": which, "type": verdict, "time": now}
    contest["proposals"].append(proposal)
    if not contest["verification"]:
        contest["releases"].append(first_release(now, which, verdict))
    return proposal_object(proposal, not contest["verification"])


def verify(contest, now, caller, body):
    """The judgement that comes of another judge's naming the type of the last proposal."""
    which, verdict = judged(contest, caller, body)
    made = [one for one in contest["proposals"] if one["submission"] == which]
    if not made:
        raise Refused("NothingToVerify")
    if made[-1]["account"] == caller["id"]:
        raise Refused("SameJudge")
    if made[-1]["type"] != verdict:
        raise Refused("TypeDiffers")
    contest["releases"].append(first_release(now, which, verdict))
    return judgement_object(contest, contest["releases"][-1])


def offered(contest, path):
    """What a path offers: the methods, the collection and the id in it."""
    pieces = path.split("/")
    if (rejudgings := rejudging_opinion.offered(path)) is not None:
        return rejudgings
    if path in ("/jury/proposals", "/jury/verifications"):
        return ["GET", "HEAD", "POST"] if pieces[2] == "proposals" else ["POST"], pieces[2], None
    if pieces[:3] == ["", "contests", contest["id"]] and pieces[3:] in (["account"], ["state"], ["scoreboard"], ["event-feed"]):
        return ["GET", "HEAD"], pieces[3], None
    if path in [f"/jury/{name}" for name in ADMINISTRATORS]:
        return ["POST"], pieces[2], None
    if path == "/contests":
        return ["GET", "HEAD"], "contests", None
    if pieces == ["", "contests", contest["id"]]:
        return ["GET", "HEAD", "PATCH"], "contest", None
    if len(pieces) == 6 and all(pieces[1:]) and pieces[:4] + pieces[5:] == ["", "contests", contest["id"], "submissions", "files"]:
        return ["GET", "HEAD"], "files", pieces[4]
    if len(pieces) == 6 and all(pieces[1:]) and pieces[:4] + pieces[5:] == ["", "contests", contest["id"], "groups", "scoreboard"]:
        return ["GET", "HEAD"], "group scoreboard", pieces[4]
    names = ["submissions", "judgements", "clarifications", "awards", *COLLECTIONS]
    if len(pieces) not in (4, 5) or pieces[:3] != ["", "contests", contest["id"]] or pieces[3] not in names or not all(pieces[1:]):
        raise Refused("NotFound")
    methods = ["GET", "HEAD"] + (["POST"] if pieces[3:] in (["submissions"], ["clarifications"]) else [])
    return methods, pieces[3], pieces[4] if len(pieces) == 5 else None


def file_of(contest, which, caller):
    """The file of a submission, for whoever is shown that there is one."""
    for one in seen_submissions(contest, caller):
        shown = submission_object(contest, one, caller)
        if shown["id"] == which and "files" in shown:
            return one["file"]
    raise Refused("NotFound")


def caller_of(contest, who):
    """The account that asks; None for the public."""
    if who == "public":
        return None
    digest = digest_of(who.encode())
    for account in contest["accounts"]:
        if account["digest"] == digest:
            return account
    raise Refused("UnknownToken")


@dataclass(frozen=True)
class Asked:
    """A request on a route: whose, when, and what the route's name and its path say."""

    contest: dict
    now: int
    caller: dict
    key: str
    method: str
    name: str
    which: str
    body: bytes


def clock_set(asked):
    """What an administrator is answered that sets the start or the thaw, by PATCH, has the contest last longer, or makes the results
    final."""
    contest, now = asked.contest, asked.now
    if asked.caller is None or asked.caller["role"] != "admin":
        raise Refused("RoleForbids")
    if asked.name != "finalize":
        change = clock_opinion.set_clock if asked.method == "PATCH" else clock_opinion.extend
        change(contest, now, asked.body)
        return contest_object(contest)
    clock_opinion.finalize(contest, now, [submission_id(contest, one) for one in contest["submissions"]])
    return state_object(contest, now)


def rejudged(asked):
    """What the jury is answered about rejudgings, and an analyst who reads them."""
    may = sees_all if asked.method in ("GET", "HEAD") else is_jury
    if not may(asked.caller):
        raise Refused("RoleForbids")
    known = [submission_id(asked.contest, one) for one in asked.contest["submissions"]]
    return rejudging_opinion.answered(asked.contest, asked.now, asked.caller, known, asked.method, asked.name, asked.which, asked.body)


def submitted(asked):
    return submission_object(asked.contest, submit(asked.contest, asked.now, asked.caller, asked.key, asked.body), asked.caller)


def clarified(asked):
    return clarification_object(asked.contest, clarify(asked.contest, asked.now, asked.caller, asked.key, asked.body), asked.caller)


def proposals_read(asked):
    if not sees_all(asked.caller):
        raise Refused("RoleForbids")
    return open_proposals(asked.contest, asked.caller)


def account_read(asked):
    """The caller's own account; the public has none."""
    if asked.caller is None:
        raise Refused("NotFound")
    return account_object(asked.caller)


def group_scoreboard(asked):
    if all(group["id"] != asked.which for group in asked.contest["groups"]):
        raise Refused("NotFound")
    return scoreboard(asked.contest, asked.now, asked.caller, asked.which)


def listed(asked):
    """A collection, or the object of it that has this id."""
    rows = collection(asked.contest, asked.now, asked.name, asked.caller)
    if asked.which is None:
        return rows
    for row in rows:
        if row["id"] == asked.which:
            return row
    raise Refused("NotFound")


REJUDGINGS = dict.fromkeys(("rejudgings", *rejudging_opinion.STEPS), rejudged)
# The routes under /jury/ that are for administrators alone.
ADMINISTRATORS = {
    "finalize": clock_set,
    "extension": clock_set,
    "accounts": row_added,
    "teams": row_added,
    "tokens": row_changed,
    "names": row_changed,
}
# By the name of a route, what a POST or PATCH is answered there, and what is read there; every other name is a collection.
CHANGES = {
    "contest": clock_set,
    **ADMINISTRATORS,
    "submissions": submitted,
    "clarifications": clarified,
    "proposals": lambda asked: propose(asked.contest, asked.now, asked.caller, asked.body),
    "verifications": lambda asked: verify(asked.contest, asked.now, asked.caller, asked.body),
    **REJUDGINGS,
}
READS = {
    "contests": lambda asked: [contest_object(asked.contest)],
    "contest": lambda asked: contest_object(asked.contest),
    "account": account_read,
    "state": lambda asked: state_object(asked.contest, asked.now),
    "scoreboard": lambda asked: scoreboard(asked.contest, asked.now, asked.caller),
    "group scoreboard": group_scoreboard,
    "event-feed": lambda asked: event_feed(asked.contest, asked.now, asked.caller),
    "files": lambda asked: file_of(asked.contest, asked.which, asked.caller),
    "proposals": proposals_read,
    **REJUDGINGS,
}


def value_of(contest, now, who, key, method, path, body):
    methods, name, which = offered(contest, path)
    if method not in methods:
        raise Refused("Method", " Allow: " + ", ".join(methods))
    asked = Asked(contest, now, caller_of(contest, who), key, method, name, which, body)
    return (CHANGES if method in ("POST", "PATCH") else READS).get(name, listed)(asked)


def told(value):
    """What is told of a value that is answered: bytes are a file, a feed is one, and all else is JSON, whose type isn't told."""
    if isinstance(value, bytes):
        return f"application/zip {value.decode(errors='surrogateescape')}"
    return f"{feed_opinion.CONTENT} {value}" if isinstance(value, feed_opinion.Feed) else compact(value)


def handled(contest, now, who, key, method, path, body):
    """What is answered to a request, and the contest after it."""
    after = copy.deepcopy(contest) if method in ("POST", "PATCH") else contest
    try:
        return f"200 {told(value_of(after, now, who, key, method, path, body))}", after
    except Refused as refused:
        name, field = refused.args[0], refused.args[1] if len(refused.args) > 1 else ""
        field = " WWW-Authenticate: Bearer" if name == "UnknownToken" else field
        return f"{STATUSES[name]}{field} " + compact({"code": STATUSES[name], "message": name}), contest
