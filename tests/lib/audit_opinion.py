"""A second opinion on `desk audit`: the plainest reading of an event feed.

    python3 -m lib.audit_opinion [--jury] [--thawed] [--at RELTIME] [--against PATH]  < FEED

docs/FORMATS.md says which feeds are read, in which order they are refused, and how a board is held beside another system's. A feed
becomes the contest of a replay, whose board replay_opinion.py prints. What stands is kept in dictionaries: Python's keep the place
of what is replaced, and put what was taken out and comes again at the end.

Sources: the event feed and the scoreboard of the ICPC Contest API 2020-03, 2022-07 and 2023-06.
"""

import pathlib
import sys

from . import replay_opinion
from .import_opinion import is_id, is_name, is_ordinal, is_truth, json_of, member, number_to, penalty_of, span
from .replay_opinion import Contest, Fault, Refused, Shown, WrongWords, board_rows, board_text, columns_of, reltime

LINE_LIMIT = 16_777_216  # bytes
FEED_LIMIT = 1_073_741_824  # bytes
BOARD_LIMIT = 16_777_216  # bytes
TEAM_LIMIT = 500  # submissions of one team that count
LIMITS = {"judgement-types": 40, "problems": 40, "groups": 50, "teams": 500}
OPS = ("create", "update", "delete")
is_number = number_to(4_294_967_295)

# --- The forms of objects --------------------------------------------------------------------------
# Each takes a JSON object, and gives what is used of it, or raises Fault("Malformed").


def time_of(row, name, usual=None):
    """The milliseconds of a RELTIME, which may be below zero; one that is absent is as usual, if it may be absent."""
    text = member(row, name, lambda value: isinstance(value, str), "" if usual else None)
    return usual if text == "" and row.get(name) is None else reltime(text.encode())


def first_name(row, *names):
    """The first of these members that is there has to be a name."""
    given = [name for name in names if row.get(name) is not None]
    return member(row, (given or names)[0], is_name)


def contest_of(row):
    freeze = row.get("scoreboard_freeze_duration")
    made = {"name": first_name(row, "formal_name", "name"), "duration": span(row.get("duration"))}
    made["freeze"] = None if freeze is None else span(freeze)
    if not 0 < made["duration"] <= replay_opinion.LONGEST_DURATION or (made["freeze"] or 0) > made["duration"]:
        raise Fault("Malformed")
    made["penalty"] = penalty_of(member(row, "penalty_time", lambda _: True, 20))
    return made


def type_of(row):
    return member(row, "name", is_name), member(row, "solved", is_truth, False), member(row, "penalty", is_truth, False)


def problem_of(row):
    return member(row, "label", is_name), member(row, "name", is_name), member(row, "ordinal", is_ordinal)


def group_of(row):
    return member(row, "hidden", is_truth, False)


def team_of(row):
    groups = member(row, "group_ids", lambda ids: isinstance(ids, list) and all(map(is_id, ids)), [])
    return first_name(row, "display_name", "name"), groups, member(row, "hidden", is_truth, False)


def submission_of(row):
    return member(row, "team_id", is_id), member(row, "problem_id", is_id), time_of(row, "contest_time")


NEVER = replay_opinion.LONGEST_TIME * -2  # a judgement that doesn't say when it ended stands before all others


def judgement_of(row):
    verdict = member(row, "judgement_type_id", is_id, "") or None
    is_good = member(row, "valid", is_truth, True) & member(row, "current", is_truth, True)
    return member(row, "submission_id", is_id), verdict, time_of(row, "end_contest_time", NEVER), is_good


READERS = {
    "contest": contest_of,
    "judgement-types": type_of,
    "problems": problem_of,
    "groups": group_of,
    "teams": team_of,
    "submissions": submission_of,
    "judgements": judgement_of,
}

# --- Events ----------------------------------------------------------------------------------------


def event_of(line):
    """A line's own form, whatever its type is."""
    event = json_of(line)
    member(event, "type", lambda value: isinstance(value, str))
    member(event, "id", lambda value: isinstance(value, str), "")
    if not isinstance(event.get("data", 0), (dict, list, type(None))) or event.get("op", "create") not in OPS:
        raise Fault("Malformed")
    return event


def name_of(event, row):
    """The name of an object: its own, else that of the event; None if neither has one."""
    named = event.get("id") if row is None or row.get("id") is None else row["id"]
    if named is not None and not is_id(named):
        raise Fault("Malformed")
    return named


def took_away(rows, event):
    """What stands after an event that takes an object away, or all."""
    if isinstance(event["data"], list):
        raise Fault("Malformed")
    named = name_of(event, event["data"])
    return {key: row for key, row in rows.items() if named is not None and key != named}


def put_in(rows, line, named, row, reader):
    """An object that comes, with the number of its line."""
    if named is None:
        raise Fault("Malformed")
    rows[named] = (line, reader(row))


def taken_anew(line, event, reader):
    """A whole collection. Each object has its own id."""
    rows = {}
    if event.get("id") is not None:
        raise Fault("Malformed")
    for row in event["data"]:
        put_in(rows, line, member(row, "id", is_id), row, reader)
    return rows


def take(kept, line, text):
    """Takes a line in, with its number."""
    if text.strip(b" \t\r") == b"":
        return
    event = event_of(text)
    kind = "contest" if event["type"] == "contests" else event["type"]
    if kind not in READERS:
        return
    if event.get("op") == "delete" or event["data"] is None:
        kept[kind] = took_away(kept[kind], event)
    elif isinstance(event["data"], list):
        kept[kind] = taken_anew(line, event, READERS[kind])
    else:
        put_in(kept[kind], line, name_of(event, event["data"]), event["data"], READERS[kind])


def read_lines(data):
    """What stands at the end: of each kind the objects by their ids, each the number of its line and what is used of it."""
    kept, size, lines = {kind: {} for kind in READERS}, 0, data.split(b"\n")
    for number, text in enumerate(lines[:-1] if lines[-1] == b"" else lines, 1):
        size += len(text) + (number < len(lines))
        if len(text) > LINE_LIMIT or size > FEED_LIMIT:
            raise Refused("E6 BodyTooLarge")
        try:
            take(kept, number, text)
        except Fault as fault:
            raise Refused(f"E22 ImportRow {number} {fault}")
    return kept


# --- The contest at the end ------------------------------------------------------------------------


def counts(contest, submission):
    return 0 <= submission[2] < contest["duration"]


def has_unknown(kept, kind, row):
    """Whether an object names what doesn't stand."""
    if kind == "submissions":
        return row[0] not in kept["teams"] or row[1] not in kept["problems"]
    return kind == "judgements" and row[1] is not None and row[1] not in kept["judgement-types"]


def has_used_label(kept, kind, key):
    """Whether a problem has the label of one that was named before it."""
    if kind != "problems":
        return False
    order = sorted(kept["problems"], key=lambda one: kept["problems"][one][0])  # those of one line stay by place
    return any(kept["problems"][one][1][0] == kept["problems"][key][1][0] for one in order[: order.index(key)])


def is_over(kept, contest, kind, place, row):
    """Whether there is no room for an object."""
    if kind != "submissions" or not counts(contest, row):
        return place >= LIMITS.get(kind, len(kept[kind]))
    before = [one for _, one in list(kept[kind].values())[:place]]
    return sum(one[0] == row[0] and counts(contest, one) for one in before) >= TEAM_LIMIT


def faults(kept, contest):
    """The line, the place and the first cause of each object that is at fault."""
    for kind, rows in kept.items():
        for place, (key, (line, row)) in enumerate(rows.items()):
            if has_unknown(kept, kind, row):
                yield line, place, "UnknownReference"
            elif has_used_label(kept, kind, key):
                yield line, place, "KeyReused"
            elif is_over(kept, contest, kind, place, row):
                yield line, place, "TableFull"


def verdict_on(judgements, which):
    """The type of the judgement that ended last, of those that say one and hold."""
    said = [(end, place, verdict) for place, (submission, verdict, end, is_good) in enumerate(judgements)
            if submission == which and verdict is not None and is_good]  # fmt: skip
    return max(said)[2] if said else None


def spelled(kept):
    """The contest of a replay that stands, and how many submissions and judgements were left out."""
    if not kept["contest"]:
        raise Refused("E1 Malformed")
    _, head = next(iter(kept["contest"].values()))
    found = min(faults(kept, head), default=None)
    if found is not None:
        raise Refused(f"E22 ImportRow {found[0]} {found[2]}")
    rows = {kind: {key: row for key, (_, row) in rows.items()} for kind, rows in kept.items()}
    contest = Contest()
    contest.name, contest.duration, contest.penalty = head["name"], head["duration"], head["penalty"]
    contest.freeze = None if head["freeze"] is None else head["duration"] - head["freeze"]
    contest.types, contest.problems = rows["judgement-types"], rows["problems"]
    contest.teams = {key: (name, hidden or any(rows["groups"].get(one) for one in groups)) for key, (name, groups, hidden) in rows["teams"].items()}
    judged = {}
    for judgement in rows["judgements"].values():
        judged.setdefault(judgement[0], []).append(judgement)
    counted = {key: row for key, row in rows["submissions"].items() if counts(head, row)}
    for key, (team, problem, time) in sorted(counted.items(), key=lambda one: one[1][2]):
        contest.submissions.setdefault(team, []).append((problem, time, verdict_on(judged.get(key, []), key)))
    orphans = sum(judgement[0] not in rows["submissions"] for judgement in rows["judgements"].values())
    return contest, (len(rows["submissions"]) - len(counted), orphans)


def read_feed(data):
    """The contest that a feed spells, and what was left out; or Refused."""
    return spelled(read_lines(data))


# --- Beside another system's board -----------------------------------------------------------------


def minutes(row, name, usual):
    """A number of minutes, or a RELTIME that is cut to minutes."""
    value = member(row, name, lambda one: isinstance(one, str) or is_number(one), "")
    if value == "" and row.get(name) is None:
        return usual
    return span(value) // 60_000 if isinstance(value, str) else value


def rows_in(row, name, usual=None):
    return member(row, name, lambda value: isinstance(value, list) and all(isinstance(one, dict) for one in value), usual)


def by_id(pairs):
    """What stands under each id, each of them once."""
    if len(dict(pairs)) != len(pairs):
        raise Fault("Malformed")
    return dict(pairs)


def cell_there(row):
    numbers = [member(row, name, is_number, 0) for name in ("num_judged", "num_pending")]
    return member(row, "problem_id", is_id), (member(row, "solved", is_truth, False), minutes(row, "time", None), *numbers)


def row_there(row):
    score = member(row, "score", lambda value: isinstance(value, dict))
    total = minutes(score, "total_time", None)
    if total is None:
        raise Fault("Malformed")
    first = member(row, "rank", is_number), member(score, "num_solved", is_number), total
    return member(row, "team_id", is_id), (first, by_id([cell_there(one) for one in rows_in(row, "problems", [])]))


def read_board(data):
    """The rows of a scoreboard of the Contest API, by team: rank, solved and time, and the cells by problem; or Refused."""
    if len(data) > BOARD_LIMIT:
        raise Refused("E6 BodyTooLarge")
    try:
        return by_id([row_there(row) for row in rows_in(json_of(data), "rows")])
    except Fault as fault:
        raise Refused(f"E1 {fault}")


def told(value):
    """How a value is written in a difference."""
    return "none" if value is None else str(value).lower() if isinstance(value, bool) else str(value)


def unlike(front, names, ours, theirs):
    """A line for each value that isn't the same."""
    return [f"{front}: {name} {told(one)}, there {told(other)}" for name, one, other in zip(names, ours, theirs) if one != other]


def row_differences(contest, row, columns, there):
    """What differs in a row of ours: its numbers, its cells, and cells there that we don't have."""
    first, cells = there
    front = f"team {row.team}"
    found = unlike(front, ("rank", "solved", "time"), (row.rank, row.solved, row.total), first)
    for problem, cell in zip(columns, row.cells):
        ours = cell.solved is not None, cell.solved, cell.judged, cell.pending
        label = contest.problems[problem][0]
        found += unlike(f"{front}: problem {label}", ("solved", "time", "judged", "pending"), ours, cells.get(problem, (False, None, 0, 0)))
    return found + [f"{front}: problem {problem}: there alone" for problem in cells if problem not in columns]


def differences(contest, shown, there):
    """The lines, and how many rows are ours."""
    columns = columns_of(contest)
    rows, found = board_rows(contest, shown, columns), []
    for row in rows:
        found += row_differences(contest, row, columns, there[row.team]) if row.team in there else [f"team {row.team}: here alone"]
    ours = {row.team for row in rows}
    return found + [f"team {team}: there alone" for team in there if team not in ours], len(rows)


# --- The command -----------------------------------------------------------------------------------


def read_words(words):
    """The options (jury, thawed, at, against) of a command line that begins with the word `audit`."""
    rest, against = [], []
    words = list(words)
    while words:
        word = words.pop(0)
        option, equals, value = word.partition("=")
        if option != "--against" or rest[-1:] == ["--"]:
            rest.append(word)
            continue
        if not equals and (not words or words[0].startswith("-")):
            raise WrongWords
        against.append(value if equals else words.pop(0))
    if rest[:1] != ["audit"] or len(against) > 1 or "" in against:
        raise WrongWords
    return *replay_opinion.read_words(["replay", *rest[1:]]), against[0] if against else None


def compared(contest, shown, there):
    """The status and the text of a board held beside another."""
    found, count = differences(contest, shown, there)
    return (3 if found else 0), "".join(f"{line}\n" for line in found) if found else f"the same: {count} teams\n"


def audit(words, data, there=None):
    """What the command gives: its status, standard output and standard error. The bytes of the board there are given beside the
    feed; None for a file that can't be read."""
    try:
        jury, thawed, at, against = read_words(words)
        if against is not None and there is None:
            raise Refused("File")
        board = None if against is None else read_board(there)
        contest, left = read_feed(data)
    except WrongWords:
        return 2, b"", b"usage: audit [--jury] [--thawed] [--at RELTIME] [--against PATH]\n"
    except Refused as refusal:
        return 1, b"", f"refused: {refusal}\n".encode()
    shown = Shown(contest, jury, thawed, at)
    status, text = (0, board_text(contest, shown)) if board is None else compared(contest, shown, board)
    said = "left out: {} submissions, {} judgements\n".format(*left) if any(left) else ""
    return status, text.encode(), said.encode()


def main():
    words = ["audit", *sys.argv[1:]]
    try:
        path = read_words(words)[3]
    except WrongWords:
        path = None
    status, out, err = audit(words, sys.stdin.buffer.read(), pathlib.Path(path).read_bytes() if path else None)
    sys.stdout.buffer.write(out)
    sys.stderr.buffer.write(err)
    return status


if __name__ == "__main__":
    sys.exit(main())
