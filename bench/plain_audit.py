#!/usr/bin/env python3
"""Reads an event feed without a fault on standard input, and prints its public board, as `desk audit` does.

The plain program beside which bench/audit measures the desk: one line after the other by json.loads, what stands in dictionaries,
and nothing looked at that a feed without a fault has right. It takes feeds as bench/audit writes them, with names of one column a
character.
"""

import json
import sys

USED = ("contest", "judgement-types", "problems", "groups", "teams", "submissions", "judgements")


def milliseconds(text):
    hours, minutes, seconds = text.split(":")
    return (int(hours) * 60 + int(minutes)) * 60_000 + round(float(seconds) * 1000)


def read(lines):
    """What stands of each kind at the end, by id."""
    kept = {kind: {} for kind in USED}
    for line in lines:
        event = json.loads(line) if line.strip() else {"type": ""}
        rows, data = kept.get(event["type"]), event.get("data")
        if rows is None:
            continue
        if isinstance(data, list):
            kept[event["type"]] = {row["id"]: row for row in data}
        elif data is None:
            rows.pop(event["id"], None)
        else:
            rows[data["id"]] = data
    return kept


def verdicts(kept):
    """The type of each submission's last judgement."""
    found = {}
    for place, one in enumerate(kept["judgements"].values()):
        if one.get("judgement_type_id") and one.get("valid", True) and one.get("current", True):
            end = milliseconds(one["end_contest_time"]) if one.get("end_contest_time") else -1
            found[one["submission_id"]] = max(found.get(one["submission_id"], (-2,)), (end, place, one["judgement_type_id"]))
    return {which: said[2] for which, said in found.items()}


def attempts(kept):
    """The attempts of each team at each problem, by time: the time, and the verdict's type."""
    said, found = verdicts(kept), {}
    for one in kept["submissions"].values():
        key = one["team_id"], one["problem_id"]
        found.setdefault(key, []).append((milliseconds(one["contest_time"]), said.get(one["id"])))
    return {key: sorted(tries, key=lambda one: one[0]) for key, tries in found.items()}


def cell(tries, types, freeze):
    """How many attempts are judged and pending, the minute of the one that solved, and the penalties before it."""
    judged = pending = penalties = 0
    for time, verdict in tries:
        if verdict is None or time >= freeze:
            pending += 1
            continue
        judged += 1
        if types[verdict].get("solved"):
            return judged, pending, time // 60_000, penalties
        penalties += bool(types[verdict].get("penalty"))
    return judged, pending, None, penalties


def text_of(judged, pending, solved):
    text = f"+{judged}/{solved}" if solved is not None else f"-{judged}" if judged else ""
    return text + (f"?{pending}" if pending else "") or "."


def main():
    kept = read(sys.stdin.buffer)
    contest, types = next(iter(kept["contest"].values())), kept["judgement-types"]
    freeze = milliseconds(contest["duration"]) - milliseconds(contest["scoreboard_freeze_duration"])
    problems = sorted(kept["problems"].values(), key=lambda one: (one["ordinal"], one["id"]))
    hidden, tries, rows = {key for key, group in kept["groups"].items() if group.get("hidden")}, attempts(kept), []
    for team in kept["teams"].values():
        if team.get("hidden") or hidden & set(team.get("group_ids", [])):
            continue
        cells = [cell(tries.get((team["id"], one["id"]), []), types, freeze) for one in problems]
        solved = [(minute, penalties) for _, _, minute, penalties in cells if minute is not None]
        total = sum(minute + 20 * penalties for minute, penalties in solved)
        rows.append(((-len(solved), total, max((minute for minute, _ in solved), default=0)), team["name"], team["id"], cells))
    rows.sort(key=lambda row: (row[0], row[1].encode(), row[2].encode()))
    names = max([4, *(len(row[1]) for row in rows)])
    out = [contest["name"], f"Public board, contest time {contest['duration']}, frozen"]
    out.append("  ".join(["Rank", "Team".ljust(names), "Solved", "  Time", *(one["label"].rjust(9) for one in problems)]))
    rank = 0
    for place, (key, name, _, cells) in enumerate(rows, 1):
        rank = place if place == 1 or rows[place - 2][0] != key else rank
        shown = [text_of(*one[:3]).rjust(9) for one in cells]
        out.append("  ".join([str(rank).rjust(4), name.ljust(names), str(-key[0]).rjust(6), str(key[1]).rjust(6), *shown]))
    print("\n".join(out))


if __name__ == "__main__":
    main()
