#!/usr/bin/env python3
"""Writes a large replay file without a fault to standard output.

    generate_replay.py TEAMS PROBLEMS SUBMISSIONS_PER_TEAM [SEED]

A contest of five hours, frozen for the last one. One team in fifty is hidden. The submissions stand
in the order of their times, as a contest's log does; two in eleven are accepted.
"""

import random
import sys

DURATION = 18_000_000  # milliseconds
HEAD = """kind,id,f1,f2,f3
contest,large,Large Cup,5:00:00,1:00:00
type,AC,correct,true,false
type,WA,wrong answer,false,true
type,CE,compile error,false,false
"""


def reltime(time):
    seconds, millis = divmod(time, 1000)
    return f"{seconds // 3600}:{seconds // 60 % 60:02}:{seconds % 60:02}.{millis:03}"


def submissions(rng, teams, problems, each):
    """The submissions by time: (time, team, problem, verdict)."""
    rows = []
    for team in range(teams):
        for _ in range(each):
            verdict = rng.choices(["AC", "WA", "CE", ""], [2, 7, 1, 1])[0]
            rows.append((rng.randrange(DURATION), team, rng.randrange(problems), verdict))
    return sorted(rows)


def write_replay(out, teams, problems, each, seed):
    rng = random.Random(seed)
    out.write(HEAD)
    for problem in range(problems):
        out.write(f"problem,p{problem},P{problem},Problem {problem},{problem}\n")
    for team in range(teams):
        hidden = "true" if team % 50 == 49 else ""
        out.write(f"team,t{team},Team number {team},{hidden},\n")
    for time, team, problem, verdict in submissions(rng, teams, problems, each):
        out.write(f"submission,t{team},p{problem},{reltime(time)},{verdict}\n")


if __name__ == "__main__":
    counts = [int(word) for word in sys.argv[1:4]]
    write_replay(sys.stdout, *counts, seed=int(sys.argv[4]) if len(sys.argv) > 4 else 1)
