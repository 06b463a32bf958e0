#!/usr/bin/env -S python3 -B
"""Refuses each call for memory of `desk replay` and `desk audit` in turn, and holds what they then answer.

    replay_memory.py [--program PATH]
    replay_memory.py --try N [N ..]

A refused call may change the answer in one way only: status 1, nothing on standard output, and the line `refused: E25
Memory`. Else the answer must be the one that the program gives with all its memory.

The first form runs the built program with lib/refuse_call.c loaded into it (this takes a C compiler named cc). Each case is
run with its first call refused, its second, and so on until a run comes to its end with no call refused; and all that again
with every later call refused as well. Of each case some calls have to be refused, and some of these answered so.

The second form has `rt try --fail-alloc N` refuse allocation N instead, in an unproved build that checks each access and each
sum as it runs. It takes the cases of `replay` with no option, and builds the program of `replay` alone anew for each N, which takes
about a minute.

Ends with the line `N passed, M failed`; the exit status is 0 if M is 0.
"""

import re
import subprocess
import sys

from lib import audit_opinion, program, replay_opinion
from lib.beside import agree
from lib.feed_spoiler import WHOLE, event
from lib.program import ROOT, compiled, ran, ran_refused
from lib.tally import Tally

REFUSED = (1, b"", b"refused: E25 Memory\n")
EXAMPLE = (ROOT / "examples/first.csv").read_bytes()
UNKNOWN_TEAM = EXAMPLE.replace(b"submission,t2", b"submission,t7")
FEED = b"".join(event(kind, row) + b"\n" for kind, row in WHOLE.items())
ARRAYS = b"".join(event(kind, [row, {**row, "id": "b"}]) + b"\n" for kind, row in WHOLE.items() if kind not in ("contest", "problems"))
TEAM_LESS = FEED + b"\n" + event("teams", None) + b"\n"
# Another system's board stands in a file of this name.
BOARD = event("x", {"rows": [{"rank": 1, "team_id": "t1", "score": {"num_solved": 1, "total_time": "0:30:00"}, "problems": [{"problem_id": "b"}]}]})
BOARD = BOARD.removeprefix(b'{"type": "x", "data": ').removesuffix(b"}")
CASES = [
    ("the first example", ["replay"], EXAMPLE),
    ("an unknown team", ["replay"], UNKNOWN_TEAM),
    ("a second contest", ["replay"], EXAMPLE + b"contest,demo,Demo Cup,5:00:00,1:00:00\n"),
    ("no contest", ["replay"], b"kind,id,f1,f2,f3\n"),
    ("a file over the limit", ["replay"], EXAMPLE + b"\n" * 16_777_216),
    ("all options", ["replay", "--jury", "--thawed", "--at", "5:00:00"], EXAMPLE),
    ("the larger example", ["replay"], (ROOT / "examples/autumn.csv").read_bytes()),
    ("wrong words", ["replay", "--at", "7"], EXAMPLE),
    ("a feed", ["audit", "--jury"], FEED),
    ("whole collections", ["audit"], FEED + ARRAYS),
    ("what is taken away", ["audit"], TEAM_LESS),
    ("a line that is none", ["audit"], FEED + b"{"),
    ("a board beside another", ["audit", "--against", "board"], FEED),
]


def opinion(words, data):
    """What the second opinion gives."""
    return audit_opinion.audit(words, data, BOARD) if words[0] == "audit" else replay_opinion.replay(words, data)


class Replay(Tally):
    """The program, a folder, and what was counted."""

    def __init__(self, options, folder):
        super().__init__()
        self.program, self.folder, self.numbers = options.program.resolve(), folder, vars(options)["try"]
        (folder / "board").write_bytes(BOARD)

    def with_memory(self, title, words, data):
        """What the program answers with all its memory, which must be what the second opinion gives."""
        answer = ran([self.program, *words], input=data, cwd=self.folder)
        if not agree(opinion(words, data), answer):
            sys.exit(f"{title}: isn't what the second opinion gives: {answer!r:.300}")
        return answer


def refuse_each(replay, library, title, words, data, later):
    """Refuses each call of one case."""
    wanted, call, refused, same, told = replay.with_memory(title, words, data), 0, 1, 0, 0
    while refused:
        call += 1
        given, refused = ran_refused([replay.program, *words], library, call, later, input=data, cwd=replay.folder)
        replay.note(given in (wanted, REFUSED), f"{title}: call {call} refused: {given!r:.300}")
        same += refused > 0 and given == wanted
        told += given == REFUSED
    ways = "each from one on" if later else "each alone"
    replay.note(told > 0, f"{title}, {ways}: {call - 1} calls refused, and {told} answered E25")
    print(f"{title}, {ways}: {call - 1} calls refused, {same} of them without any change")


def refuse_built(replay):
    library = compiled("refuse_call", replay.folder)
    for case in CASES:
        for later in (False, True):
            refuse_each(replay, library, *case, later)


def tried(crate, folder, number):
    """What `rt try` says that each case of the folder answers with this allocation refused."""
    words = ["rt", "try", "--fail-alloc", str(number), "--cases", folder]
    done = subprocess.run(words, cwd=crate, stdin=subprocess.DEVNULL, capture_output=True)
    parts = re.split(rb"^== (\S+)\n", done.stdout, flags=re.M)
    outs = dict(zip(parts[1::2], parts[2::2]))
    answers, err = {}, b""
    for line in done.stderr.splitlines(keepends=True):
        case = re.match(rb"case=(\S+) run=ended status=(\d+) ", line)
        if case:
            answers[case[1].decode()] = int(case[2]), outs.get(case[1], b""), err
        err = b"" if line.startswith(b"case=") else err + line
        err = re.sub(rb"^allocations: .*\n", b"", err, flags=re.M)
    return answers


def refuse_unproved(replay):
    cases = [(f"case{place}", *case) for place, case in enumerate(CASES) if case[1] == ["replay"]]
    for name, _, words, data in cases:
        (replay.folder / name).write_bytes(data)
        (replay.folder / f"{name}.args").write_text("".join(f"{word}\n" for word in words[1:]))
    for number in replay.numbers:
        answers = tried(ROOT / "crates/quick_replay", replay.folder, number)
        for name, title, words, data in cases:
            wanted, given = replay.with_memory(title, words, data), answers.get(name)
            replay.note(given in (wanted, REFUSED), f"allocation {number} refused, {title}: {given!r:.300}")


def try_refusals(replay):
    (refuse_unproved if replay.numbers else refuse_built)(replay)


if __name__ == "__main__":
    sys.exit(program.main(__doc__, Replay, [try_refusals], program="desk", **{"try": []}))
