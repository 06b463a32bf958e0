#!/usr/bin/env -S python3 -B
"""Runs `desk audit` on the tables under tests/data/tables, on every member that is off its form, and at the limits.

    audit_tables.py [--program PATH] [--large]

audit.txt has feeds with what is answered, some of them beside another system's board, and audit_words.tsv words that are refused.
Then come lines that are no events and ones that change nothing, each member of each object with each value that it may not have,
alone and in an array, as many objects of each kind as there may be and one more, a thousand in an array, lines of 16 MiB, boards
that are none, and streams that fail. What a feed gives is also asked of lib/audit_opinion.py. With --large feeds of 1 GiB and of
one byte more come through a pipe, and the program takes 100 MB at most for them.

Ends with the line `N passed, M failed`; the exit status is 0 if M is 0.
"""

import os
import subprocess
import sys
import threading

from lib import audit_opinion, board_maker, feed_spoiler, program
from lib.feed_spoiler import FORMS, MEMBERS, WHOLE, event, with_member
from lib.program import DATA, ran
from lib.tally import Tally

TABLES = DATA / "tables"
LINE_LIMIT, FEED_LIMIT, BOARD_LIMIT = 16_777_216, 1_073_741_824, 16_777_216
BASE = [event(kind, row) for kind, row in WHOLE.items()]
BOARD = b"X\nPublic board, contest time 5:00:00.000, frozen\nRank  Team   Solved    Time          A\n   1  Alpha       1      10      +1/10\n"
SHOWN, TOO_LARGE, MALFORMED = (0, BOARD, b""), (1, b"", b"refused: E6 BodyTooLarge\n"), (1, b"", b"refused: E1 Malformed\n")
FILE = (1, b"", b"refused: File\n")
MEMORY = 100_000  # kilobytes


def rejected(number, cause):
    return 1, b"", f"refused: E22 ImportRow {number} {cause}\n".encode()


def feed(*lines):
    return b"".join(line + b"\n" for line in lines)


class Audit(Tally):
    """The program, a folder, and what was counted."""

    def __init__(self, options, folder):
        super().__init__()
        self.program, self.folder, self.options = options.program.resolve(), folder, options

    def run(self, words, data=b"", **how):
        how = how or {"input": data}
        return ran([self.program, *words], cwd=self.folder, **how)

    def audit(self, what, wanted, data, words=(), there=None):
        """The program and the second opinion give this for a feed, beside a board of another system if there is one."""
        words = ["audit", *words]
        if there is not None:
            (self.folder / "board").write_bytes(there)
        given, other = self.run(words, data), audit_opinion.audit(words, data, there)
        self.note(given == wanted == other, f"{what}: {given!r:.600}, second opinion {other!r:.600}, wanted {wanted!r:.600}")


# --- Feeds that stand in a file ----------------------------------------------------------------------


def cases():
    """The cases of audit.txt: the title, and pieces, each with the line that begins it, `` for a piece of the feed."""
    text = (TABLES / "audit.txt").read_text(encoding="utf-8")
    for case in text.split("\n== ")[1:]:
        title, _, rest = case.partition("\n")
        pieces = [("", [])]
        for line in rest.rstrip("\n").split("\n"):
            if line == "$" or line.startswith(("$ ", "> ")):
                pieces.append((line, []))
                continue
            if pieces[-1][0].startswith("$") and line.startswith("{"):
                pieces.append(("", []))
            pieces[-1][1].append(line)
        yield title, pieces


def answer_of(lines):
    """The status, standard output and standard error that the lines of an answer tell."""
    told = [line for line in lines if line.startswith(("refused: ", "left out: "))]
    shown = [line for line in lines if line not in told]
    out, err = ("".join(f"{line}\n" for line in part).encode() for part in (shown, told))
    return (1 if err.startswith(b"refused") else 3 if out.startswith(b"team ") else 0), out, err


def try_worked(test):
    base = []
    for title, pieces in cases():
        data, board = [], None
        for head, lines in pieces:
            if head.startswith("$"):
                test.audit(f"{title}, {head}", answer_of(lines), "".join(f"{line}\n" for line in data).encode(), head[1:].split(), board)
            elif head == "> board":
                board = "\n".join(lines).encode()
            else:
                data += [one for line in lines for one in (base if line == "..." else [line])]
        base = base or data


def try_words(test):
    """Reading a folder fails, so words that were refused only after that would give status 1."""
    lines = (TABLES / "audit_words.tsv").read_text(encoding="utf-8").splitlines()
    for status, said, words in (line.split("\t") for line in lines if not line.startswith("#")):
        given = test.run(words.split())
        is_right = given[0] == int(status) and given[1] == b"" and given[2].startswith(said.encode())
        if status == "2":
            unread = os.open("/", os.O_RDONLY)
            is_right = is_right and test.run(words.split(), stdin=unread) == given
            os.close(unread)
        test.note(is_right, f"{words!r}: {given}")
    for words in (["--help"], ["-h"], ["--jury", "--help"], ["--against", "-h"]):
        status, out, err = test.run(["audit", *words])
        test.note(status == 0 and out != b"" and err == b"", f"{words}: {status}, {out!r}, {err!r}")


# --- Lines and members ---------------------------------------------------------------------------------


def try_lines(test):
    """Lines of any form, behind a feed and as its last line without an end."""
    for line in feed_spoiler.GOOD_LINES:
        test.audit(f"a line {line[:80]!r}", SHOWN, feed(*BASE, line))
    test.audit("all of these", SHOWN, feed(*feed_spoiler.GOOD_LINES[:5], *BASE, *feed_spoiler.GOOD_LINES))
    for line in feed_spoiler.BAD_LINES + feed_spoiler.BAD_EVENTS:
        test.audit(f"a line {line[:80]!r}", rejected(8, "Malformed"), feed(*BASE, line, b"}"))
        test.audit(f"a last line {line[:80]!r}", rejected(9, "Malformed"), feed(*BASE, b"") + line)


def try_members(test):
    """Each member with each value that it may not have, and where it is null or absent."""
    for (kind, name), (form, may_be_null) in MEMBERS.items():
        for value in FORMS[form]:
            row = with_member(kind, name, value)
            lines = [event(kind, row), event(kind, [WHOLE[kind], row]), event(kind, row, op="update", id="17")]
            for line in lines:
                test.audit(f"{kind} {name} {value!r}", rejected(8, "Malformed"), feed(*BASE, line, event(kind, WHOLE[kind])))
        for row in (with_member(kind, name, None), {key: value for key, value in with_member(kind, name, 0).items() if key != name}):
            given = audit_opinion.audit(["audit"], feed(*BASE, event(kind, row)))
            test.note((given[0] == 0) == may_be_null, f"{kind} without {name}: the second opinion gives {given}")
            test.audit(f"{kind} without {name}", given, feed(*BASE, event(kind, row)))


# --- Limits --------------------------------------------------------------------------------------------


def rows_of(kind, count):
    """As many objects of a kind beside the one that stands."""
    label = (lambda n: {"label": f"L{n}"}) if kind == "problems" else lambda n: {}
    return [{**WHOLE[kind], "id": f"n{n}", **label(n)} for n in range(1, count)]


def try_limits(test):
    """As many objects of each kind as there may be, one more, and then one less, by events and at once."""
    for kind, limit in (("judgement-types", 40), ("problems", 40), ("groups", 50), ("teams", 500)):
        rows, gone = rows_of(kind, limit + 1), event(kind, None, id="n1")
        single, whole = [event(kind, row) for row in rows], [event(kind, [WHOLE[kind], *rows])]
        for what, lines, number in (("one by one", single, 7 + limit), ("at once", whole, 8)):
            test.audit(f"{limit + 1} {kind} {what}", rejected(number, "TableFull"), feed(*BASE, *lines))
            given = audit_opinion.audit(["audit"], feed(*BASE, *lines, gone))
            test.note(given[0] == 0, f"{limit} {kind} {what}: the second opinion gives {given}")
            test.audit(f"{limit} {kind} {what}", given, feed(*BASE, *lines, gone))
    *rows, last = rows_of("problems", 41)
    lines = [event("problems", row) for row in (*rows, {**last, "label": "L1"})]
    test.audit("a 41st problem with a label that another has", rejected(47, "KeyReused"), feed(*BASE, *lines))


def submission(number, time, team="t1"):
    return event("submissions", {**WHOLE["submissions"], "id": f"n{number}", "contest_time": time, "team_id": team})


def try_submissions(test):
    """500 submissions of a team that count, and more that don't or are another team's."""
    others = [submission(number, time) for number, time in ((1, "-0:00:01"), (2, "5:00:00"), (3, "9:00:00"))]
    beta = [event("teams", {"id": "t2", "name": "Beta"}), submission(4, "0:01:00", "t2")]
    most = [submission(number, "0:20:00") for number in range(10, 509)]
    left = b"left out: 3 submissions, 0 judgements\n"
    board = BOARD + b"   2  Beta        0       0         ?1\n"
    test.audit("500 that count", (0, board, left), feed(*BASE, *others, *most, *beta))
    test.audit("501 that count", rejected(510, "TableFull"), feed(*BASE, *others, *most, submission(600, "0:20:00"), *beta))
    test.audit("501, of which one is corrected", (0, board, b"left out: 4 submissions, 0 judgements\n"),
               feed(*BASE, *others, *most, submission(600, "0:20:00"), *beta, submission(600, "5:00:00")))  # fmt: skip
    test.audit("501, of which the first is named again", rejected(510, "TableFull"),
               feed(*BASE, *others, *most, submission(600, "0:20:00"), *beta, BASE[5]))  # fmt: skip


def try_arrays(test):
    """A thousand objects in an array and one more, and as many events with one object each."""
    team_of = [f"t{number % 3 + 1}" for number in range(1_001)]
    teams = [event("teams", {"id": name, "name": f"Team {name}"}) for name in ("t2", "t3")]
    runs = [{**WHOLE["submissions"], "id": f"n{number}", "team_id": team} for number, team in enumerate(team_of)]
    verdicts = [{**WHOLE["judgements"], "id": f"v{number}", "submission_id": run["id"]} for number, run in enumerate(runs)]
    events = [event("submissions", None, id="s1"), *(event("submissions", run) for run in runs)]
    events += [event("judgements", None, id="j1"), *(event("judgements", verdict) for verdict in verdicts)]
    wanted = audit_opinion.audit(["audit"], feed(*BASE, *teams, *events))
    test.note(wanted[0] == 0 and wanted[1].count(b"+1/10") == 3, f"1,001 submissions: the second opinion gives {wanted}")
    test.audit("1,001 submissions and verdicts one by one", wanted, feed(*BASE, *teams, *events))
    arrays = [event("submissions", runs), event("judgements", verdicts)]
    test.audit("1,001 submissions and verdicts at once", wanted, feed(*BASE, *teams, *arrays))


def try_sizes(test):
    """A line may have so many bytes and none more, and that is told before its form."""
    last = BASE[-1]
    for what, line, wanted in (
        ("spaces", b" ".ljust(LINE_LIMIT), SHOWN), ("a space more", b" ".ljust(LINE_LIMIT + 1), TOO_LARGE),
        ("an event", last.ljust(LINE_LIMIT), SHOWN), ("an event and a space more", last.ljust(LINE_LIMIT + 1), TOO_LARGE),
        ("no event", b"x" * LINE_LIMIT, rejected(8, "Malformed")), ("no event, and longer", b"x" * (LINE_LIMIT + 1), TOO_LARGE),
    ):  # fmt: skip
        test.audit(f"a line of {what}", wanted, feed(*BASE, line))
        test.audit(f"a last line of {what}", wanted, feed(*BASE) + line)
    test.audit("a line that is too long before a fault", TOO_LARGE, feed(*BASE, b" " * (LINE_LIMIT + 1), b"{"))
    test.audit("a fault before a line that is too long", rejected(8, "Malformed"), feed(*BASE, b"{", b"x" * (LINE_LIMIT + 1)))
    runs = event("submissions", [{**WHOLE["submissions"], "x": "y" * 30_000} for _ in range(540)])
    test.note(15_000_000 < len(runs) <= LINE_LIMIT, f"a collection of {len(runs)} bytes")
    test.audit("a whole collection in a line", SHOWN, feed(*BASE, runs))


def through_pipe(test, pieces, words=()):
    """What the program answers to a feed that comes through a pipe, and the kilobytes that it takes at most."""
    running = subprocess.Popen([test.program, "audit", *words], stdin=subprocess.PIPE, stdout=subprocess.PIPE, stderr=subprocess.PIPE)

    def write():
        try:
            for piece in pieces:
                running.stdin.write(piece)
            running.stdin.close()
        except BrokenPipeError:
            pass

    writer = threading.Thread(target=write)
    writer.start()
    out, err = running.stdout.read(), running.stderr.read()
    _, status, usage = os.wait4(running.pid, 0)
    writer.join()
    running.returncode = os.waitstatus_to_exitcode(status)
    return (running.returncode, out, err), usage.ru_maxrss


def filled(more):
    """The pieces of a feed of 1 GiB, in lines of 1 MiB, and what is more."""
    base, line = feed(*BASE), b" " * 1_048_575 + b"\n"
    whole, rest = divmod(FEED_LIMIT - len(base), len(line))
    yield base
    for _ in range(whole):
        yield line
    yield b" " * (rest - 1) + b"\n"
    yield more


def try_large(test):
    """Feeds of as many bytes as there may be, and of one more. They come first: Linux counts into a program's memory what this process
    had when it started it."""
    if not test.options.large:
        return
    for what, more in (("1 GiB", b""), ("a space more", b" "), ("a line's end more", b"\n"), ("a fault more", b"x")):
        wanted = TOO_LARGE if more else SHOWN
        given, memory = through_pipe(test, filled(more))
        test.note(given == wanted and memory <= MEMORY, f"{what}: {given}, with {memory:,} kB; wanted {wanted}")
    given, memory = through_pipe(test, (b"x" * 1_048_576 for _ in range(1024)))
    test.note(given == TOO_LARGE and memory <= MEMORY, f"a line of 1 GiB: {given}, with {memory:,} kB")


# --- Boards there, and streams -------------------------------------------------------------------------


def try_boards(test):
    """Boards there that are none, which is told before any fault of the feed; and as large as they may be."""
    cell = {"problem_id": "a", "num_judged": 1, "num_pending": 0, "solved": True, "time": 10}
    row = {"rank": 1, "team_id": "t1", "score": {"num_solved": 1, "total_time": 10}, "problems": [cell]}
    good, same = board_text([row]), (0, b"the same: 1 teams\n", b"")
    test.audit("the same board", same, feed(*BASE), ["--against", "board"], good)
    for there in board_maker.BAD_BOARDS:
        test.audit(f"a board {there!r}", MALFORMED, feed(b"{"), ["--against", "board"], there)
    spoiled = [{**row, name: value} for name, values in board_maker.BAD_ROWS.items() for value in values if (name, value) != ("problems", None)]
    spoiled += [{**row, "score": {**row["score"], name: value}} for name, values in board_maker.BAD_SCORES.items() for value in values]
    spoiled += [{**row, "problems": [{**cell, name: value}]} for name, values in board_maker.BAD_CELLS.items() for value in values]
    for one in [[one] for one in spoiled] + [[row, row], [{**row, "problems": [cell, cell]}]]:
        test.audit(f"a board of {one}", MALFORMED, feed(*BASE), ["--against", "board"], board_text(one))
    test.audit("a board of 16 MiB", same, feed(*BASE), ["--against", "board"], good.ljust(BOARD_LIMIT))
    test.audit("a board of a byte more", TOO_LARGE, feed(b"{"), ["--against", "board"], good.ljust(BOARD_LIMIT + 1))
    test.audit("a fault of the feed", rejected(8, "Malformed"), feed(*BASE, b"{"), ["--against", "board"], good)


def board_text(rows):
    return event("x", {"rows": rows}).removeprefix(b'{"type": "x", "data": ').removesuffix(b"}")


def try_streams(test):
    """Standard input and output that fail, and a board there that can't be read, which is told first."""
    data = feed(*BASE)
    for words, wanted in ((["audit"], FILE), (["audit", "--against", "none"], FILE), (["audit", "--against", "."], FILE)):
        unread = os.open("/", os.O_RDONLY)
        test.same(f"{words} of a folder", test.run(words, stdin=unread), wanted)
        os.close(unread)
    test.same("a board that isn't there", test.run(["audit", "--against", "none"], feed(b"{")), FILE)
    with open("/dev/full", "wb") as full:
        status, _, err = test.run(["audit"], input=data, stdout=full)
    test.same("an output that is full", (status, err), (FILE[0], FILE[2]))


if __name__ == "__main__":
    PARTS = (try_large, try_worked, try_words, try_lines, try_members, try_limits, try_submissions, try_arrays, try_sizes,
             try_boards, try_streams)  # fmt: skip
    sys.exit(program.main(__doc__, Audit, PARTS, program="desk", large=False))
