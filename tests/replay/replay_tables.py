#!/usr/bin/env -S python3 -B
"""Runs the program on the tables under tests/data/tables, on other spellings of the first example, and at the limits.

    replay_tables.py [--program PATH] [--small PATH]

refused.tsv has files that are refused, each with its line; same_board.tsv files that print the board of
examples/first.csv; words.tsv words that are refused, and odd ones that aren't. What a file gives is also asked of
lib/replay_opinion.py, and what `replay` answers of quick_replay, the small program of this command, by which `./desk` runs
it until the whole is built. The help of the whole one has one line more: `./desk` gives `--explain` to no other. Ends with the
line `N passed, M failed`; the exit status is 0 if M is 0.
"""

import os
import sys

from lib import program, replay_opinion
from lib.program import DATA, ROOT, ran
from lib.tally import Tally

TABLES = DATA / "tables"
FIRST, _, LAST = (ROOT / "examples/first.csv").read_bytes().rpartition(b"submission,t2")
LAST = b"submission,t2" + LAST
FIRST_BOARD = (ROOT / "examples/first.public.txt").read_bytes()
SMALL = (TABLES / "small.csv").read_bytes()
HEAD = b"kind,id,f1,f2,f3\ncontest,c,Cup,1:00:00,\n"
EMPTY_BOARD = b"Cup\nPublic board, contest time 1:00:00.000, ended\nRank  Team  Solved    Time\n"
FILE_LIMIT = 16_777_216
TOO_LARGE = b"refused: E6 BodyTooLarge\n"

# The start of a file, the end of each line, and the marks round each field.
SPELLINGS = [
    (b"\xef\xbb\xbf", b"\n", b""),
    (b"", b"\r\n", b""),
    (b"", b"\r", b""),
    (b"", b"\n", b'"'),
    (b"\xef\xbb\xbf", b"\r\n", b'"'),
    (b"", b"\n\n", b""),
    (b"\n\r\n", b"\r\n\n\r", b""),
    (b"\xef\xbb\xbf\n", b"\n", b""),
]

# A kind, the rest of each row after its id and name or label, how many rows there may be, and the causes of one row more.
LIMITS = [
    ("type", "true,true", 40, {"type,k1,Other,true,true": "KeyReused", "type,k0,Name,true,": "Malformed"}),
    ("problem", "Name,7", 40, {"problem,k0,L1,Name,7": "KeyReused", "problem,k0,L0,Name,x": "Malformed"}),
    ("team", ",", 500, {"team,k1,Other,,": "KeyReused", "team,k0,Name,,x": "Malformed"}),
]

FULL_BOARD = b"""Demo Cup
Public board, contest time 5:00:00.000, frozen
Rank  Team   Solved    Time          A          B
   1  Beta        1      60          .      +1/60
   2  Alpha       0       0       -500          .
   2  Gamma       0       0          .          .
"""
EXPLAIN = b"      --explain       Says more of a refusal, in lines for people behind the one that tells of it\n"


def rows(name):
    """The rows of a table, each a list of its columns."""
    lines = (TABLES / name).read_text(encoding="utf-8").splitlines()
    return [line.split("\t") for line in lines if not line.startswith("#")]


def bytes_of(text):
    """The bytes that a cell writes as Python does, with the files that it names."""
    data = text.encode("utf-8").decode("unicode_escape").encode("latin-1")
    for word, file in ((b"{SMALL}", SMALL), (b"{FIRST}", FIRST), (b"{LAST}", LAST)):
        data = data.replace(word, file)
    return data


def spelled(data, start, end, mark):
    lines = [b",".join(mark + field + mark for field in line.split(b",")) for line in data.splitlines()]
    return start + b"".join(line + end for line in lines)


class Replay(Tally):
    """The program, the small one, and what was counted."""

    def __init__(self, options, _):
        super().__init__()
        self.program, self.small = options.program, options.small

    def run(self, words, data=b"", **how):
        """What the program answers; the small one has to answer the same, but for the line of `--explain`."""
        how = how or {"input": data}
        given = status, out, err = ran([self.program, *words], **how)
        if list(words[:1]) == ["replay"]:
            other = ran(words, executable=self.small, **how)
            self.note(other == (status, out.replace(EXPLAIN, b""), err), f"the small program, {words}: {other!r:.500}, and the whole one {given!r:.500}")
        return given

    def file(self, data, wanted, words=("replay",)):
        """The program and the second opinion give this for the file."""
        given, other = self.run(words, data), replay_opinion.replay(list(words), data)
        self.note(given == wanted == other, f"{words} {data[-60:]!r}: {given}, second opinion {other}, wanted {wanted}")

    def refused(self, data, line, words=("replay",)):
        self.file(data, (1, b"", line.encode() + b"\n"), words)


def try_tables(tally):
    for line, file in rows("refused.tsv"):
        tally.refused(bytes_of(file), line)
    for [file] in rows("same_board.tsv"):
        tally.file(bytes_of(file), (0, FIRST_BOARD, b""))
    for start, end, mark in SPELLINGS:
        tally.file(spelled(FIRST + LAST, start, end, mark), (0, FIRST_BOARD, b""))


def try_words(tally):
    """Reading a folder fails, so words that were refused only after that would give status 1."""
    for status, said, words in rows("words.tsv"):
        given = tally.run(words.split())
        is_right = given[0] == int(status) and given[1] == b"" and given[2].startswith(said.encode())
        if status == "2":
            unread = os.open("/", os.O_RDONLY)
            is_right = is_right and tally.run(words.split(), stdin=unread) == given
            os.close(unread)
        tally.note(is_right, f"{words!r}: {given}")
    for at, time, word in (("--at=-0:00:00", "0:00:00.000", "running"), ("--at=0000:05:00", "0:05:00.000", "running"), ("--at=70380767:59:59.999", "70380767:59:59.999", "frozen")):
        board = f"Demo Cup\nPublic board, contest time {time}, {word}\nRank  Team  Solved    Time\n"
        head = b"".join(SMALL.splitlines(keepends=True)[:5])
        tally.file(head, (0, board.encode(), b""), ("replay", at))


def try_help(tally):
    """Help, which wins over other words, and words that are no text."""
    for words in (["--help"], ["-h"], ["--jury", "--help"], ["--at", "-h"], ["file", "-h"]):
        status, out, err = tally.run(["replay", *words])
        tally.note(status == 0 and out.startswith(b"Reads a contest as CSV") and err == b"", f"{words}: {status}, {out!r}, {err!r}")
    given = tally.run(["replay", os.fsdecode(b"--at=\xff")])
    tally.note(given == (2, b"", b"error: an argument isn't UTF-8\n"), f"a byte FF: {given}")


def try_limits(tally):
    for kind, tail, limit, causes in LIMITS:
        most = HEAD + "".join(f"{kind},k{n},L{n},{tail}\n" for n in range(1, limit + 1)).encode()
        given = tally.run(["replay"], most + f"{kind},k1,L1,{tail}\n".encode())
        tally.note(given[0] == 0 and given[2] == b"", f"{limit} of {kind}: {given}")
        for row, cause in {f"{kind},k0,L0,{tail}": "TableFull", **causes}.items():
            tally.refused(most + row.encode() + b"\n", f"refused: E22 ImportRow {limit + 2} {cause}")
    full = SMALL + b"submission,t1,a,1:00:00,WA\n" * 500
    tally.file(full + b"submission,t2,b,1:00:00,AC\n", (0, FULL_BOARD, b""))
    for last, cause in (("t1,b,1:00:00,AC", "TableFull"), ("t1,b,9:00:00,AC", "TableFull"), ("t1,c,1:00:00,AC", "UnknownReference"), ("t1,b,1:00,AC", "Malformed")):
        tally.refused(full + f"submission,{last}\n".encode(), f"refused: E22 ImportRow 511 {cause}")
    # one that is left out of the board counts
    tally.refused(full + b"submission,t1,a,1:00:00,WA\n", "refused: E22 ImportRow 511 TableFull", ("replay", "--at", "0:30:00"))


def try_sizes(tally):
    """A file may have so many bytes and none more, and the size is told before any other fault."""
    for start, size, wanted in (
        (HEAD, FILE_LIMIT, (0, EMPTY_BOARD, b"")),
        (HEAD, FILE_LIMIT + 1, (1, b"", TOO_LARGE)),
        (HEAD, FILE_LIMIT + 1000, (1, b"", TOO_LARGE)),
        (HEAD + b"nonsense\n", FILE_LIMIT + 1, (1, b"", TOO_LARGE)),
        (b"nonsense\n", FILE_LIMIT + 1, (1, b"", TOO_LARGE)),
    ):
        given = tally.run(["replay"], start.ljust(size, b"\n"))
        tally.note(given == wanted, f"{size} bytes of {start!r}: {given}")


if __name__ == "__main__":
    sys.exit(program.main(__doc__, Replay, (try_tables, try_words, try_help, try_limits, try_sizes), program="desk", small="quick_replay"))
