#!/usr/bin/env -S python3 -B
"""Compares `desk replay` with the second opinion on thousands of replay files made from a seed.

    replay_boards.py [--program PATH] [--seed N] [--cases N] [--keep FOLDER] [--jobs N] [--no-large]

The boards in examples/ and the worked ones under tests/data/replay/ come first: both sides must print them. Of the
latter NAME.csv is the file, NAME.options has the options, one a line below a comment that says what the board shows,
and NAME.txt is the board, worked out by hand. Then come the files of the seed, N programs side by side (2), and at last
a few of up to 16 MiB, unless --no-large leaves these out. Every second file of the seed has a fault, and the kinds of
faults come in turn. Status, standard output and standard error must be equal byte for byte; if the words are refused
(status 2) standard error is the program's own, and must only say something.

Prints how often each answer came, and at which records. Prints the first cases that differ, keeps their files in FOLDER
(one of its own for each case: `file`, `words`, and what each side gave), and ends with the line `N passed, M failed`.
The exit status is 0 if M is 0.
"""

import sys
from concurrent.futures import ThreadPoolExecutor

from lib import program, replay_files, replay_opinion
from lib.beside import Beside, told
from lib.program import DATA, ROOT

ATTEMPTS = 200  # files that are made until one has the fault that is wanted
CAUSES = ["Malformed", "UnknownReference", "KeyReused", "TableFull", "NotOpen"]
TURNS = [f"refused: E22 ImportRow {cause}" for cause in CAUSES] + ["refused: E1 Malformed", "wrong words"]
TOO_LARGE = "refused: E6 BodyTooLarge"
TOO_LARGE_TURN = 50  # one of so many faulty files is too large


def compare_board(tally, title, words, file, board):
    """A board that stands in a file, which the second opinion gives too."""
    data, wanted = file.read_bytes(), (0, board.read_bytes(), b"")
    if replay_opinion.replay(words, data) != wanted:
        sys.exit(f"{board} isn't what lib/replay_opinion.py gives")
    tally.compare(title, words, data, wanted, tally.given(words, data))


def try_examples(tally):
    """Each examples/NAME.BOARD.txt is the board of examples/NAME.csv."""
    for board in sorted((ROOT / "examples").glob("*.txt")):
        name, audience, _ = board.name.split(".")
        words = ["replay"] + {"public": [], "jury": ["--jury"], "thawed": ["--thawed"]}[audience]
        compare_board(tally, f"example {board.stem}", words, board.with_name(f"{name}.csv"), board)


def try_worked(tally):
    """The boards that were worked out by hand."""
    for file in sorted((DATA / "replay").rglob("*.csv")):
        given = file.with_suffix(".options").read_text().splitlines()
        words = ["replay"] + [word for word in given if not word.startswith("#")]
        compare_board(tally, f"worked {file.stem}", words, file, file.with_suffix(".txt"))


def made_case(seed, index):
    """The words and the bytes of a case, and what the second opinion gives. Each odd case is refused."""
    if index % 2 == 0:
        words, data = replay_files.case(seed, index)
        return words, data, replay_opinion.replay(words, data)
    number = index // 2
    kind = TOO_LARGE if number % TOO_LARGE_TURN == 0 else TURNS[number % len(TURNS)]
    for attempt in range(ATTEMPTS):
        words, data = replay_files.faulty_case(seed, index, attempt, kind)
        wanted = replay_opinion.replay(words, data)
        if told(wanted)[0] == kind:
            return words, data, wanted
    sys.exit(f"case {seed} {index}: none of {ATTEMPTS} files has the fault '{kind}'")


def try_made(tally):
    """The files of the seed; programs run side by side."""
    seed = tally.options.seed

    def one(index):
        words, data, wanted = made_case(seed, index)
        return f"case {seed} {index}", words, data, wanted, tally.given(words, data)

    with ThreadPoolExecutor(tally.options.jobs) as pool:
        for case in pool.map(one, range(tally.options.cases)):
            tally.compare(*case)


def try_large(tally):
    if not tally.options.no_large:
        for title, words, data in replay_files.large_cases():
            tally.compare(title, words, data, replay_opinion.replay(words, data), tally.given(words, data))


def try_kinds(tally):
    """Each kind of fault came."""
    for kind in [*TURNS, TOO_LARGE]:
        tally.note(kind in tally.records, f"no case was {kind}: take more cases")


if __name__ == "__main__":
    PARTS = try_examples, try_worked, try_made, try_large, try_kinds
    KEEP = ROOT / "tests/out/differing"
    sys.exit(program.main(__doc__, Beside, PARTS, program="desk", seed=1, cases=6000, keep=KEEP, jobs=2, no_large=False))
