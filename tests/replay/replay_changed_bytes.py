#!/usr/bin/env -S python3 -B
"""Compares `desk replay` with the second opinion on files whose bytes were changed blindly.

    replay_changed_bytes.py [--program PATH] [--seed N] [--cases N] [--keep FOLDER]

Each case is a file of examples/ with one to three changes, made from the seed: a few bytes are put in at any place (a comma,
a quotation mark, half a character, a whole word), taken out or overwritten, or a line is repeated elsewhere or changes places
with another. replay_boards.py knows of each file what is wrong with it; here nobody does. Status, standard output and standard
error must be equal byte for byte.

Prints how often each answer came, and ends like replay_boards.py.
"""

import random
import sys

from lib import program, replay_opinion
from lib.beside import Beside
from lib.changed_bytes import changed_once
from lib.program import ROOT

PIECES = [
    *(b'"', b'""', b'",', b',"', b",", b"\n", b"\n\n", b"\r", b"\r\n", b" ", b"\t"),  # what CSV is made of
    *(b"\x00", b"\x7f", b"\xff", b"\xc2\x85", b"\xef\xbb\xbf", b"\xe2\x80\x8d", b"\xcc\x81", b"\xf0\x9f\x91\xa8"),
    *(b"contest", b"submission", b"true", b"kind,id,f1,f2,f3\n", b"a" * 37),
    *(b"-", b"0", b"00", b":", b".000", b"9" * 20),
]
WORDS = [[], ["--jury"], ["--thawed"], ["--at", "0:20:00"], ["--at", "0:10:59.999", "--jury"], ["--at=-0:00:00"]]


def try_changed(tally):
    seed, files = tally.options.seed, [file.read_bytes() for file in sorted((ROOT / "examples").glob("*.csv"))]
    rng = random.Random(seed)
    for index in range(tally.options.cases):
        words, data = ["replay"] + rng.choice(WORDS), rng.choice(files)
        for _ in range(rng.choice([1, 1, 2, 3])):
            data = changed_once(rng, data, PIECES)
        tally.compare(f"changed {seed} {index}", words, data, replay_opinion.replay(words, data), tally.given(words, data))


if __name__ == "__main__":
    KEEP = ROOT / "tests/out/differing"
    sys.exit(program.main(__doc__, Beside, [try_changed], program="desk", seed=1, cases=20000, keep=KEEP))
