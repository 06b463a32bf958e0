#!/usr/bin/env -S python3 -B
"""Compares `desk audit` with the second opinion on thousands of event feeds made from a seed.

    audit_boards.py [--program PATH] [--seed N] [--cases N] [--boards N] [--changed N] [--keep FOLDER] [--jobs N]

First come the feeds in tests/data/audit, each NAME.VERSION.ndjson, whose boards are those of tests/data/replay that
were worked out by hand: NAME begins their names. Then each contest of tests/data/replay as lib/feed_maker.py writes it
in each version and in all by turns, with its board. Then N feeds (4,000) of made contests: every second one has a
fault, and the kinds of faults come in turn. Then N boards (1,500) beside one of another system, which is the same, has
differences or is none. At last N times (3,000) a feed of tests/data/audit with one to three changes of its bytes, about
which nobody knows anything. Status, standard output and standard error must be equal byte for byte; if the words are
refused (status 2) standard error is the program's own, and must only say something.

Prints how often each answer came, and at which lines. Prints the first cases that differ, keeps their files in FOLDER
(one of its own for each case: `file`, `board`, `words`, and what each side gave), and ends with the line `N passed, M
failed`. The exit status is 0 if M is 0.
"""

import random
import sys
from concurrent.futures import ThreadPoolExecutor

from lib import audit_opinion, feed_spoiler, program, replay_files, replay_opinion
from lib.beside import Beside, told
from lib.board_maker import BoardMaker
from lib.changed_bytes import changed_once
from lib.feed_maker import VERSIONS, FeedMaker, joined
from lib.program import DATA, ROOT
from lib.replay_opinion import Refused, Shown, WrongWords, read_replay

ATTEMPTS = 400  # feeds that are made until one has the fault that is wanted
TURNS = [kind for kind in feed_spoiler.MAKERS if "E6" not in kind] + ["wrong words"]
TOO_LARGE, TOO_LARGE_TURN = "refused: E6 BodyTooLarge", 60  # one of so many faulty feeds is too large
PIECES = [
    *(b'"', b"{", b"}", b"[", b"]", b",", b":", b"\n", b"\n\n", b"\r\n", b" ", b"\\", b"\\u0041", b"\\ud800", b"\t"),  # what JSON is made of
    *(b"\x00", b"\x7f", b"\xff", b"\xc2\x85", b"\xef\xbb\xbf", b"null", b"true", b"false", b"-1", b"1.0", b"0", b"9" * 20),
    *(b'"delete"', b'"id":"t1",', b'"data":null,', b'"hidden":true,', b'"valid":false,', b'"type":"teams",', b"0:00:00", b"a" * 37),
]
WORDS = [[], ["--jury"], ["--thawed"], ["--at", "0:20:00"], ["--at", "4:00:00", "--jury"]]


class Audit(Beside):
    """Counts what agreed, and a folder for boards of another system."""

    def __init__(self, options, folder):
        super().__init__(options, folder)
        self.folder, self.statuses = folder, set()


def options_of(file):
    """The words beside a worked board."""
    lines = file.with_suffix(".options").read_text(encoding="utf-8").splitlines()
    return [word for word in lines if not word.startswith("#")]


def compare_worked(tally, title, feed, file):
    """A feed whose board was worked out for a contest in a file, which the second opinion gives too."""
    words, wanted = ["audit", *options_of(file)], file.with_suffix(".txt").read_bytes()
    given = audit_opinion.audit(words, feed)
    if given[:2] != (0, wanted):
        sys.exit(f"{title}: the board of {file} isn't what lib/audit_opinion.py gives: {given}")
    tally.compare(title, words, feed, given, tally.given(words, feed))


def try_written(tally):
    """The feeds that stand in files."""
    for feed in sorted((DATA / "audit").glob("*.ndjson")):
        boards = sorted((DATA / "replay").rglob(f"{feed.name.partition('.')[0]}*.csv"))
        tally.note(bool(boards), f"{feed.name} has no board")
        for file in boards:
            compare_worked(tally, f"written {feed.stem} {file.stem}", feed.read_bytes(), file)


def try_worked(tally):
    """The contests that were worked out by hand, in each version and by turns in all."""
    for file in sorted((DATA / "replay").rglob("*.csv")):
        for version in (*VERSIONS, None):
            maker = FeedMaker(f"{tally.options.seed}/{file.stem}/{version}", read_replay(file.read_bytes()), version)
            compare_worked(tally, f"worked {file.stem} {version}", joined(maker, maker.write()), file)


def made_contest(seed, index):
    """The words of an audit and a contest, both without a fault. Its penalty is at times another."""
    while True:
        words, data = replay_files.case(seed, index)
        try:
            replay_opinion.read_words(words)
            contest = read_replay(data)
        except (Refused, WrongWords):
            index += 1_000_000
            continue
        contest.penalty = random.Random(f"{seed}/{index}").choice([20, 20, 20, 0, 1, 10, 1000])
        return ["audit", *words[1:]], contest


def made_feed(seed, index, attempt=0):
    """A maker that has written its lines, and the words."""
    words, contest = made_contest(f"{seed}/{attempt}", index)
    maker = FeedMaker(f"{seed}/{index}/{attempt}", contest, (*VERSIONS, None)[(index + attempt) % 4])
    maker.write()
    return words, maker


def made_case(seed, index):
    """The words and the bytes of a case, and what the second opinion gives. Each odd case is refused."""
    if index % 2 == 0:
        words, maker = made_feed(seed, index)
        data = joined(maker, maker.lines)
        given = audit_opinion.audit(words, data)
        return words, data, given
    number = index // 2
    kind = TOO_LARGE if number % TOO_LARGE_TURN == 0 else TURNS[number % len(TURNS)]
    for attempt in range(ATTEMPTS):
        words, maker = made_feed(seed, index, attempt)
        if kind == "wrong words":
            words = words + maker.one(replay_files.WRONG_WORDS + WRONG_WORDS)
        if kind != "wrong words" or maker.maybe(0.5):
            maker.one(feed_spoiler.MAKERS.get(kind, feed_spoiler.MALFORMED))(maker)
        data = joined(maker, maker.lines)
        given = audit_opinion.audit(words, data)
        if told(given)[0] == kind:
            return words, data, given
    sys.exit(f"case {seed} {index}: none of {ATTEMPTS} feeds has the fault '{kind}'")


WRONG_WORDS = [["--against"], ["--against", "--jury"], ["--against", "a", "--against", "a"], ["--Against", "a"], ["--audience", "jury"], ["a"]]


def try_made(tally):
    """The feeds of the seed; programs run side by side."""
    seed = tally.options.seed

    def one(index):
        words, data, wanted = made_case(seed, index)
        return f"case {seed} {index}", words, data, wanted, tally.given(words, data)

    with ThreadPoolExecutor(tally.options.jobs) as pool:
        for case in pool.map(one, range(tally.options.cases)):
            tally.compare(*case)


def compared_case(seed, index):
    """Words, a feed, and a board of another system: of the contest as it is, or in one of twenty of a feed with a fault."""
    words, maker = made_feed(f"{seed}/beside", index)
    jury, thawed, at = replay_opinion.read_words(["replay", *words[1:]])
    board = BoardMaker(f"{seed}/{index}").board(maker.contest, Shown(maker.contest, jury, thawed, at))
    if index % 20 == 7:
        feed_spoiler.spoil_member(maker)
    return words, joined(maker, maker.lines), board


def try_compared(tally):
    """Boards beside another system's."""
    seed = tally.options.seed

    def one(index):
        words, data, board = compared_case(seed, index)
        path = tally.folder / f"{index}.json"
        path.write_bytes(board)
        words = ["audit", "--against", str(path), *words[1:]]
        given = tally.given(words, data)
        path.unlink()
        return (f"beside {seed} {index}", words, data, audit_opinion.audit(words, data, board), given), board

    with ThreadPoolExecutor(tally.options.jobs) as pool:
        for case, board in pool.map(one, range(tally.options.boards)):
            tally.statuses.add(case[3][0])
            tally.compare(*case, board=board)
    tally.note(tally.options.boards < 100 or tally.statuses >= {0, 1, 3}, f"boards came to the statuses {tally.statuses} alone")


def try_changed(tally):
    """Feeds whose bytes were changed."""
    rng, files = random.Random(tally.options.seed), [file.read_bytes() for file in sorted((DATA / "audit").glob("*.ndjson"))]
    for index in range(tally.options.changed):
        words, data = ["audit", *rng.choice(WORDS)], rng.choice(files)
        for _ in range(rng.choice([1, 1, 2, 3])):
            data = changed_once(rng, data, PIECES)
        tally.compare(f"changed {tally.options.seed} {index}", words, data, audit_opinion.audit(words, data), tally.given(words, data))


def try_kinds(tally):
    """Each kind of fault came."""
    for kind in [*TURNS, TOO_LARGE]:
        tally.note(kind in tally.records or tally.options.cases < 100, f"no case was {kind}: take more cases")


if __name__ == "__main__":
    PARTS = try_written, try_worked, try_made, try_compared, try_changed, try_kinds
    KEEP = ROOT / "tests/out/differing"
    sys.exit(program.main(__doc__, Audit, PARTS, program="desk", seed=1, cases=4000, boards=1500, changed=3000, keep=KEEP, jobs=2))
