#!/usr/bin/env -S python3 -B
"""Holds what the pages score, and each step of a ceremony, beside the boards of the desk.

    desk_pages_scoring.py [--program PATH] [--made N] [--seed N] [--shots PATH] [--browser NAME]

N made contests (60), set up as desk_boards.py does, are read in a browser from the feed of `desk feed`. The page's frozen board has
the rows of `desk board` for the public, its last one those for the jury. Each step of a ceremony has the rows of `desk replay` of the
same contest without a freeze, in which what isn't revealed has no verdict. Each step reveals one cell at most, so many rows from
below as are called certain are those of the last board, and the last step is that board. The feeds in audit/, and the worked
contests as feeds of each version, have the rows of `desk audit`. Who was first to solve a problem is told to the millisecond. Feeds
that can't be read are told by their line.

Takes nginx, openssl, chromium, chromium-driver and faketime. Ends with the line `N passed, M failed`; the exit status is 0 if M is 0.
"""

import csv
import io
import json
import pathlib
import sys

from lib import program
from lib.board_lines import lines_in, lines_of
from lib.demo import START
from lib.desk_opinion import moment
from lib.feed_maker import VERSIONS, FeedMaker, joined
from lib.kept_contests import kept, made_case
from lib.pages import Pages
from lib.program import DATA
from lib.replay_opinion import HEADER, Shown, read_replay, reltime_text

# The boards of a feed: frozen, at the end, and at each step with what is revealed by then; and the names of its teams.
BOARDS = """const [text] = arguments;
const files = ['./ceremony/feed.js', './shared/scoring.js', './ceremony/resolving.js'].map((name) => import(name));
return Promise.all(files).then(([{ listsOf }, scoring, resolving]) => {
  const lists = listsOf(text), scored = scoring.scoredOf(lists);
  const ceremony = resolving.ceremonyOf(scored, lists.awards), steps = [];
  for (let step = resolving.BEGINNING; step !== null; step = resolving.nextOf(ceremony, step)) {
    steps.push({ rows: resolving.rowsAt(ceremony, step), revealed: [...step.revealed], certain: step.certain });
  }
  return {
    frozen: scoring.boardRows(scored, scoring.heldInFreeze(scored)), thawed: scoring.boardRows(scored, scoring.heldNever),
    steps, names: Object.fromEntries(scored.teams.map(({ id, name }) => [id, name])),
  };
});"""
FAULT = "return import('./ceremony/feed.js').then(({ listsOf }) => { try { listsOf(arguments[0]); return ''; } catch (one) { return one.message; } })"
FIRST = """const files = ['./ceremony/feed.js', './shared/scoring.js', './shared/firsts.js'].map((name) => import(name));
return Promise.all(files).then(([{ listsOf }, scoring, { firstsScored }]) => {
  const scored = scoring.scoredOf(listsOf(arguments[0]));
  const { teams, isCertain } = firstsScored(scored, 'a', scoring.heldInFreeze(scored));
  return [teams, isCertain];
});"""
CONTEST = '{"type":"contest","id":null,"data":{"id":"x","name":"X","duration":"5:00:00"}}\n'


def replayed(contest, revealed):
    """The contest as a replay file without a freeze, in which a verdict of the freeze stands only if its cell is revealed."""
    out = io.StringIO()
    records = csv.writer(out, lineterminator="\n")
    records.writerow([field.decode() for field in HEADER])
    records.writerow(["contest", "c", contest.name, reltime_text(contest.duration), ""])
    truth = {True: "true", False: "false"}
    for key, (name, solved, penalty) in contest.types.items():
        records.writerow(["type", key, name, truth[solved], truth[penalty]])
    for key, (label, name, ordinal) in contest.problems.items():
        records.writerow(["problem", key, label, name, ordinal])
    for key, (name, hidden) in contest.teams.items():
        records.writerow(["team", key, name, truth[hidden], ""])
    for team, rows in contest.submissions.items():
        for problem, time, verdict in rows:
            is_held = contest.freeze is not None and time >= contest.freeze and f"{team} {problem}" not in revealed
            records.writerow(["submission", team, problem, reltime_text(time), "" if is_held or verdict is None else verdict])
    return out.getvalue()


def feed_and_boards(pages, contest):
    """What the program prints of a contest in a file: the jury's feed, the frozen board and the jury's."""
    folder = kept(pages, contest, Shown(contest, False, False, None), False)
    at = ("--at", moment(START + contest.duration))
    calls = (("feed", "cup.db", "--audience", "jury", *at), ("board", "cup.db", *at), ("board", "cup.db", "--audience", "jury", *at))
    return [pages.run(folder, *words)[1] for words in calls]


def same_lines(pages, what, rows, names, board):
    pages.same(what, lines_of(rows, names), lines_in(board))


def hold_steps(pages, what, contest, shown):
    """Each step of a ceremony beside `desk replay`, and beside what it says of itself."""
    last = shown["steps"][-1]
    pages.same(f"{what}: the last step", (last["rows"], last["certain"]), (shown["thawed"], len(shown["thawed"])))
    pages.same(f"{what}: the first step", shown["steps"][0]["rows"], shown["frozen"])
    for number, step in enumerate(shown["steps"]):
        board = pages.run(pages.folder, "replay", input=replayed(contest, step["revealed"]).encode())[1]
        same_lines(pages, f"{what}, step {number}", step["rows"], shown["names"], board)
        is_certain = step["certain"] == 0 or step["rows"][-step["certain"] :] == shown["thawed"][-step["certain"] :]
        pages.note(is_certain and len(step["revealed"]) <= number, f"{what}, step {number}: {step['certain']} rows are certain")


def try_made(pages):
    """Made contests."""
    pages.page("scoring", "scoreboard")
    with program.lanes() as pool:
        contests = [made_case(pages.options.seed, index)[1] for index in range(pages.options.made)]
        told = list(pool.map(lambda contest: feed_and_boards(pages, contest), contests))
        shown = [pages.browser.run(BOARDS, feed) for feed, _, _ in told]
        for index, (boards, (_, frozen, thawed)) in enumerate(zip(shown, told)):
            same_lines(pages, f"contest {index}: the frozen board", boards["frozen"], boards["names"], frozen)
            same_lines(pages, f"contest {index}: the last board", boards["thawed"], boards["names"], thawed)
        list(pool.map(lambda index: hold_steps(pages, f"contest {index}", contests[index], shown[index]), range(len(contests))))
    steps = sum(len(boards["steps"]) for boards in shown)
    pages.note(steps > 2 * len(contests) or len(contests) < 40, f"{steps} steps in all")


def same_audited(pages, what, data):
    """What a feed comes to, beside `desk audit`."""
    boards = pages.browser.run(BOARDS, data.decode())
    for words, rows in (((), "frozen"), (("--jury",), "thawed")):
        board = pages.run(pages.folder, "audit", *words, input=data)[1]
        same_lines(pages, f"{what} {words}", boards[rows], boards["names"], board)


def try_feeds(pages):
    """Feeds of other systems, of each version: those that stand in files, and the worked contests as feeds with all that may come in
    one."""
    for file in sorted((DATA / "audit").glob("*.ndjson")):
        same_audited(pages, file.name, file.read_bytes())
    for file in sorted((DATA / "replay").rglob("*.csv")):
        for version in (*VERSIONS, None):
            maker = FeedMaker(f"{pages.options.seed}/{file.stem}/{version}", read_replay(file.read_bytes()), version)
            same_audited(pages, f"{file.stem} {version}", joined(maker, maker.write()))


def try_anew(pages):
    """A collection that is sent anew is these objects alone, in their order; one that is taken away is empty."""
    head = CONTEST + '{"type":"judgement-types","data":[{"id":"AC","name":"ok","solved":true}]}\n'
    head += '{"type":"problems","data":[{"id":"a","label":"A","name":"A","ordinal":0}]}\n'
    teams = '{"type":"teams","id":null,"data":[{"id":"t1","name":"One"},{"id":"t2","name":"Two"}]}\n'
    fewer, none = '{"type":"teams","id":null,"data":[{"id":"t2","name":"Two"}]}\n', '{"type":"teams","id":null,"data":null}\n'
    for what, feed in (("all", teams), ("fewer", teams + fewer), ("none", teams + none), ("again", teams + none + fewer)):
        same_audited(pages, f"teams, {what}", (head + feed).encode())


def feed_of(attempts):
    """A contest with a freeze, one problem, three teams and a hidden one, and attempts: each a team, a time and a verdict or None."""
    rows = [("contest", {"id": "x", "name": "X", "duration": "5:00:00", "scoreboard_freeze_duration": "1:00:00"}),
            *(("judgement-types", {"id": row, "solved": row == "AC", "penalty": row == "WA"}) for row in ("AC", "WA")),
            ("problems", {"id": "a", "label": "A", "name": "A", "ordinal": 0}), ("teams", {"id": "t9", "name": "Staff", "hidden": True}),
            *(("teams", {"id": row, "name": row}) for row in ("t1", "t2", "t3"))]  # fmt: skip
    for number, (team, time, verdict) in enumerate(attempts):
        rows.append(("submissions", {"id": f"s{number}", "team_id": team, "problem_id": "a", "contest_time": time}))
        rows.append(("judgements", {"id": f"j{number}", "submission_id": f"s{number}", "judgement_type_id": verdict}))
    return "\n".join(json.dumps({"type": kind, "id": row["id"], "data": row}) for kind, row in rows)


def try_first(pages):
    """Who was first to solve a problem, to the millisecond, of the teams that are shown; it isn't certain while an earlier attempt
    waits, or is held back."""
    early, late = "0:05:00.001", "4:30:00"
    cases = [
        ([("t2", early, "AC"), ("t3", "0:05:00.002", "AC")], [["t2"], True]), ([("t3", early, "AC"), ("t2", early, "AC")], [["t2", "t3"], True]),
        ([("t1", "0:04:00", "WA"), ("t2", early, "AC")], [["t2"], True]), ([("t1", "0:04:00", None), ("t2", early, "AC")], [["t2"], False]),
        ([("t1", "0:06:00", None), ("t2", early, "AC")], [["t2"], True]), ([("t9", "0:04:00", "AC"), ("t2", early, "AC")], [["t2"], True]),
        ([("t2", early, "WA"), ("t2", "0:07:00", "AC")], [["t2"], True]), ([("t1", late, "AC"), ("t2", early, "AC")], [["t2"], True]),
        ([("t1", late, "AC")], [[], False]), ([], [[], True]),
    ]  # fmt: skip
    for attempts, wanted in cases:
        pages.same(f"the first of {attempts}", pages.browser.run(FIRST, feed_of(attempts)), wanted)


def try_faults(pages):
    """Lines that can't be read, and feeds that say no contest."""
    faults = {
        "": "No line of it says a contest",
        "\n\n": "No line of it says a contest",
        CONTEST + "{": "Line 2 of the feed can't be read",
        CONTEST + "\n[]": "Line 3 of the feed can't be read",
        CONTEST + '{"id":"t1","data":{}}': "Line 2 of the feed can't be read: isn't an event.",
        CONTEST + '{"type":"teams","data":7}': "Line 2 of the feed can't be read: names no object.",
        CONTEST + '{"type":"teams","data":{"name":"A"}}': "Line 2 of the feed can't be read: names no object.",
        CONTEST + '{"type":"contest","data":null}': "No line of it says a contest",
        CONTEST: "",
    }
    for text, words in faults.items():
        given = pages.browser.run(FAULT, text)
        pages.note(given.startswith(words) and bool(given) == bool(words), f"{text!r}: {given!r}, wanted {words!r}")


if __name__ == "__main__":
    PARTS = [try_made, try_feeds, try_anew, try_first, try_faults]
    sys.exit(program.main(__doc__, Pages, PARTS, program="desk", made=60, seed=61, shots=pathlib.Path(), browser=Pages.BROWSERS))
