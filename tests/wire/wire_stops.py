#!/usr/bin/env -S python3 -B
"""Stops the files of a contest at each of their calls in turn, and holds what is found afterwards.

    wire_stops.py [--program PATH] [--every N]

The program is wire, over the kit's model of a disk: a database file and its log in memory. First the database file answers one call
and fails each later one, in the next run two, and so on, until a run meets no stop; then the same of the log. Of each file all is left
that was written, or only what was synced: each stop is tried in these four ways. The calls are those from the opening up to the last
copy of the log into the database file. --every N stops at each Nth alone.

So is done: a contest that is made; a submission with a key; a verdict that is proposed and verified; a rejudging of three that is
applied; a file of two verdicts; a thaw; a late team and an account; an extension in the freeze; a token that is replaced and a name
that is corrected; cells that are filled; an upgrade of the first schema. The store is then opened over what is left, and its lists and
scoreboards are read. They are those of the contest before or after what was asked for when the stop came, as the second opinions count
them; what was answered as done stands. The same once more is answered as the second opinions answer it: a submission with its key has
its first body, and stands once. Where a contest was to be made and none is found, it can be made.

Ends with the line `N passed, M failed`; the exit status is 0 if M is 0.
"""

import functools
import itertools
import sys

from lib import program, verdict_file_opinion, wire, wire_opinion
from lib.demo import AT_REHEARSAL, START
from lib.program import FAULT
from lib.rehearsal import contest_of, files_of, judged, posted, sent
from lib.trials import ACCOUNT, APPLY, ASKED, AT_END, AT_TEN, EARLY, EXTENSION, FROZEN, LATE, NAME, POSTS, REJUDGED, THAW, THREE, TOKEN
from lib.trials import TWO, VERDICTS
from lib.wire import Ended, Served, Wire

MANY, CHUNK = 1_000_000_000, 16
# What is left of the database file and of its log.
LEFT = list(itertools.product(("written", "synced"), repeat=2))
# What an opening says: a contest stands, none does or it can't be read, or it is one of the first schema.
OPENED, NONE, OLD = "opened", FAULT[2].strip(), "refused: E26 OldSchema"
READS = [("token-j1", f"{AT_REHEARSAL}/{name}") for name in ("submissions", "judgements", "clarifications", "scoreboard")]
READS += [("token-j1", "/jury/proposals"), ("token-j1", "/jury/rejudgings"), ("token-a1", "/contests")]
READS += [("public", f"{AT_REHEARSAL}/scoreboard")]
NO_CELLS = "DELETE FROM cells"
FIRST = """
INSERT INTO clarifications SELECT seq, number, k, from_jury, account, problem, reply, text, time, key FROM notices ORDER BY seq;
DROP TABLE notices;
UPDATE desk SET version = 1;
"""


def begun(work, found, data=b"", database=MANY, log=MANY):
    """The beginning of a desk over a database file and a log in which this is found, and which answer so many calls."""
    return wire.step(f"{work} {found[0]} {database} {found[1]} {log}", data)


def step(now, asked):
    """A request, or a file with its kind, at a moment."""
    return wire.imported(now, *asked) if isinstance(asked, tuple) else wire.served(now, asked)


def answered(contest, now, asked):
    """What that is answered, and the contest after it."""
    if isinstance(asked, tuple):
        return verdict_file_opinion.imported(contest, now, *asked)
    _, status, written, after = wire_opinion.served(contest, now, asked)
    return (status, written), after


def refused(now, asked):
    """The same where the store fails."""
    return NONE if isinstance(asked, tuple) else (503, wire_opinion.reply(now, 503, b'{"code":503,"message":"StoreFault"}'))


def given(one):
    return (one.status, one.written) if isinstance(one, Served) else one


def reads(now):
    return [wire.served(now, sent(who, None, "GET", path, "")) for who, path in READS]


class State:
    """What an opening says of files, and the contest in them."""

    def __init__(self, line, contest):
        self.line, self.contest = line, contest

    @functools.cache
    def lists(self, now):
        return [answered(self.contest, now, sent(who, None, "GET", path, ""))[0] for who, path in READS]

    @functools.cache
    def after(self, now, asked):
        """What is answered, and the state after it."""
        answer, contest = answered(self.contest, now, asked)
        return answer, State(OPENED, contest)


class Trial:
    """What is done at a moment with files: a beginning, which says that it is done by a line, and what is asked then."""

    def __init__(self, name, base, states, work, done, now, asked=(), data=b""):
        self.name, self.base, (self.before, self.after), self.work, self.done = name, base, states, work, done
        self.now, self.later, self.asked, self.data = now, now + 120_000, asked, data

    def steps(self, left, **calls):
        """The steps of a run: what is done over files that stop, what is found in those that are left, and the same once more."""
        found = ("no", "no") if self.work == "create" else ("base", "base")
        steps = [begun(self.work, found, self.data, **calls), *(step(self.now, one) for one in self.asked)]
        steps += [begun("open", left), *reads(self.later), *(step(self.later, one) for one in self.asked), *reads(self.later)]
        if self.work != "open":
            steps += [begun(self.work, LEFT[0], self.data), begun("open", LEFT[0]), *reads(self.later)]
        return steps

    def may_be(self, line, answers):
        """The states that may be found after these answers."""
        if line != self.done:
            return [self.before, self.after] if line in (NONE, "unopened") else []
        if len(answers) != len(self.asked):
            return []
        states = [self.after]
        for one, answer in zip(self.asked, answers):
            nexts = [(state, *state.after(self.now, one)) for state in states]
            is_refused = answer == refused(self.now, one)
            states = [after for _, wanted, after in nexts if is_refused or answer == wanted]
            states += [state for state, _, _ in nexts if is_refused]
        return states

    def hold(self, test, what, run):
        """Holds a run, of which each beginning said a line and has its answers and its last line. Answers whether it met no stop."""
        line, answers, last = run[0]
        states = self.may_be(line, answers)
        found = [state for state in states if self.is_found(state, run[1])]
        test.note(bool(found), f"{what}: {run[0]}, and then {run[1][:2]}")
        if found:
            self.hold_again(test, what, found[0], run)
        return last == "closed goes goes"

    def is_found(self, state, opened):
        line, answers, _ = opened
        return line == state.line and (line != OPENED or answers[: len(READS)] == state.lists(self.later))

    def hold_again(self, test, what, state, run):
        """The same once more, in the state that was found."""
        wanted, given = [], run[1][1][len(READS) :]
        for one in self.asked:
            answer, state = state.after(self.later, one)
            wanted.append(answer)
        if state.line == OPENED:
            test.same(f"{what}, and again", given, wanted + state.lists(self.later))
        if self.work != "open":
            line = "stands" if (self.work, state.line) == ("upgrade", OPENED) else self.done
            is_whole = run[2][0] == line and self.is_found(self.after, run[3])
            test.note(is_whole, f"{what}, and {self.work} again: {run[2]}, and then {run[3][:2]}")


def made(test, verification, calls=(), sql=None):
    """The steps of a script that make a base, after these calls and SQL, and its contest."""
    files, contest = files_of(verification), contest_of(verification)
    steps = [begun("create", ("no", "no"), files["init"].encode()), *wire.begun(verification)[1:]]
    for at, who, path, body in calls:
        now, data = START + at * 60_000, sent(who, None, "POST", path, body)
        (status, _), contest = answered(contest, now, data)
        test.same(f"{path} at {at}", status, 200)
        steps.append(step(now, data))
    steps += [begun("run", LEFT[0], sql.encode())] if sql else []
    return [*steps, wire.step("base", b"")], contest


def at_open(test, name, now, asked, calls, verification=False, sql=None):
    """What is asked at the desk of a contest that stands."""
    base, contest = made(test, verification, calls, sql)
    state = State(OPENED, contest)
    return Trial(name, base, (state, state), "open", OPENED, now, asked)


def trials(test):
    """All that is tried."""
    file = files_of(False)["init"].encode()
    empty = {**contest_of(False), **dict.fromkeys(("types", "languages", "problems", "groups", "teams", "accounts"), [])}
    yield Trial("a contest that is made", [], (State(NONE, None), State(OPENED, empty)), "create", "made", EARLY, data=file)
    post = sent("token-a2", "k1", "POST", POSTS, posted(size=6_000))
    yield at_open(test, "a submission", AT_TEN, [post], THREE)
    judges = {"token-j1": "proposals", "token-j2": "verifications"}
    both = [sent(who, None, "POST", f"/jury/{name}", judged("s1-1", "AC")) for who, name in judges.items()]
    yield at_open(test, "a verdict and its verification", AT_TEN, both, THREE, verification=True)
    yield at_open(test, "a rejudging", AT_TEN, [sent(*APPLY)], REJUDGED)
    yield at_open(test, "a file of verdicts", AT_TEN, [("verdicts-csv", VERDICTS.encode())], TWO)
    yield at_open(test, "a thaw", AT_END, [sent(*THAW)], THREE)
    yield at_open(test, "a late team and an account", AT_TEN, [sent(*LATE), sent(*ACCOUNT)], THREE)
    yield at_open(test, "an extension", FROZEN, [sent(*EXTENSION)], THREE)
    yield at_open(test, "a token and a name", AT_TEN, [sent(*TOKEN), sent(*NAME)], THREE)
    yield at_open(test, "cells that are filled", AT_TEN, [], ASKED, sql=NO_CELLS)
    base, contest = made(test, False, ASKED, FIRST)
    yield Trial("an upgrade", base, (State(OLD, contest), State(OPENED, contest)), "upgrade", "upgraded", AT_TEN)


def parted(found):
    """What came of each beginning: the line that it said, what was answered, and the last line."""
    runs, items = [], []
    for one in found:
        items.append(given(one))
        if isinstance(one, str) and one.startswith("closed "):
            runs.append((items[0], [item for item in items[1:-1] if not isinstance(item, Ended)], items[-1]))
            items = []
    return runs


def stop(test, trial, which, left):
    """The same again and again, each time stopped later than the last. Answers how many calls are enough."""
    first, every = 1, test.options.every
    while True:
        calls = range(first, first + CHUNK * every, every)
        runs = [trial.steps(left, **{which: count}) for count in calls]
        found = parted(test.answers_to(trial.base + [step for run in runs for step in run]))
        size = 2 if trial.work == "open" else 4
        found = found[len(found) - size * len(runs) :]
        for at, count in enumerate(calls):
            what = f"{trial.name}, whose {which} stops after {count} calls, of which is left what was {' and '.join(left)}"
            if trial.hold(test, what, found[size * at : size * (at + 1)]):
                return count
        first = calls[-1] + every


def try_each(test):
    for trial in trials(test):
        for which in ("database", "log"):
            counts = [stop(test, trial, which, left) for left in LEFT]
            print(f"{trial.name}: {counts[0]} calls of the {which} are enough", flush=True)
            test.note(len(set(counts)) == 1 and counts[0] > 5, f"{trial.name}: {counts} calls of the {which}")


if __name__ == "__main__":
    sys.exit(program.main(__doc__, Wire, (try_each,), program="wire", every=1))
