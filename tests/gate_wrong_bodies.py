#!/usr/bin/env -S python3 -B
"""Judges tests/wrong_bodies on a small crate that it writes into a temporary folder, and its choices on crates made up.

    gate_wrong_bodies.py

A wrong body has to be found refused, a harmless one not refused, also if a hand-written answer names a goal that it
took away, and an unreadable one unreadable; two bodies of one function are told apart; a round in which a function is
refused that no edit touches is not believed; an edit may name the goal that refuses it. What was refused isn't tried
again until a byte changes that the verdict rests on, but as a control, which finds what passes now. What is stale is
told apart by why, and is tried in the order of the day and within a bound; what that leaves out is named. A check that
was killed is made once more. After `rt ci` nothing is tried over a library that isn't proved, and one that stands isn't
built anew. Ends with the line 'N passed, N failed'.
"""

import argparse
import concurrent.futures
import contextlib
import importlib.machinery
import importlib.util
import io
import os
import re
import shutil
import subprocess
import sys
import threading
import types

from lib import program
from lib.program import TESTS
from lib.tally import Tally
from rounds import judging, kit, lanes, libraries, turns
from rounds.digests import JUDGES, Digests, State, Sums
from rounds.edits import edits_of, rounds_of
from rounds.toys import BOUND, EDITS, add_byte, crate_of, keep_digest, lay_out, put, put_two, write
from rounds.trying import Outcome


class Judge(Tally):
    """A repository of one small crate, and what was counted."""

    def __init__(self, _, folder):
        super().__init__()
        kit.prepare()
        self.folder, self.root = folder.resolve(), folder.resolve() / "one"
        self.script = loaded()
        write(self.root, EDITS)

    def see(self, what, holds, said=""):
        self.note(holds, f"{what}\n{said}")


def loaded():
    """The script as a module."""
    loader = importlib.machinery.SourceFileLoader("wrong_bodies", str(TESTS / "wrong_bodies"))
    script = importlib.util.module_from_spec(importlib.util.spec_from_loader("wrong_bodies", loader))
    loader.exec_module(script)
    return script


def wrong_bodies(root, *words):
    ran = subprocess.run([TESTS / "wrong_bodies", "--root", root, "--lanes", "1", *words], capture_output=True, text=True)
    return ran.returncode, ran.stdout + ran.stderr


def try_verdicts(judge):
    """Each edit gets its verdict, though the round as a whole comes to none since a text of it can't be read."""
    status, said = wrong_bodies(judge.root)
    told = dict(re.findall(r"(?m)^  toy/(\w+): (.*)$", said))
    for name, (_, _, wanted) in EDITS.items():
        judge.see(f"the verdict on {name}", told.get(name, "").startswith(wanted), said)
    judge.see("a round that can't be read isn't believed", "round 1 isn't believed" in said, said)
    judge.see("two bodies of one function are in two rounds", "round 2: 2 edits" in said, said)
    judge.see("the status and the last line", status == 1 and said.endswith("\n3 passed, 4 failed, 0 skipped\n"), said)
    judge.see("no digest is kept", not (judge.root / "tests/wrong_bodies.digests").exists(), said)


def try_answers(judge):
    """A body that only a hand-written answer refuses is found not refused, in a round and alone; a wrong one stays
    refused."""
    told_otherwise = ("a < b", "a <= b", "NOT REFUSED: it is proved with it, without its hand-written answers")
    wrong = ("if a < b { a }", "if a < b { b }", "refused: toy::smaller, ")
    for beside in ({"wrong": wrong}, {"not_to_be_read": EDITS["not_to_be_read"]}):
        edits = {"told_otherwise": told_otherwise, **beside}
        put(judge.root, edits)
        _, said = wrong_bodies(judge.root)
        told = dict(re.findall(r"(?m)^  toy/(\w+): (.*)$", said))
        for name, (_, _, wanted) in edits.items():
            judge.see(f"{name} of {sorted(edits)}", told.get(name, "").startswith(wanted), said)
    judge.see("a round that can't be read isn't believed", "round 1 isn't believed" in said, said)


def try_digests(judge):
    """What was refused is tried again only as a control, until a byte changes that the verdict depends on."""
    put(judge.root, {name: EDITS[name] for name in ("above_at_the_bound", "larger_is_smaller")})
    status, said = wrong_bodies(judge.root)
    judge.see("all are refused in one round", status == 0 and said.endswith("\n2 passed, 0 failed, 0 skipped\n"), said)
    status, said = wrong_bodies(judge.root, "toy")
    wanted = "taken on their digests: toy (2)\n0 passed, 0 failed, 2 skipped\n"
    judge.see("named, it is taken on its digest", status == 0 and said == wanted, said)
    tool, crate = judge.folder / "tool", crate_of(judge.root, "toy")
    shutil.copytree(TESTS / "rounds", tool / "rounds", ignore=shutil.ignore_patterns("__pycache__"))
    seen = sums_by(judge, tool)
    judge.see("a copy of the tool has the tool's sums", seen == " ".join(Sums(judge.root).of(crate)), seen)
    own = ("src/lib.rt", "proofs/smaller/Answers.antt", "wrong-bodies/above_at_the_bound.edit")
    own = [judge.root / "crates/toy" / path for path in own]
    judges = {tool / file.relative_to(TESTS) for file in JUDGES}
    judge.same("what judges", {it.name for it in judges}, {"edits.py", "judging.py", "kit.py", "trying.py"})
    for file in [*own, judge.root / "HANDLES", *sorted((tool / "rounds").glob("*.py"))]:
        add_byte(file)
        before, seen = seen.split(" "), sums_by(judge, tool)
        is_own, is_other = "crates" in file.parts, file.parent.name == "rounds" and file not in judges
        changed = [one != other for one, other in zip(before, seen.split(" "))]
        judge.see(f"the sums with a byte more in {file.name}", changed == [is_own, not is_other], str(changed))


def sums_by(judge, tool):
    """The sums of the crate by a copy of the tool."""
    text = "from rounds import kit; from rounds.digests import Sums; import sys; root = sys.argv[1]; "
    words = [sys.executable, "-B", "-c", text + "print(*Sums(root).of(kit.crates_of(root)[0]))", judge.root]
    return subprocess.run(words, cwd=tool, capture_output=True, text=True, check=True).stdout.strip()


def try_stale(judge):
    """--stale tells which crates are stale: for their own files, or only for what is below them."""
    root = judge.folder / "stale"
    put_two(root)
    file, low, toy = root / "tests/wrong_bodies.digests", root / "crates/low/src/lib.rt", root / "crates/toy/src/lib.rt"
    whys = ("own files changed", "only what is below changed")
    own, below = (f"wrong bodies to be tried anew: 1 of 1\n  {why}: toy (1)\n" for why in whys)
    line = keep_digest(root)
    name, count, own_sum, whole = line.split()
    lines = [
        ("no change", line, ""),
        ("another sum of all", f"{name} {count} {own_sum} -\n", below),
        ("another sum of its own", f"{name} {count} {whole} {whole}\n", own),
        ("another count", f"{name} 2 {own_sum} {whole}\n", own),
        ("a line of the old form", f"{name} {count} {own_sum}\n", own),
        ("no line", "", own),
    ]
    for what, text, wanted in lines:
        file.write_text(text, encoding="utf-8")
        judge.same(f"stale after {what}", wrong_bodies(root, "--stale"), (0, wanted))
    edit = root / "crates/toy/wrong-bodies/one_more.edit"
    for changed, wanted in ((low, below), (root / "HANDLES", below), (toy, own), (edit, own)):
        keep_digest(root)
        add_byte(changed)
        what = f"stale after a byte more in {changed.relative_to(root)}"
        judge.same(what, wrong_bodies(root, "--stale"), (0, wanted))
    keep_digest(root)
    (root / "crates.txt").write_text("toy: low # above\nlow:\n", encoding="utf-8")
    judge.same("stale after another line of crates.txt", wrong_bodies(root, "--stale"), (0, own))


def try_order(judge):
    """The stale crates whose own files changed come first, by name, and then the others from the name of the day."""
    states = dict.fromkeys("fdb", State.OWN) | dict.fromkeys("ecg", State.BELOW) | {"a": State.HOLDS}
    for day, wanted in enumerate(("bdfceg", "bdfegc", "bdfgce", "bdfceg")):
        judge.same(f"the order of day {day}", "".join(turns.order_of(states, day)), wanted)
    judge.same("nothing is stale", turns.order_of({"a": State.HOLDS}, 7), [])
    edits = {it: {f"{it}{number:02}" for number in range(count)} for it, count in (("a", 12), ("b", 2), ("c", 25))}
    chosen = turns.control_of(edits, 0)
    judge.same("the control of day 0", chosen, {**edits, "c": {"c00", "c01", "c02", "c03"}})
    chosen = turns.control_of(edits, 4)
    judge.same("the control of day 4", chosen, {"b": edits["b"], "c": {f"c{number:02}" for number in range(4, 20)}})
    left = set().union(*edits.values())
    for day in range(75):
        left -= set().union(*turns.control_of(edits, day).values())
    judge.same("edits that no control of 75 days reaches", left, set())
    judge.same("nothing holds", turns.control_of({}, 7), {})


def begun(line, ends=()):
    """The crates that are begun, in their order, as soon as each fits; those that run end in that order, after the
    seconds of `ends`, once no other fits."""
    order, seconds = [], dict(ends)
    while True:
        while (name := line.begin()) is not None:
            order.append(name)
        if not line.running:
            return "".join(order)
        first = next(iter(line.running))
        line.end(first, seconds.get(first, line.running[first]))


def try_bound(judge):
    """A crate is begun if it stays within the bound with what was spent and with what runs, the first whatever it
    takes; one that doesn't fit is passed over, and may fit later. None is begun that would end too late."""
    counts = {"a": 25, "b": 25, "c": 25, "d": 1, "e": 1}
    runs = [
        ("as expected", turns.Turns(counts, 1_200), (), "abc", "de"),
        ("for less than expected", turns.Turns(counts, 1_200), {"a": 384, "b": 384}, "abcde", ""),
        ("for more than expected", turns.Turns(counts, 1_200), {"a": 401}, "abc", "de"),
        ("a small one first", turns.Turns(counts, 1_199), (), "abde", "c"),
        ("one that is passed over and fits later", turns.Turns(counts, 1_199), {"a": 300}, "abdec", ""),
        ("the first past the bound", turns.Turns(counts, 10), (), "a", "bcde"),
        ("no bound", turns.Turns(counts), (), "abcde", ""),
        ("an end for small ones", turns.Turns(counts, end_by=1_016.5, now=lambda: 1_000.0), (), "de", "abc"),
        ("an end too near", turns.Turns(counts, end_by=1_015.5, now=lambda: 1_000.0), (), "", "abcde"),
    ]
    for what, line, ends, wanted, left in runs:
        judge.same(f"begun: {what}", (begun(line, ends), "".join(line.left)), (wanted, left))
    judge.same("the bounds", (turns.STALE_BOUND, turns.CONTROL_BOUND, turns.AN_EDIT), (1_200, 300, 16))


def try_choice(judge):
    """What a run chooses, and its bound: with names or --all it has none, and with names nothing that holds is tried."""
    root, every = judge.folder / "choice", {"above_at_the_bound", "larger_is_smaller"}
    write(root, {name: EDITS[name] for name in every})
    bounds, states = (None, None, None), (State.OWN, State.BELOW, State.HOLDS)
    for words, wanted in (({}, (1_200, 1_200, 300)), ({"all": True}, bounds), ({"names": ["toy"]}, bounds)):
        for state, bound in zip(states, wanted):
            asked = argparse.Namespace(**{"root": root, "day": 0, "all": False, "names": [], **words})
            run = judge.script.Run(asked, kit.crates_of(root))
            run.states = {"toy": state}
            with contextlib.redirect_stdout(io.StringIO()):
                run.choose()
            chosen = {} if "names" in words and state is State.HOLDS else {"toy": every}
            judge.same(f"chosen by {words} of {state}", (run.bound, run.chosen), (bound, chosen))


def try_left(judge):
    """What a run doesn't reach is named by crate, apart from what is taken on its digest, and fails nothing."""
    root = judge.folder / "left"
    write(root, {name: EDITS[name] for name in ("above_at_the_bound", "larger_is_smaller")})
    count = "0 passed, 0 failed, 2 skipped\n"
    status, said = wrong_bodies(root, "--end-by", "1.5")
    wanted = f"not reached: toy (2)\nown files changed and not tried: toy (2)\n{count}"
    judge.see("own files changed, and not reached", status == 0 and said == wanted, said)
    line = keep_digest(root)
    (root / "tests/wrong_bodies.digests").write_text(f"{line[:-65]}-\n", encoding="utf-8")
    status, said = wrong_bodies(root, "--end-by", "1.5")
    judge.see("what is below changed, and not reached", status == 0 and said == f"not reached: toy (2)\n{count}", said)
    keep_digest(root)
    status, said = wrong_bodies(root, "--end-by", "1.5", "--day", "3")
    wanted = f"all digests hold; tried as the control of --day 3: toy (2)\ntaken on their digests: toy (2)\n{count}"
    judge.see("a control that isn't reached", status == 0 and said == wanted, said)
    status, said = wrong_bodies(root, "--end-by", "1.5", "--all")
    judge.see("all, and not reached", status == 0 and said == f"not reached: toy (2)\n{count}", said)


def try_telling(judge):
    """What came of a crate is given as it ends, while others run, and the next is begun in its lane."""
    is_told, asked = threading.Event(), []

    def one(name):
        # the second waits until the first was told, and would else wait for ever
        is_held = name != "b" or is_told.wait(60)
        return Outcome(name, 1, rows=[{"processor_seconds": 5.0}], notes=[] if is_held else ["it was told too late"])

    line = turns.Turns(dict.fromkeys("abc", 1))
    with concurrent.futures.ThreadPoolExecutor(2) as pool:

        def begin(name):
            asked.append(name)
            return pool.submit(one, name)

        ended = []
        for outcome in lanes.outcomes_of(line, 2, begin):
            ended.append(outcome)
            judge.see(f"lanes as {outcome.crate} ends", len(asked) <= len(ended) + 1, str(asked))
            is_told.set()
    judge.same("what came of each", sorted((it.crate, *it.notes) for it in ended), [("a",), ("b",), ("c",)])
    judge.same("what was spent", (line.spent, line.running, line.left), (15.0, {}, {}))
    for processors, available, wanted in ((4, 23_000_000, 4), (4, 8_999_999, 2), (4, 1_000, 1), (1, 23_000_000, 1)):
        judge.same(f"lanes with {available} kB", lanes.lanes_for(processors, available), wanted)


def try_control(judge):
    """A control finds out a digest over a body that passes."""
    write(judge.root, {name: EDITS["larger_told_otherwise"] for name in ("one", "other")})
    keep_digest(judge.root)
    status, said = wrong_bodies(judge.root, "--day", "1")
    judge.see("it is found out", status == 1 and said.endswith("\n0 passed, 2 failed, 0 skipped\n"), said)
    judge.see("the day is told", said.startswith("all digests hold; tried as the control of --day 1: toy (2)\n"), said)
    text = (judge.root / "tests/wrong_bodies.digests").read_text(encoding="utf-8")
    judge.see("and its digest is gone", text == "", text)


def try_goals(judge):
    """An edit may name the goal that refuses it, which is compared, and is written if that is asked."""
    write(judge.root, {"larger_is_smaller": EDITS["larger_is_smaller"]})
    edit = judge.root / "crates/toy/wrong-bodies/larger_is_smaller.edit"
    text, digests = edit.read_text(encoding="utf-8"), judge.root / "tests/wrong_bodies.digests"
    edit.write_text(f"goal: returns-then-a-b-clause-second\n{text}", encoding="utf-8")
    crate = crate_of(judge.root, "toy")
    verdict = judging.Verdict(judging.Kind.REFUSED, "toy::larger", ("returns-then-a-b-clause-first", "returns"))
    held = judging.compared(edits_of(crate)[0], verdict)
    judge.see("another goal than it names", held.kind is judging.Kind.OTHER and "`returns-then-a-b-clause-second`" in str(held), str(held))
    status, said = wrong_bodies(judge.root, "--write-goals")
    judge.see("goals are written", status == 0, said)
    judge.see("the goal", edit.read_text(encoding="utf-8") == f"goal: returns-then-a-b-clause-first\n{text}", said)
    state = Digests(digests).state("toy", 1, *Sums(judge.root).of(crate))
    judge.see("the digest is of what was written", state is State.HOLDS, said)
    judge.see("the goal that it names", judging.compared(edits_of(crate)[0], verdict) == verdict)


def try_lost(judge):
    """A library that stands isn't built anew. Over one that isn't proved nothing is tried, and no digest is kept."""
    root = judge.folder / "two"
    toy, low = put_two(root), root / "crates/low/src/lib.rt"
    judge.see("the library is built", kit.are_libraries_built(toy, 1))
    rlib, digests = root / "crates/low/out/rlib/low.rlib", root / "tests/wrong_bodies.digests"
    (rlib.parent / "stamp").unlink()
    made = rlib.stat().st_mtime_ns
    status, text = wrong_bodies(root)
    judge.see("it is tried over what stands", status == 0 and text.endswith("\n1 passed, 0 failed, 0 skipped\n"), text)
    judge.see("which isn't built anew", rlib.stat().st_mtime_ns == made and not (rlib.parent / "stamp").exists(), text)
    low.write_text(BOUND.replace("    2\n", "    1\n").replace("result ≡ 2", "result ≡ 1"), encoding="utf-8")
    digests.unlink()
    said = judge.folder / "said"
    said.write_text("rt: low NOT PROVED\n0 passed, 2 failed\n", encoding="utf-8")
    status, text = wrong_bodies(root, "--after-ci", said)
    judge.see("nothing is tried", status == 1 and text.endswith("\n0 passed, 1 failed, 0 skipped\n"), text)
    judge.see("it is told why", "it isn't tried, since it isn't said to be proved: low" in text, text)
    judge.see("no digest is kept", not digests.exists(), text)


def try_libraries(judge):
    """Libraries stand if each is there, newer than its sources and crates.txt, and not older than those below it."""
    root, now = judge.folder / "three", libraries.installed() + 1_000 * 10**9
    lay_out(root, "low:\nmid: low\ntoy: mid low\n")
    for name in ("low", "mid", "toy"):
        for path in (f"crates/{name}/src", f"crates/{name}/proofs/f", f"crates/{name}/out/rlib/{name}.rlib/below"):
            (root / path).mkdir(parents=True)
            (root / path / "lib.rt").write_text("", encoding="utf-8")
    rlibs = [root / f"crates/{name}/out/rlib/{name}.rlib" for name in ("low", "mid")]

    def stands(*later, only=()):
        """Whether they stand with the sources at 10 seconds, the libraries at 20 and 30, and these at others: folders
        with what they hold, and paths alone."""
        ages = [(root, 10), (rlibs[0], 20), (rlibs[1], 30), *later]
        ages = [(it, age) for path, age in ages for it in [path, *path.glob("**/*")]]
        for path, age in [*ages, *only]:
            os.utime(path, ns=(now + age * 10**9,) * 2)
        return libraries.do_stand(root, crate_of(root, "toy"))

    judge.see("they stand", stands())
    judge.see("whatever the crate's own age", stands((root / "crates/toy/src", 90)))
    judge.see("two of one time", stands((rlibs[1], 20)))
    ages = {"crates.txt": 20, "crates/low/src/lib.rt": 20, "crates/low/src": 25, "crates/low/proofs/f": 25}
    for path, age in {**ages, "crates/mid/proofs/f/lib.rt": 35}.items():
        judge.see(f"not with {path} at {age}", not stands(only=[(root / path, age)]))
    judge.see("not with one older than the one below it", not stands((rlibs[1], 19)))
    judge.see("not with one older than the kit", not stands((root, -1_002), (rlibs[0], -1_001), (rlibs[1], 30)))
    stamp, toy = rlibs[0].parent / "stamp", crate_of(root, "toy")
    stamp.write_text("", encoding="utf-8")
    judge.see("not with a stamp of the kit's", not stands())
    stamp.unlink()
    stands()
    calls, real = [], kit.are_libraries_built
    kit.are_libraries_built = lambda crate, jobs: calls.append((crate.name, jobs)) or False
    try:
        judge.see("those that stand are taken", libraries.are_ready(root, toy, 3) and not calls, str(calls))
        shutil.rmtree(rlibs[1])
        judge.see("not without one", not libraries.are_ready(root, toy, 3))
        judge.same("the others are built", calls, [("toy", 3)])
    finally:
        kit.are_libraries_built = real


def try_killed(judge):
    """A check that was killed is made once more, by one process. If that is killed too, nothing is known of the
    edit."""
    crate, real, words = crate_of(judge.root, "toy"), kit.RT.checked, []
    for killed in (-9, 137):
        for after, wanted in ((1, "logic=not-proved"), (killed, "killed")):
            answers, words[:] = iter([(killed, "killed"), (after, wanted), (0, "a third")]), []

            def checked(*how):
                words.append(how[2])
                return types.SimpleNamespace(**dict(zip(("returncode", "stdout"), next(answers))))

            kit.RT.checked = checked
            try:
                judge.same(f"killed, and then {after}", kit.check(crate, {}, ["f"], 2, "kept"), (after, wanted))
            finally:
                kit.RT.checked = real
            judge.same("how it was made", words, [["--jobs", number, "--only", "f"] for number in ("2", "1")])
    real, kit.check = kit.check, lambda *_: (-9, "killed")
    try:
        verdict, _ = judging.judged(crate, {}, set(), 1, "kept")
    finally:
        kit.check = real
    judge.see("nothing is known of it", verdict.kind is judging.Kind.UNREADABLE, str(verdict))


def try_gone(judge):
    """If neither the hand-written answers fit nor the search proves it without them, nothing is known of the edit."""
    put(judge.root, {"goal_is_gone": EDITS["goal_is_gone"]})
    crate = kit.crates_of(judge.root)[0]
    rounds, places, _ = rounds_of(crate, edits_of(crate))
    gone = "./proofs/smaller/Answers.antt:4:38: error: module `Goals` has no `returns-then-a-b-clause-second`\n"
    own = "no proof: expected answers; `search` did not prove `returns-then-b-a-clause-first`"
    report = report_of({"toy::smaller": own})
    checks = iter([gone + report, gone + report, report])
    real, kit.check = kit.check, lambda *_: (1, next(checks))
    try:
        verdicts, _ = judging.try_round(crate, rounds[0], places, 1, judge.root)
    finally:
        kit.check = real
    kinds = [it.kind for it in verdicts.values()]
    judge.see("an answer that names a goal which is gone is no refusal", kinds == [judging.Kind.GONE], str(verdicts))
    judge.see("it was tried without its answers", next(checks, None) is None, str(verdicts))


def try_disbelief(judge):
    """A round is not believed if the check refuses a function that no edit touches: then each edit is tried alone."""
    put(judge.root, {"above_at_the_bound": EDITS["above_at_the_bound"]})
    crate = kit.crates_of(judge.root)[0]
    rounds, places, _ = rounds_of(crate, edits_of(crate))
    own = "no proof: expected answers; `search` did not prove `returns`"
    below = "no proof: it calls `toy::is_above`, which is not proved"
    beside = [{"toy::is_above": own, "toy::one_more": own}, {"toy::is_above": own, "toy::one_more": below}]
    said = iter(beside)
    real, kit.check = kit.check, lambda *_: (1, report_of(next(said)))
    try:
        verdicts, why = judging.try_round(crate, rounds[0], places, 1, judge.root)
    finally:
        kit.check = real
    judge.see("the round is not believed", why == "toy::one_more is refused for itself, but not edited", str(why))
    judge.see("its edit was tried alone", next(said, None) is None, str(verdicts))
    kinds = [it.kind for it in verdicts.values()]
    judge.see("and found refused", kinds == [judging.Kind.REFUSED], str(verdicts))


def try_proved(judge):
    """After `rt ci` a crate is tried if that said of each library below it that it stands."""
    low_and_toy, said = [types.SimpleNamespace(name="low"), types.SimpleNamespace(name="toy")], judge.root / "said"
    texts = [
        ("nothing", "", ["low", "toy"]),
        ("one of both", "rt: low proved\nrt: toy: its tests are proved\n", ["toy"]),
        ("one that isn't proved", "rt: low proved\nrt: toy NOT PROVED\n", ["toy"]),
        ("both", "rt: toy proved\nrt: low is kept: an earlier run proved the same\n", []),
    ]
    judge.same("without its file", libraries.unproved(low_and_toy, said), ["low", "toy"])
    for what, text, wanted in texts:
        said.write_text(text, encoding="utf-8")
        judge.same(f"after {what}", libraries.unproved(low_and_toy, said), wanted)
    put(judge.root, {"above_at_the_bound": EDITS["above_at_the_bound"]})
    status, text = wrong_bodies(judge.root, "--all", "--after-ci", said)
    judge.see("it tries them with what stands", status == 0 and text.endswith("\n1 passed, 0 failed, 0 skipped\n"), text)


def report_of(functions):
    return "".join(f"fn {name}: {status}\n" for name, status in functions.items()) + "logic=not-proved\n"


PARTS = (
    try_order,
    try_bound,
    try_choice,
    try_left,
    try_stale,
    try_telling,
    try_libraries,
    try_killed,
    try_verdicts,
    try_answers,
    try_digests,
    try_control,
    try_goals,
    try_gone,
    try_lost,
    try_disbelief,
    try_proved,
)

if __name__ == "__main__":
    sys.exit(program.main(__doc__, Judge, PARTS))
