#!/usr/bin/env -S python3 -B
"""Builds made-up crates by tools/build_desk.py and by ./desk, with builds/rt in the place of rt: proves nothing.

    build_crates.py

A crate begins once those below it stand, the longest chain first, as many as the processors and the memory allow; a crate that
fails is named and stops the others; a build that is stopped or killed is gone on with by the next; what stands isn't proved
again; `./desk replay` builds its own small program alone, and any other command the whole. Ends with the line
'N passed, N failed'.
"""

import os
import pathlib
import pty
import re
import shutil
import signal
import subprocess
import sys
import time

from lib import program
from lib.program import PATIENCE, ROOT, TESTS
from lib.server import heed_interrupts
from lib.tally import Tally

sys.path.insert(0, str(ROOT / "tools"))
from crate_plan import Plan, needs, read_crates  # noqa: E402

CRATES = """\
# The made-up crates, with libraries of the kit.
base: csv
streams:
score: base csv
files: base
words: base streams
board: base score files
replay: base streams board words
store: base # on a disk
store_tests: base store
quick_replay: replay words
desk: replay store
"""
LINES = {"score": 1600, "words": 1000}
# In the order of the plan.
QUICK = ["base", "streams", "score", "files", "board", "words", "replay"]
BELOW = {name: [it for it in below if it in read_crates(CRATES)] for name, below in read_crates(CRATES).items()}


class Made:
    """A repository of made-up crates."""

    def __init__(self, folder):
        self.top = folder
        shutil.copytree(ROOT / "tools", folder / "tools")
        shutil.copy(ROOT / "desk", folder)
        for name, text in {"crates.txt": CRATES, "kit": "kit one\n", "said": "", "fails": ""}.items():
            (folder / name).write_text(text, encoding="utf-8")
        for crate in read_crates(CRATES):
            self.write(crate, "// A line of code.\n" * LINES.get(crate, 20))
        self.env = {**os.environ, "MADE_UP": str(folder), "PATH": f"{TESTS / 'builds'}:{os.environ['PATH']}", "TERM": "dumb"}

    def write(self, crate, text):
        root = "main" if crate in ("desk", "quick_replay") else "lib"
        source = self.top / "crates" / crate / "src" / f"{root}.rt"
        source.parent.mkdir(parents=True, exist_ok=True)
        source.write_text(text, encoding="utf-8")

    def takes(self, crate, seconds):
        (self.top / f"{crate}.takes").write_text(f"{seconds}\n", encoding="utf-8")

    def fails(self, *crates):
        (self.top / "fails").write_text("".join(f"{it}\n" for it in crates), encoding="utf-8")

    def said(self):
        """What the builds of rt did since this was asked last, each as a word, the crate and its jobs."""
        file = self.top / "said"
        lines = [line.rsplit(" ", 2) for line in file.read_text(encoding="utf-8").splitlines()]
        file.write_text("", encoding="utf-8")
        return [(word, crate, int(jobs)) for word, crate, jobs in lines]

    def start(self, *words, processors=None, **how):
        """Starts a command in the repository, on so many of the processors."""
        bound = ["taskset", "-c", ",".join(map(str, sorted(os.sched_getaffinity(0))[:processors]))]
        pipes = {"stdin": subprocess.DEVNULL, "stdout": subprocess.PIPE, "stderr": subprocess.PIPE, "text": True}
        how = {**pipes, "preexec_fn": heed_interrupts, **how}
        return subprocess.Popen([*bound, *words], cwd=self.top, env=self.env, **how)

    def build(self, name="quick_replay", **how):
        """The status of a build, and what it tells."""
        running = self.start("python3", "-B", "tools/build_desk.py", name, **how)
        told = running.communicate(timeout=PATIENCE)[1]
        return running.returncode, told

    def left_apart(self):
        return [str(path.relative_to(self.top)) for path in self.top.glob("crates/*/out/apart")]

    def wait_for(self, event, *crates):
        """Waits until rt has done this, and these crates are proved."""
        until, marks = time.monotonic() + PATIENCE, [self.top / "crates" / it / "out/proved" for it in crates]
        while time.monotonic() < until:
            if event in (self.top / "said").read_text(encoding="utf-8") and all(it.is_file() for it in marks):
                return
            time.sleep(0.02)


def begun_in(said):
    return [crate for word, crate, _ in said if word == "begin"]


class Builds(Tally):
    """The made-up repositories, and what was counted."""

    def __init__(self, _, folder):
        super().__init__()
        self.folder, self.made = folder.resolve(), 0

    def reads(self, pattern, line):
        self.note(re.fullmatch(pattern, line) is not None, f"{line!r}, wanted {pattern}")

    def new(self):
        self.made += 1
        folder = self.folder / f"made{self.made}"
        folder.mkdir()
        return Made(folder)


def try_plans(builds):
    """What is begun, by processors and memory, where nothing runs."""
    plan = Plan("desk", read_crates(CRATES), lambda crate: LINES.get(crate, 20))
    builds.same("the crates", plan.crates, [*QUICK, "store", "desk"])
    ample, base = 64 << 30, {"base", "streams"}
    builds.same("from nothing", plan.begin(set(), {}, 4, ample), {"base": 3, "streams": 1})
    builds.same("what is longest is first", list(plan.begin(base, {}, 6, ample)), ["score", "words", "files", "store"])
    builds.same("the longest has the rest", plan.begin(base, {}, 6, ample), {"score": 3, "words": 1, "files": 1, "store": 1})
    builds.same("two processors", plan.begin(base, {}, 2, ample), {"score": 1, "words": 1})
    builds.same("one is busy", plan.begin(base, {"score": 3}, 4, ample), {"words": 1})
    builds.same("all are busy", plan.begin(base, {"score": 2, "words": 2}, 4, ample), {})
    builds.same("no memory", plan.begin(base, {}, 4, 0), {"score": 1})
    builds.same("no memory beside another", plan.begin(base, {"score": 1}, 4, 0), {})
    builds.same("memory for two", plan.begin(base, {}, 4, 2 * needs(1)), {"score": 1, "words": 1})
    builds.same("memory for a second job", plan.begin({*base, "score", "files", "words", "store"}, {}, 4, needs(2)), {"board": 2})
    last = plan.begin({*base, "score", "files", "board", "words", "store"}, {}, 9, ample)
    builds.same("no crate has more jobs than it can use", last, {"replay": 4})
    even = Plan("desk", read_crates("desk: a b\na:\nb:\n"), lambda crate: 1000)
    builds.same("even chains share", even.begin(set(), {}, 4, ample), {"a": 2, "b": 2})
    builds.same("all stand", plan.begin(set(plan.crates), {}, 4, ample), {})
    whole = plan.time_left(set(), {}, {}, 1, 4, ample)
    builds.note(plan.seconds["score"] < whole < sum(plan.seconds.values()), f"the time of all: {whole}")
    builds.note(plan.time_left(set(), {}, {}, 1, 1, ample) > whole, "one processor is no faster than four")
    builds.same("a pace of 2", round(plan.time_left(set(), {}, {}, 2, 4, ample) - 2 * whole, 6), 0)
    half = plan.time_left(base, {"score": 4}, {"score": plan.time_of("score", 4) / 2}, 1, 4, ample)
    builds.note(half < plan.time_left(base, {"score": 4}, {"score": 0}, 1, 4, ample), f"the time that is gone counts: {half}")
    builds.same("nothing is left", plan.time_left(set(plan.crates), {}, {}, 1, 4, ample), 0)


def held(builds, what, said, most):
    """Every crate begins after those below it ended, and never more than so many jobs run."""
    ended, jobs, highest = set(), {}, 0
    for word, crate, number in said:
        if word == "begin":
            lacking = [it for it in BELOW[crate] if it not in ended]
            builds.same(f"{what}: {crate} begins", lacking, [])
            jobs[crate] = number
            highest = max(highest, sum(jobs.values()))
        elif word == "end":
            ended.add(crate)
            jobs.pop(crate)
    builds.note(0 < highest <= most, f"{what}: {highest} jobs at once, at most {most}")
    return highest


def try_order(builds):
    for processors, most in ((1, 2), (2, 3), (4, 5)):
        if processors <= len(os.sched_getaffinity(0)):
            made = builds.new()
            status, told = made.build("desk", processors=processors)
            said = made.said()
            what = f"{processors} processors"
            builds.same(f"{what}: status", (status, "proves 8 crates, and then the program desk" in told), (0, True))
            begun = begun_in(said)
            builds.same(f"{what}: each once", sorted(begun), sorted([*QUICK, "store", "desk"]))
            highest = held(builds, what, said, most)
            builds.note(highest > 1, f"{what}: none ran beside another")
            if processors == 1:
                # Two begin at once, in either order, and the others later.
                builds.same("what begins with the longest chain", set(begun[2:4]), {"score", "words"})
            builds.same(f"{what}: what is left", made.left_apart(), [])
            again, told = made.build("desk")
            builds.same(f"{what}: again", (again, [crate for _, crate, _ in made.said()]), (0, ["desk"] * 3))
            builds.note("proves 0 crates, 8 more stand" in told, told)


def try_words(builds):
    """What is told: how many crates at once, each crate as it begins, the functions, the time, and after a crate its pace."""
    made = builds.new()
    made.takes("base", 1.5)
    told = made.build()[1].splitlines()
    builds.same("first", told[0], "desk: proves 7 crates, and then the program quick_replay, which it builds")
    builds.reads(r"desk: some \d+ min on a machine like ours; the first crate's pace tells how long on this one", told[1])
    builds.reads(r"desk: 0:00 gone, perhaps \d+:\d\d left; 0 of 8 crates proved, now base[^,]*, streams[^,]*", told[2])
    builds.reads(r"desk: \d:\d\d gone, about \d+:\d\d left; 1 of 8 crates proved, now base \(3 of 7 functions\)", told[3])
    builds.reads(r"desk: proved and built in 0:\d\d, by \d+ seconds of a processor", told[-1])
    builds.note(len(told) < 30, told)
    made.env["TERM"] = "xterm"
    made.write("base", "// Other code.\n")
    ours, theirs = pty.openpty()
    running = made.start("python3", "-B", "tools/build_desk.py", "quick_replay", stderr=theirs, stdout=subprocess.DEVNULL)
    os.close(theirs)
    shown = read_all(ours)
    builds.same("on a terminal", running.wait(PATIENCE), 0)
    builds.note(shown.count("\n") == 3 and shown.count("\r\033[K") > 5 and "of 8 crates proved" in shown, shown)


def read_all(terminal):
    """All that is written to a terminal until its other end is closed."""
    shown = b""
    try:
        while data := os.read(terminal, 65536):
            shown += data
    except OSError:
        pass
    return shown.decode()


def try_failure(builds):
    made = builds.new()
    made.fails("files")
    made.takes("score", 30)
    start = time.monotonic()
    status, told = made.build(processors=None)
    said = made.said()
    log = made.top / "crates/files/out/build.log"
    # On a busy machine words is stopped too, or hasn't begun.
    stopped = sorted(set(begun_in(said)) - {crate for word, crate, _ in said if word == "end"})
    builds.note({"files", "score"} <= set(stopped) <= {"files", "score", "words"}, f"what was stopped: {stopped}")
    builds.same("a crate that fails: status", status, 1)
    builds.note(f"files isn't proved and built (status 1); what rt said is in {log}" in told, told)
    builds.same("its log", log.read_text(encoding="utf-8"), "so far: 3 of 7 functions checked\n")
    builds.note(time.monotonic() - start < 20, "the others went on")
    builds.same("what was above it", {"board", "replay", "quick_replay"} & set(begun_in(said)), set())
    builds.same("what is left", made.left_apart(), [])
    made.fails()
    made.takes("score", 0.1)
    builds.same("mended", made.build()[0], 0)
    said = made.said()
    builds.same("what goes on", sorted(crate for word, crate, _ in said if word == "goes on"), stopped)
    builds.same("what isn't proved again", {"base", "streams"} & set(begun_in(said)), set())
    made.fails("quick_replay")
    made.write("quick_replay", "// Other code.\n")
    status, told = made.build()
    builds.note(status == 1 and "quick_replay isn't proved and built" in told, told)
    builds.same("other words", made.build("score")[0], 2)


def try_stops(builds):
    """Builds that are stopped by Ctrl-C or by a signal, or killed."""
    for number, wanted in ((signal.SIGINT, 1), (signal.SIGTERM, 1), (signal.SIGKILL, -signal.SIGKILL)):
        made, what = builds.new(), f"stopped by {number.name}"
        made.takes("score", 30)
        running = made.start("python3", "-B", "tools/build_desk.py", "quick_replay", start_new_session=True)
        made.wait_for("begin score", *QUICK[:2], "files", "words")
        os.killpg(running.pid, number) if number == signal.SIGINT else running.send_signal(number)
        told = running.communicate(timeout=PATIENCE)[1]
        builds.same(f"{what}: status", running.returncode, wanted)
        if number != signal.SIGKILL:
            builds.note("the build was stopped; the next one goes on from there" in told, told)
            builds.same(f"{what}: copies", made.left_apart(), [])
            builds.note((made.top / "crates/score/out/incremental/work").is_file(), f"{what}: what rt kept is gone")
        else:
            builds.note(made.left_apart() != [], f"{what}: no copy is left, so this shows nothing")
            os.killpg(running.pid, signal.SIGKILL)
        before = made.said()
        made.takes("score", 0.1)
        builds.same(f"{what}: the next", made.build()[0], 0)
        said = made.said()
        builds.note(("goes on", "score") in [it[:2] for it in said], f"{what}: score doesn't go on: {said}")
        ended = {crate for word, crate, _ in before if word == "end"}
        again = ended & set(begun_in(said))
        builds.same(f"{what}: what ended, and what of it is proved again", (len(ended), again), (4, set()))
        builds.same(f"{what}: copies after the next", made.left_apart(), [])


def try_changes(builds):
    """What is proved again once something has changed."""
    made = builds.new()
    made.build("desk")
    made.said()
    crates, kit, stamp = (made.top / it for it in ("crates.txt", "kit", "crates/store/out/rlib/stamp"))
    for what, change, wanted in (
        ("a crate", lambda: made.write("files", "// Other code.\n"), ["files", "board", "replay", "desk"]),
        ("crates.txt", lambda: crates.write_text(CRATES.replace("words: base", "words: base csv")), ["words", "replay", "desk"]),
        ("a crate of tests", lambda: made.write("store_tests", "// Other code.\n"), ["desk"]),
        ("the kit", lambda: kit.write_text("kit two\n"), [*QUICK, "store", "desk"]),
        ("a library that is gone", lambda: shutil.rmtree(made.top / "crates/words/out"), ["words", "desk"]),
        ("a library that another run built", lambda: stamp.write_text("another"), ["store", "desk"]),
    ):  # fmt: skip
        change()
        status = made.build("desk")[0]
        begun = begun_in(made.said())
        builds.same(f"changed: {what}", (status, sorted(begun)), (0, sorted(wanted)))


def try_two(builds):
    """Of two builds at once the second waits for the first, and proves nothing again."""
    made = builds.new()
    made.takes("base", 1)
    first = made.start("python3", "-B", "tools/build_desk.py", "quick_replay")
    made.wait_for("begin base")
    status, told = made.build("desk")
    first.communicate(timeout=PATIENCE)
    begun = begun_in(made.said())
    builds.same("two builds", (first.returncode, status), (0, 0))
    builds.note("another run of rt is at work on these crates; waiting for it" in told, told)
    builds.same("each once", sorted(begun), sorted([*QUICK, "quick_replay", "store", "desk"]))


def run_desk(made, *words):
    """What ./desk prints, its status, and which programs it built."""
    running = made.start("./desk", *words, stdin=subprocess.PIPE)
    out, _ = running.communicate("a line\n", timeout=PATIENCE)
    return out, running.returncode, [it for it in begun_in(made.said()) if it in ("desk", "quick_replay")]


def try_commands(builds):
    """Which program a command builds and runs."""
    made = builds.new()
    small, whole = "quick_replay --at 1:00:00\na line\n", "desk replay --at 1:00:00\na line\n"
    replay = ["replay", "--at", "1:00:00"]
    builds.same("replay at first", run_desk(made, *replay), (small, 0, ["quick_replay"]))
    builds.same("replay once it is built", run_desk(made, *replay), (small, 0, []))
    builds.same("another command", run_desk(made, "init", "cup.db"), ("desk init cup.db\na line\n", 0, ["desk"]))
    builds.same("replay once all is built", run_desk(made, *replay), (whole, 0, []))
    time.sleep(0.05)
    made.write("store", "// Other code.\n")
    builds.same("replay once a source is newer", run_desk(made, *replay), (small, 0, ["quick_replay"]))
    builds.same("no words", run_desk(made), ("desk\na line\n", 0, ["desk"]))
    made.fails("desk")
    made.write("store", "// Still other code.\n")
    builds.same("a build that fails", run_desk(made, "init"), ("", 1, ["desk"]))


if __name__ == "__main__":
    PARTS = (try_plans, try_order, try_words, try_failure, try_stops, try_changes, try_two, try_commands)
    sys.exit(program.main(__doc__, Builds, PARTS))
