#!/usr/bin/env -S python3 -B
"""Judges .ci/run and tests/run_parts.py on a small repository in a temporary folder, whose parts say what they are told to, and
what they are made of by itself.

    gate_run.py

The last line adds up what the parts count, and the status is 0 if none failed. A part fails that says no count, whose status
isn't that of its count, or that takes longer than its limit. What couldn't be tried is named before the last line, which counts
it; of wrong bodies it is told apart. What fails with a browser or nginx runs once more. Scripts run side by side, the longest
first, and never two that need the same for themselves. A tool that lacks is installed first, or else the gate fails; .ci/run
and tests/README.md name the same packages. Ends with the line `N passed, M failed`.
"""

import collections
import os
import pathlib
import re
import shutil
import signal
import subprocess
import sys
import tempfile
import threading
import time

from lib.program import ROOT, TESTS
from lib.tally import Tally
from parts import part, pool, table
from parts.report import HEAD

RUN = (ROOT / ".ci/run").read_text(encoding="utf-8")
# What .ci/run calls beside the parts and the tools that it looks for.
BASICS = "bash env dirname date cat chmod python3 sleep touch umount".split()
# The rows of the small table: the scripts, what each needs for itself, and whether it may be repeated.
ROWS = {
    "quick": ("9", "-", "-"),
    "lone": ("5", "alone", "again"),
    "pages": ("7", "-", "again"),
    "pages --browser firefox": ("7", "-", "again"),
}
FINE = ("2 passed, 0 failed", 0)
COUNTING = ("gate_scripts.py", "wrong_bodies", "quick", "lone", "pages", "rt")
# The usual parts: what each says, and its status. Each row of PARTS has others in their place, then the last line, the
# status, and the lines that are told before the last one.
USUAL = dict.fromkeys(COUNTING, FINE)
REASON = "skipped: no fresh root: no mirror\nskipped: no browser\n"
KNOWN = "taken on their digests: low (3), toy (4)\nnot reached: mid (2)\nown files changed and not tried: mid (2)\n"
PARTS = [
    ("all is well", {}, "14 passed, 0 failed", 0, []),
    ("wrong bodies that aren't tried", {"wrong_bodies": (f"{KNOWN}3 passed, 0 failed, 9 skipped", 0)}, "15 passed, 0 failed", 0,
     ["== taken on their digests: 7 wrong bodies", "== wrong bodies not reached: mid (2)",
      "== wrong bodies own files changed and not tried: mid (2)"]),
    ("what couldn't be tried", {"lone": (f"{REASON}1 passed, 0 failed, 2 skipped", 0)}, "13 passed, 0 failed, 2 skipped", 0,
     ["== not tried: tests/lone: no fresh root: no mirror", "== not tried: tests/lone: no browser"]),
    ("without a reason", {"quick": ("1 passed, 0 failed, 4 skipped", 0)}, "13 passed, 0 failed, 4 skipped", 0,
     ["== not tried: tests/quick: 4 cases"]),
    ("a part that fails", {"quick": ("FAILED: x\n1 passed, 1 failed", 1)}, "13 passed, 1 failed", 1,
     ["== failed: tests/quick", "== tests/quick: FAILED: x"]),
    ("no count", {"quick": ("Traceback", 1)}, "12 passed, 1 failed", 1, ["tests/quick said no count; its status is 1"]),
    ("no count, and status 0", {"quick": ("", 0)}, "12 passed, 1 failed", 1, ["tests/quick said no count; its status is 0"]),
    ("a status of its own", {"quick": ("2 passed, 0 failed", 3)}, "14 passed, 1 failed", 1,
     ["tests/quick counted no failure, but its status is 3"]),
    ("a line after the count", {"quick": ("2 passed, 0 failed\nthe browser says goodbye", 0)}, "14 passed, 0 failed", 0, []),
    ("proofs that fail", {"rt": ("rt: toy NOT PROVED\n1 passed, 3 failed", 1)}, "13 passed, 3 failed", 1,
     ["== failed: rt ci", "== rt ci: rt: toy NOT PROVED"]),
]  # fmt: skip


def array(name):
    """The words of a list in .ci/run."""
    return re.search(rf"(?s)^{name}=\((.*?)\)$", RUN, re.M)[1].split()


def write(path, text):
    path.parent.mkdir(parents=True, exist_ok=True)
    path.write_text(text, encoding="utf-8")
    path.chmod(0o755)


class Repository:
    """A repository whose parts say what they are told to, and a folder of all programs that are there."""

    def __init__(self, folder, parts, lacking=(), brings=()):
        self.top, self.tools = folder / "top", folder / "tools"
        write(self.top / ".ci/run", RUN)
        write(self.top / "bench/gate", "#!/bin/sh\necho counted\n")
        rows = ["\t".join([*cells, f"tests/{name}"]) + "\n" for name, cells in ROWS.items()]
        write(self.top / "tests/scripts.tsv", "".join(rows))
        shutil.copy(TESTS / "run_parts.py", self.top / "tests")
        shutil.copytree(TESTS / "parts", self.top / "tests/parts", ignore=shutil.ignore_patterns("__pycache__"))
        for name in BASICS:
            (self.tools / name).parent.mkdir(exist_ok=True)
            (self.tools / name).symlink_to(sys.executable if name == "python3" else shutil.which(name))
        for name, (text, status) in parts.items():
            self.put(name, f"cat <<'END'\n{text}\nEND\nexit {status}\n")
        for name in array("tools"):
            if name not in lacking and "/" not in name:
                write(self.tools / name, "#!/bin/sh\n")
        comes = "".join(f"echo >{self.tools}/{name}; chmod +x {self.tools}/{name}\n" for name in brings)
        write(self.tools / "apt-get", f'#!/bin/bash\necho "$@" >>{folder}/asked\n{comes}')
        self.asked = folder / "asked"

    def put(self, name, text):
        """Has a part run these lines. The wrong bodies are tried only where they aren't to be listed."""
        early = 'case "$*" in *--list* | *--stale*) echo "asked: $*"; exit 0 ;; esac\n' if name == "wrong_bodies" else ""
        write(self.tools / name if name == "rt" else self.top / "tests" / name, f"#!/bin/bash\n{early}{text}")

    def begun(self, *words, **env):
        how = {"stdout": subprocess.PIPE, "stderr": subprocess.STDOUT, "text": True}
        return subprocess.Popen([self.top / ".ci/run", *words], env={"PATH": str(self.tools), "HOME": "/", **env}, **how)

    def runs(self, *words, **env):
        """The lines that .ci/run prints, and its status."""
        process = self.begun(*words, **env)
        said = process.communicate(timeout=300)[0]
        return said.splitlines(), process.returncode


def judged(tally, what, repository, last, status, told):
    """Whether .ci/run ends so; and what it said."""
    lines, given = repository.runs()
    tally.same(f"{what}: the end", (lines[-1:], given), ([last], status))
    for line in told:
        tally.note(line in lines[:-1], f"{what}: {line!r} isn't told: {lines}")
    apart = ("== taken on", "== not tried", "== wrong bodies", "== shaky")
    wrong = [line for line in lines if line.startswith(apart) and line not in told]
    tally.same(f"{what}: what is told beside that", wrong, [])


def made(folder, parts=None, **how):
    return Repository(pathlib.Path(folder), {**USUAL, **(parts or {})}, **how)


def try_parts(tally):
    for what, parts, *wanted in PARTS:
        with tempfile.TemporaryDirectory() as folder:
            judged(tally, what, made(folder, parts), *wanted)


def try_order(tally):
    """What is cheap comes first, then the proofs, then the scripts, and the other browsers and the wrong bodies at the end."""
    with tempfile.TemporaryDirectory() as folder:
        lines, _ = made(folder).runs()
    heads = [line.removeprefix("== ") for line in lines if re.match(r"== (tests/|rt ci|bench/)", line)]
    tally.same("first", heads[:4], ["bench/gate --count", "tests/gate_scripts.py", "tests/wrong_bodies --stale", "rt ci"])
    tally.same("then the stale ones once more", heads[4:5], ["tests/wrong_bodies --stale"])
    tally.same("side by side, and then alone", (set(heads[5:7]), heads[7:8]), ({"tests/quick", "tests/pages"}, ["tests/lone"]))
    ends = [head.split(" --after")[0] for head in heads[8:]]
    tally.same("at the end", ends, ["tests/wrong_bodies", "tests/pages --browser firefox"])
    rows = [line.split(maxsplit=4) for line in lines[lines.index(HEAD) + 1 :]]
    counted = {row[4]: row[1:4] for row in rows if len(row) > 4}
    tally.same("the table", counted["tests/quick"], ["2", "0", "0"])
    stamps = [line for line in lines if re.fullmatch(r"== ended at \d\d:\d\d:\d\d after \d+ s", line)]
    tally.same("each part's end", len(stamps), len(heads))


def try_options(tally):
    """`rt ci` finds CI and no RT_JOBS around it, and no library that was built before. --all and what it said are handed on;
    --browsers asks for all browsers."""
    with tempfile.TemporaryDirectory() as folder:
        repository = made(folder)
        repository.put("rt", 'echo "CI=$CI RT_JOBS=$RT_JOBS" crates/*/out/*\necho "2 passed, 0 failed"\n')
        write(repository.top / "crates/toy/out/rlib/toy.rlib/format", "old")
        write(repository.top / "crates/toy/out/kept", "old")
        repository.put("wrong_bodies", 'echo "asked: $*"\ncat "$2"\necho "2 passed, 0 failed"\n')
        repository.put("pages", "# --browser\necho 2 passed, 0 failed\n")
        lines, _ = repository.runs("--all", "--browsers", CI="true", RT_JOBS="4")
    told = "CI=true RT_JOBS= crates/toy/out/kept"
    tally.note(told in lines, f"what rt ci finds around it: {lines}")
    asked = [line for line in lines if line.startswith("asked: --after-ci ")]
    tally.note(len(asked) == 1 and asked[0].endswith(" --all"), f"what the wrong bodies are asked: {asked}")
    tally.same("how often what rt ci said is shown", lines.count(told), 2)
    browsers = sorted(line for line in lines if line.startswith("== tests/pages --browser"))
    tally.same("browsers", browsers, [f"== tests/pages --browser {name}" for name in ("firefox", "webkit")])


def try_lateness(tally):
    """Two and a half hours after the begin, what may be left out is, and is named; the rest isn't."""
    with tempfile.TemporaryDirectory() as folder:
        repository = made(folder)
        repository.put("wrong_bodies", 'echo "until ${4%.*}"\necho "2 passed, 0 failed"\n')
        began = int(time.time()) - 151 * 60
        text = (repository.top / ".ci/run").read_text(encoding="utf-8")
        write(repository.top / ".ci/run", text.replace("began=$(date +%s)", f"began={began}"))
        lines, status = repository.runs()
    tally.same("the end", (lines[-1], status), ("12 passed, 0 failed", 0))
    told = "== not tried: tests/pages --browser firefox: it was too late to begin"
    tally.note(told in lines, f"what was left out isn't named: {lines}")
    tally.note(f"until {began + 150 * 60}" in lines, f"when the wrong bodies have to end: {lines}")


def try_repeats(tally):
    """What fails with a browser runs once more: it is told if it holds then, and fails if it fails twice. Others don't."""
    fails = "touch {0}/seen; echo FAILED: late; echo 1 passed, 1 failed; exit 1"
    once = f"if [ -e {{0}}/seen ]; then echo 2 passed, 0 failed; else {fails}; fi\n"
    for name, last, status in (("pages", "14 passed, 0 failed", 0), ("quick", "13 passed, 1 failed", 1)):
        with tempfile.TemporaryDirectory() as folder:
            repository = made(folder)
            repository.put(name, once.format(folder))
            lines, given = repository.runs()
            tally.same(f"{name} fails once", (lines[-1], given), (last, status))
            shaky = [line for line in lines if line.startswith("== shaky")]
            tally.same(f"{name} is told", shaky, ["== shaky: tests/pages: FAILED: late"] * (name == "pages"))
    with tempfile.TemporaryDirectory() as folder:
        repository = made(folder, {"lone": ("FAILED: always\n1 passed, 1 failed", 1)})
        judged(tally, "what fails twice", repository, "13 passed, 1 failed", 1, ["== tests/lone: FAILED: always"])


def try_end(tally):
    """A run that is ended says so, and what it counted."""
    with tempfile.TemporaryDirectory() as folder:
        repository = made(folder)
        repository.put("rt", f"touch {folder}/begun\nsleep 600\n")
        process = repository.begun()
        while not pathlib.Path(folder, "begun").exists() and process.poll() is None:
            time.sleep(0.05)
        process.send_signal(signal.SIGTERM)
        lines = process.communicate(timeout=90)[0].splitlines()
    tally.same("the end", (lines[-1], process.returncode), ("2 passed, 1 failed", 1))
    tally.note("== the run: somebody ended the run" in lines, f"why: {lines}")


# A program that leaves servers and a disk behind, if it is ended.
LEAVES = """setsid sleep 600 &
TMPDIR=$TMPDIR/own setsid sleep 600 &
mkdir $TMPDIR/disk
mount -t tmpfs none $TMPDIR/disk
echo begun
"""


def left_of(folder):
    """The processes and the disks that are left of a folder."""
    mounts = pathlib.Path("/proc/self/mounts").read_text(encoding="utf-8").splitlines()
    processes = [one.name for one in pathlib.Path("/proc").glob("[0-9]*") if part.is_of(one, folder)]
    return processes, [line for line in mounts if str(folder) in line]


def try_limit(tally):
    """A part that takes longer than its limit is ended with all that it began, and fails; what it mounted is gone."""
    with tempfile.TemporaryDirectory() as folder:
        place = pathlib.Path(folder, "1")
        outcome = part.run("slow", ["bash", "-c", f"{LEAVES}sleep 600"], place, limit=2)
        tally.same("what it said", (outcome.text, outcome.failed), ("begun\n", 1))
        tally.same("why it failed", outcome.failures(), ["slow was ended, since it took more than 2 s"])
        tally.same("what is left", left_of(place), ([], []))


def try_folder(tally):
    """Other users may enter the folder of a run, and write to that of a part."""
    with tempfile.TemporaryDirectory() as place, part.owned(pathlib.Path(place)) as folder:
        outcome = part.run("modes", ["stat", "-c", "%a", str(folder), str(folder / "1")], folder / "1", counts=False)
    tally.same("the modes of both", outcome.text, "755\n1777\n")


def try_remains(tally):
    """What a run left that was killed is cleared away by the next, but not what a run has that goes on."""
    with tempfile.TemporaryDirectory() as place:
        top, dead = pathlib.Path(place), pathlib.Path(place, f"{part.PREFIX}1")
        dead.mkdir()
        subprocess.run(["bash", "-c", LEAVES], env={**os.environ, "TMPDIR": str(dead)}, check=True, stdout=subprocess.DEVNULL)
        with part.owned(top) as living:
            part.clear_dead(top)
            tally.same("a run that goes on", living.is_dir(), True)
        tally.same("one that doesn't", (dead.exists(), *left_of(dead)), (False, [], []))
        tally.same("the folder of one that ended", living.exists(), False)


def try_limits(tally):
    """A script is ended after five times its seconds, and three minutes at the least."""
    for seconds, limit in ((60, 300), (20, 180), (100, 500)):
        tally.same(f"{seconds} s", table.script_of(f"{seconds}\t-\t-\ttests/x").limit, limit)
    for line in ("x\t-\t-\ttests/x", "1\t-\ttests/x", "1\t-\tonce\ttests/x"):
        try:
            table.script_of(line)
            tally.note(False, f"a row is taken: {line!r}")
        except table.BadRow:
            tally.note(True, "")


class Beside:
    """Runs scripts that only say which others run, and waits in each until so many do."""

    def __init__(self, parties):
        self.lock, self.running, self.seen, self.begun = threading.Lock(), set(), [], []
        self.barrier = threading.Barrier(parties)

    def __call__(self, script):
        with self.lock:
            self.running.add(script)
            self.begun.append(script.command)
            self.seen.append(frozenset(self.running))
        if not script.own:
            self.barrier.wait(90)
        with self.lock:
            self.running.remove(script)
        return script.command


def ran(rows, width, parties, folder):
    """What ran beside what, of rows of seconds, what is needed and the command; and what was told."""
    scripts = [table.Script(seconds, frozenset(own.split()), False, command) for seconds, own, command in rows]
    beside, told = Beside(parties), []
    pool.run_all(scripts, width, beside, lambda script, outcome: told.append(outcome), pool.Held(pathlib.Path(folder)))
    return beside, told


def try_pool(tally):
    """As many at once as are allowed, the longest first; never two that need the same; beside one that is alone, nothing."""
    with tempfile.TemporaryDirectory() as folder:
        beside, told = ran([(at, "", f"s{at}") for at in range(8)], 2, 2, folder)
        tally.same("at most so many at once", max(map(len, beside.seen)), 2)
        tally.same("all are told", collections.Counter(told), collections.Counter(f"s{at}" for at in range(8)))
        tally.same("the first two are the longest", set(beside.begun[:2]), {"s7", "s6"})
        one, _ = ran([(at, "", f"s{at}") for at in (3, 9, 5)], 1, 1, folder)
        tally.same("the longest first", one.begun, ["s9", "s5", "s3"])
        rows = [(at, "uid" if at % 2 else "net uid", f"s{at}") for at in range(6)]
        beside, _ = ran(rows, 4, 1, folder)
        tally.same("two that need the same", max(map(len, beside.seen)), 1)
        beside, _ = ran([(9, "alone", "a"), (5, "", "b"), (1, "", "c"), (7, "alone", "d")], 4, 2, folder)
        tally.same("alone, at the end", list(map(len, beside.seen[2:])), [1, 1])
        tally.same("what is alone comes last", beside.begun[2:], ["a", "d"])
    lone, other = table.Script(1, frozenset({table.ALONE}), False, "a"), table.Script(1, frozenset(), False, "b")
    begins = [pool.may_begin(other, dict.fromkeys(range(count), other), 2) for count in range(4)]
    tally.same("beside so many others", begins, [True, True, False, False])
    tally.same("beside what is alone", pool.may_begin(other, {1: lone}, 4), False)
    tally.same("what is alone, beside another", pool.may_begin(lone, {1: other}, 4), False)


def try_locks(tally):
    """What one run holds, another doesn't get, and nothing else with it; once it is given back, it does."""
    with tempfile.TemporaryDirectory() as folder:
        one, other = pool.Held(pathlib.Path(folder)), pool.Held(pathlib.Path(folder))
        tally.same("taken", one.take({"uid", table.ALONE}), True)
        tally.same("by two", (other.take({"net", "uid"}), other.take({"uid"})), (False, False))
        tally.same("what was asked for with it", one.take({"net"}), True)
        one.give({"uid", table.ALONE})
        tally.same("given back", other.take({"uid"}), True)


def try_tools(tally):
    """A tool that lacks is installed before a script begins; if it lacks still, the gate fails."""
    for brings, last, status in ((("ps",), "14 passed, 0 failed", 0), ((), "0 passed, 1 failed", 1)):
        with tempfile.TemporaryDirectory() as folder:
            repository = made(folder, lacking=("ps",), brings=brings)
            judged(tally, f"ps lacks, and apt-get brings {brings}", repository, last, status, [])
            asked = repository.asked.read_text(encoding="utf-8").split() if repository.asked.is_file() else []
            tally.same("packages that apt-get isn't asked for", set(array("packages")) - set(asked), set())
    with tempfile.TemporaryDirectory() as folder:
        repository = made(folder)
        repository.runs()
        tally.note(not repository.asked.exists(), "apt-get is asked for what is there")


def try_packages(tally):
    """tests/README.md names the packages of .ci/run."""
    line = re.search(r"(?m)^Packages: (.*)$", (TESTS / "README.md").read_text(encoding="utf-8"))
    tally.same("packages in tests/README.md", re.findall(r"`([^`]+)`", line[1]) if line else None, array("packages"))


PIECES = (
    try_parts,
    try_order,
    try_options,
    try_lateness,
    try_repeats,
    try_end,
    try_limit,
    try_folder,
    try_remains,
    try_limits,
    try_pool,
    try_locks,
    try_tools,
    try_packages,
)

if __name__ == "__main__":
    os.environ.pop("RT_JOBS", None)
    counts = Tally()
    counts.run_parts(PIECES)
    sys.exit(counts.end())
