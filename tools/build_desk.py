#!/usr/bin/env python3
"""Proves and builds a program of the repository, crates side by side, and tells on standard error how far that is.

    tools/build_desk.py [PROGRAM]

PROGRAM is desk, or quick_replay, which is the command `replay` alone. `rt lib` proves each crate below it once those below that
one stand, as many side by side as there are processors and memory for, the longest chain first; then `rt run` proves and
builds the program as crates/PROGRAM/out/PROGRAM. What rt says of a crate goes to its out/build.log. A run that was stopped is
gone on with by the next. Status 0 where the program stands built, 1 where the build failed or was stopped, 2 for other
words.
"""

import contextlib
import fcntl
import math
import os
import pathlib
import re
import signal
import subprocess
import sys
import time

import free_machine
from build_words import Teller, say
from crate_copy import Crates
from crate_plan import Plan, read_crates

TOP = pathlib.Path(__file__).resolve().parent.parent
PROGRAMS = ("desk", "quick_replay")
# How long a look at the runs is apart from the next.
LOOK = 0.1
# One process of a crate loads what is below it, and writes its library, while its others wait: so there are more than there are
# processors. Of the free memory they have a share.
OVER, SHARE = 1.25, 0.85
SO_FAR = re.compile(r"^(?:so far: |checked \S+, )(\d+) of (\d+)\b", re.M)


class Failed(Exception):
    """Why a build failed."""


class Run:
    """rt at work on a crate."""

    def __init__(self, words, folder, log, jobs):
        self.jobs, self.log, self.start = jobs, log, time.monotonic()
        how = {"stdin": subprocess.DEVNULL, "stderr": subprocess.STDOUT}
        with open(log, "wb") as out:
            self.child = subprocess.Popen(words, cwd=folder, stdout=out, **how)

    def gone(self):
        return time.monotonic() - self.start

    def functions(self):
        """How many of how many functions are checked, as rt said last."""
        said = SO_FAR.findall(self.log.read_text(encoding="utf-8", errors="replace"))
        return said[-1] if said else None


class Build:
    """The crates of a program that aren't proved yet, and those that rt is at work on."""

    def __init__(self, plan, crates):
        self.plan, self.crates, self.running = plan, crates, {}
        self.proved = {it for it in plan.crates if it != plan.program and crates.is_proved(it)}
        self.todo = [it for it in plan.crates if it not in self.proved]
        self.processors, self.memory = free_machine.processors(), SHARE * free_machine.memory()
        # The seconds that crates took which are proved now, and those that their sizes say.
        self.took, self.said = 0, 0

    def jobs(self):
        return {crate: run.jobs for crate, run in self.running.items()}

    def knows_pace(self):
        """Whether a crate was proved here, which tells how fast this machine is."""
        return self.said > 0

    def time_left(self):
        """How long the rest takes at the pace of the crates that are proved, or of one that takes longer already."""
        gone = {crate: run.gone() for crate, run in self.running.items()}
        pace = self.took / self.said if self.said else 1
        pace = max([pace, *(gone[crate] / self.plan.time_of(crate, run.jobs) for crate, run in self.running.items())])
        return self.plan.time_left(self.proved, self.jobs(), gone, pace, self.processors, self.memory)

    def begin(self):
        lanes = math.ceil(OVER * self.processors)
        for crate, jobs in self.plan.begin(self.proved, self.jobs(), lanes, self.memory).items():
            folder, words = self.crates.top / "crates" / crate, ["rt", "run", "--jobs", str(jobs), "--", "--help"]
            if crate != self.plan.program:
                folder, words = self.crates.copy(crate, self.plan.below[crate]), ["rt", "lib", "--jobs", str(jobs)]
            log = self.crates.out(crate) / "build.log"
            log.parent.mkdir(parents=True, exist_ok=True)
            self.running[crate] = Run(words, folder, log, jobs)

    def end(self):
        """Takes what has ended."""
        for crate, run in list(self.running.items()):
            if run.child.poll() is None:
                continue
            del self.running[crate]
            self.crates.put_back(crate)
            if run.child.returncode:
                raise Failed(f"{crate} isn't proved and built (status {run.child.returncode}); what rt said is in {run.log}")
            if crate != self.plan.program:
                self.crates.note_proved(crate)
            self.proved.add(crate)
            self.took, self.said = self.took + run.gone(), self.said + self.plan.time_of(crate, run.jobs)

    def stop(self):
        """Stops rt everywhere; what it has kept stays."""
        for run in self.running.values():
            run.child.terminate()
        for run in self.running.values():
            run.child.wait()
        if self.running:
            # The processes that rt started end with it, a moment later.
            time.sleep(LOOK)
        self.running.clear()
        for crate in self.todo:
            self.crates.put_back(crate)


@contextlib.contextmanager
def alone_in(folders):
    """Keeps other runs of rt out of these folders, by the locks that rt itself takes, once those that are in them have ended."""
    held = [os.open(it, os.O_RDONLY) for it in sorted({os.path.realpath(it) for it in folders})]
    try:
        for lock in held:
            with contextlib.suppress(BlockingIOError):
                fcntl.flock(lock, fcntl.LOCK_EX | fcntl.LOCK_NB)
                continue
            say("another run of rt is at work on these crates; waiting for it")
            fcntl.flock(lock, fcntl.LOCK_EX)
        yield
    finally:
        for lock in held:
            os.close(lock)


def run_until(build, teller, ends):
    """Goes on with the build until it has come to its end."""
    try:
        while not ends():
            build.begin()
            teller.tell(build)
            time.sleep(LOOK)
            build.end()
    finally:
        build.stop()


def build_program(program):
    """Builds a program. It gets the time at which its build began, so that a source that is edited meanwhile is newer than it."""
    kit = subprocess.run(["rt", "version"], stdin=subprocess.DEVNULL, capture_output=True, check=False).stdout
    stands_on = read_crates((TOP / "crates.txt").read_text(encoding="utf-8"))
    crates = Crates(TOP, stands_on, kit)
    plan = Plan(program, stands_on, crates.lines_of)
    started = crates.out(program) / "build.started"
    started.parent.mkdir(parents=True, exist_ok=True)
    libraries = set(plan.crates) - {program}
    with alone_in(TOP / "crates" / it for it in libraries):
        started.touch()
        for crate in libraries:
            crates.put_back(crate)
        build = Build(plan, crates)
        teller = Teller(build)
        run_until(build, teller, lambda: libraries <= build.proved)
    run_until(build, teller, lambda: program in build.proved)
    began = started.stat().st_mtime_ns
    os.utime(crates.out(program) / program, ns=(began, began))
    teller.end()


def stop(*_):
    raise KeyboardInterrupt


def main(words):
    program = words[0] if words else "desk"
    if program not in PROGRAMS or len(words) > 1:
        say(f"builds {' or '.join(PROGRAMS)}, and not {' '.join(words)!r}")
        return 2
    for number in (signal.SIGTERM, signal.SIGHUP):
        signal.signal(number, stop)
    try:
        build_program(program)
        return 0
    except (Failed, OSError) as error:
        say(f"the build failed: {error}")
    except KeyboardInterrupt:
        say("the build was stopped; the next one goes on from there")
    return 1


if __name__ == "__main__":
    sys.exit(main(sys.argv[1:]))
