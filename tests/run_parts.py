#!/usr/bin/env -S python3 -B
"""Runs the parts of the test command, which .ci/run begins once the machine has what they take.

    run_parts.py [--all] [--browsers] [--began SECONDS]

First what is cheap: which wrong bodies will be tried anew, and the scripts and documents beside each other. Then `rt ci`, the
scripts of tests/scripts.tsv side by side, the wrong bodies, the scripts in other browsers, and at last what failed and may be
run once more. Each part is told as it ends. The end is a table, each failure once more, and the count. The status is 0 if
nothing failed.

  --all             tries all wrong bodies
  --browsers        runs each page test in each browser
  --began SECONDS   when the test command began, in seconds since 1970. Two and a half hours later nothing is begun any more
                    that may be left out: the wrong bodies and the other browsers
"""

import argparse
import itertools
import os
import pathlib
import shutil
import signal
import sys
import tempfile
import time

from parts import part, pool, table
from parts.report import Report

TESTS = pathlib.Path(__file__).resolve().parent
ROOT = TESTS.parent
TEMPORARY = pathlib.Path("/tmp")
SECONDS_TO_LAST_BEGIN = 150 * 60
BODIES, STALE, PROOFS = "tests/wrong_bodies", "tests/wrong_bodies --stale", "rt ci"


class Stopped(BaseException):
    """Somebody ended the run."""


def stop(*_):
    part.end_all()
    raise Stopped


class Run:
    """A run of the test command, whose parts have their temporary files in a folder. What is left of those that failed lies in
    another one."""

    def __init__(self, options, folder, kept):
        self.options, self.folder, self.kept, self.places = options, folder, kept, map(str, itertools.count(1))
        self.width, self.report, self.held = len(os.sched_getaffinity(0)), Report(options.began), pool.Held()
        self.last_begin, self.again = options.began + SECONDS_TO_LAST_BEGIN, []

    def ran(self, command, place=None, **how):
        """What comes of a command, whose words are parted by spaces, in a new folder, or in one of a name."""
        folder = self.folder / (place or next(self.places))
        return part.run(command, command.split(" "), folder, env={"GATE_KEPT": str(self.kept)}, **how)

    def cheap(self):
        """What takes seconds. Of the wrong bodies' list only what is amiss is told."""
        self.report.add(self.ran("bench/gate --count", counts=False))
        self.report.add(self.ran(f"{BODIES} --all --list", counts=False), is_told=False)
        self.report.add(self.ran("tests/gate_scripts.py"))
        self.stale()

    def stale(self):
        """Tells which wrong bodies will be tried anew."""
        self.report.add(self.ran(STALE, counts=False))

    def proofs(self):
        """The proofs. `rt ci` chooses by itself how many processes prove a crate. What earlier commands built goes first, since
        some kits put that back in the place of what they then built."""
        os.environ.pop("RT_JOBS", None)
        for built in ROOT.glob("crates/*/out/rlib"):
            shutil.rmtree(built)
        self.report.add(self.ran(PROOFS, "proofs"))

    def script(self, script):
        return self.ran(script.command, limit=script.limit)

    def told(self, script, outcome):
        self.report.add(outcome)
        if outcome.failed and script.may_repeat:
            self.again.append((script, outcome))

    def scripts(self, scripts):
        pool.run_all(scripts, self.width, self.script, self.told, self.held)

    def bodies(self):
        words = f"{BODIES} --after-ci {part.said_by(self.folder / 'proofs')} --end-by {self.last_begin:.0f}"
        self.report.add_bodies(self.ran(words + " --all" * self.options.all))

    def other_browsers(self, scripts):
        """The scripts in other browsers, unless it is too late to begin with them."""
        if time.time() < self.last_begin:
            self.scripts(scripts)
            return
        for script in scripts:
            self.report.leave_out(script.command, "it was too late to begin")

    def repeat(self):
        """Runs what failed, and may, once more with nothing beside it."""
        for script, first in self.again:
            pool.run_all([script], 1, self.script, lambda _, second, first=first: self.report.replace(first, second), self.held)

    def go(self):
        scripts = table.rows(TESTS / "scripts.tsv")
        if self.options.browsers:
            scripts = table.in_other_browsers(ROOT, scripts)
        self.cheap()
        self.proofs()
        self.stale()
        self.scripts([script for script in scripts if not script.is_other])
        self.bodies()
        self.other_browsers([script for script in scripts if script.is_other])
        self.repeat()


def options():
    about = argparse.ArgumentParser(description=__doc__, formatter_class=argparse.RawDescriptionHelpFormatter)
    about.add_argument("--all", action="store_true")
    about.add_argument("--browsers", action="store_true")
    about.add_argument("--began", type=float, default=time.time(), metavar="SECONDS")
    return about.parse_args()


def main():
    asked = options()
    os.chdir(ROOT)
    for number in (signal.SIGTERM, signal.SIGINT):
        signal.signal(number, stop)
    part.clear_dead(TEMPORARY)
    kept = pathlib.Path(tempfile.mkdtemp(prefix="desk-kept-", dir=TEMPORARY))
    with part.owned(TEMPORARY) as folder:
        run = Run(asked, folder, kept)
        try:
            run.go()
        except Stopped:
            run.report.stopped()
    if not any(kept.iterdir()):
        kept.rmdir()
    return run.report.end()


if __name__ == "__main__":
    sys.exit(main())
