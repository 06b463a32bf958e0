"""What a run of the test command tells: each part as it ends, and at the end all that matters once more."""

import re
import threading
import time

from .part import Outcome

# The lines of what a failed part said last that are told once more.
LAST_LINES = 40
# The first line of the table.
HEAD = "seconds  passed  failed  left out  part"
# What the wrong bodies tell of those that were not tried.
TAKEN = re.compile(r"(?m)^taken on their digests: (.*)$")
LEFT = re.compile(r"(?m)^(not reached|own files changed and not tried): (.*)$")
COUNTED = re.compile(r"\((\d+)\)")


def counted(text):
    return sum(map(int, COUNTED.findall(text)))


def moment(seconds):
    return time.strftime("%H:%M:%S", time.gmtime(seconds))


class Report:
    """What was told of the parts of a run, which began at a moment. Each thread may tell of a part."""

    def __init__(self, began):
        self.began, self.outcomes, self.lock = began, [], threading.Lock()
        # What the last lines tell beside the counts: repeats that held, what wasn't begun, wrong bodies.
        self.shaky, self.unbegun, self.bodies = [], [], []

    def say(self, text):
        with self.lock:
            print(text, flush=True)

    def show(self, outcome, head=""):
        """Tells what a part said, once it has ended."""
        text = outcome.text if outcome.text.endswith("\n") or not outcome.text else outcome.text + "\n"
        fault = f"{outcome.fault}\n" if outcome.fault else ""
        self.say(f"== {head}{outcome.name}\n{text}{fault}== ended at {moment(outcome.ended)} after {outcome.seconds:.0f} s")

    def add(self, outcome, is_told=True):
        """Tells what a part said, and keeps its counts. Of what needn't be told only a failure is."""
        if is_told or outcome.failed:
            self.show(outcome)
        with self.lock:
            self.outcomes.append(outcome)

    def add_bodies(self, outcome):
        """The same of the wrong bodies. Those that weren't tried now are told apart from what a machine couldn't try."""
        taken = sum(counted(found) for found in TAKEN.findall(outcome.text))
        self.bodies += [f"taken on their digests: {taken} wrong bodies"] * bool(taken)
        self.bodies += [f"wrong bodies {what}: {names}" for what, names in LEFT.findall(outcome.text)]
        outcome.skipped = 0
        self.add(outcome)

    def replace(self, first, second):
        """Keeps what came of a part at its second run in the place of the first. What failed then and holds now is told."""
        self.show(second, "once more, with nothing beside it: ")
        self.outcomes[self.outcomes.index(first)] = second
        if second.failed == 0:
            self.shaky += [f"{first.name}: {line}" for line in first.failures()]

    def stopped(self):
        """Tells that somebody ended the run, which then fails."""
        self.outcomes.append(Outcome("the run", self.began, time.time(), "", failed=1, fault="somebody ended the run"))

    def leave_out(self, name, why):
        self.unbegun.append(f"{name}: {why}")

    def sums(self):
        return [sum(getattr(one, what) for one in self.outcomes) for what in ("passed", "failed", "skipped")]

    def table(self):
        """A line for each part, in the order in which they ended."""
        rows = [f"{one.seconds:7.0f} {one.passed:7} {one.failed:7} {one.skipped:9}  {one.name}" for one in self.outcomes]
        return "\n".join([HEAD, *rows])

    def tell_failures(self):
        failed = [one for one in self.outcomes if one.failed]
        for one in failed:
            last = "\n".join(one.text.rstrip("\n").split("\n")[-LAST_LINES:])
            self.say(f"== failed: {one.name}\n{last}")
        for one in failed:
            for line in one.failures():
                self.say(f"== {one.name}: {line}")

    def end(self):
        """Prints the end, whose last line is the count, and gives the exit status."""
        self.tell_failures()
        for line in self.shaky:
            self.say(f"== shaky: {line}")
        took = time.time() - self.began
        self.say(f"== {moment(time.time())}, {took // 60:.0f} min {took % 60:.0f} s\n{self.table()}")
        untried = [f"{one.name}: {why}" for one in self.outcomes for why in one.left_out()] + self.unbegun
        for line in [*self.bodies, *(f"not tried: {one}" for one in untried)]:
            self.say(f"== {line}")
        passed, failed, skipped = self.sums()
        self.say(f"{passed} passed, {failed} failed" + (f", {skipped} skipped" if skipped else ""))
        return 1 if failed else 0
