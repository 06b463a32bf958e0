"""Tries the edits of one crate in rounds, and says which of them failed.

This file, edits.py, judging.py and kit.py give the verdict on an edit: a change of one of them has all tried anew.
"""

import dataclasses
import resource
import time

from .edits import past_the_limits, rounds_of
from .judging import Kind, Verdict, try_round


class Clock:
    """Seconds, and those of processors that the ended children of this process took."""

    def __init__(self):
        self.start = self.now()

    @staticmethod
    def now():
        used = resource.getrusage(resource.RUSAGE_CHILDREN)
        return time.monotonic(), used.ru_utime + used.ru_stime

    def spent(self):
        return tuple(round(now - then, 1) for now, then in zip(self.now(), self.start))


@dataclasses.dataclass
class Outcome:
    """What came of one crate's edits: the verdicts by label, what is too much, and the seconds of each round."""

    crate: str
    count: int
    verdicts: dict = dataclasses.field(default_factory=dict)
    beyond: list = dataclasses.field(default_factory=list)
    rows: list = dataclasses.field(default_factory=list)
    notes: list = dataclasses.field(default_factory=list)

    def took(self, what, edits, clock):
        seconds, processors = clock.spent()
        row = {"crate": self.crate, "round": what, "edits": edits}
        self.rows.append({**row, "processor_seconds": processors, "clock_seconds": seconds})

    def processor_seconds(self):
        return sum(row["processor_seconds"] for row in self.rows)

    def failures(self):
        """The edits that were not refused for their own fault, and what is too much; the crate where nothing was
        judged."""
        failed = [label for label, it in sorted(self.verdicts.items()) if it.kind is not Kind.REFUSED] + self.beyond
        return failed if self.verdicts else [self.crate]

    def refused(self):
        return sum(it.kind is Kind.REFUSED for it in self.verdicts.values())


def try_rounds(crate, edits, jobs, kept):
    """Tries the crate's edits over what earlier checks kept there."""
    rounds, places, bad = rounds_of(crate, edits)
    outcome = Outcome(crate.name, len(edits))
    outcome.beyond = past_the_limits(crate, edits, places)
    outcome.verdicts = {label: Verdict(Kind.UNREADABLE, why) for label, why in bad.items()}
    for number, made in enumerate(rounds, 1):
        clock = Clock()
        verdicts, why = try_round(crate, made, places, jobs, kept)
        if why:
            outcome.notes.append(f"round {number} isn't believed, and each edit is tried alone: {why}")
        outcome.verdicts.update(verdicts)
        outcome.took(f"round {number}", len(made.edits), clock)
    return outcome
