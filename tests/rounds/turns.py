"""Which wrong bodies a run tries, in which order, and within which bound.

First come the crates whose own files changed, by name; then those that are stale only by what is below them. The second
stand in a ring of names, and the day says where one begins: so each comes first on some day, though a run reaches few.
If nothing is stale, some of what holds on its digest is tried as a control, by the same ring. What is chosen follows
from the digests and the day alone; how much of it is reached, from what it takes.
"""

import time

from .digests import State

# What the edits of a run may take of processors, and what one edit is expected to take, in seconds.
STALE_BOUND = 20 * 60
CONTROL_BOUND = 5 * 60
AN_EDIT = 16


def today():
    """The number of the day, the same everywhere."""
    return int(time.time() // (24 * 60 * 60))


def turned(names, day):
    """The names in order, from the one on which the day falls, and then round."""
    names = sorted(names)
    start = day % len(names) if names else 0
    return names[start:] + names[:start]


def order_of(states, day):
    """The names of the stale crates as they have their turn, by what each crate's state is."""
    own = sorted(name for name, state in states.items() if state is State.OWN)
    return own + turned([name for name, state in states.items() if state is State.BELOW], day)


def control_of(names, day):
    """What is tried of the edits that hold, by crate: as many as are expected to stay within the bound of a control.
    The edits of each crate are given by their names."""
    room, chosen = CONTROL_BOUND // AN_EDIT, {}
    for crate in turned(names, day):
        part = turned(names[crate], day)[:room]
        room -= len(part)
        if part:
            chosen[crate] = set(part)
    return chosen


class Turns:
    """Crates in their order, each with the number of its edits. One is begun if what was spent, what is expected of
    those that run and what is expected of it stay within the bound together, or if none was begun before it; and never
    if its expected end is after the end that is given. One that doesn't fit is passed over, and may fit later."""

    def __init__(self, counts, bound=None, end_by=None, now=time.time):
        self.left, self.bound, self.end_by, self.now = dict(counts), bound, end_by, now
        self.spent, self.running, self.is_first = 0, {}, True

    def fits(self, expected):
        if self.end_by is not None and self.now() + expected > self.end_by:
            return False
        if self.bound is None or self.is_first:
            return True
        return self.spent + sum(self.running.values()) + expected <= self.bound

    def begin(self):
        """The name of the crate that is begun now, None where none fits."""
        name = next((name for name, count in self.left.items() if self.fits(AN_EDIT * count)), None)
        if name is not None:
            self.running[name] = AN_EDIT * self.left.pop(name)
            self.is_first = False
        return name

    def end(self, name, seconds):
        """Has a crate that was begun ended, after so many seconds of processors."""
        del self.running[name]
        self.spent += seconds
