"""Which crates a program stands on, which of them to begin next, and how long all of it takes.

Knows crates.txt and the sizes of the crates; not how a crate is proved.
"""

import functools

# What a crate takes of one processor, in seconds of the machine on which this was fitted to 31 crates: so many by
# itself, and one for so many lines of its own code, and of the code of the crates below it. A crate is off by a fifth.
ALONE, OWN_LINES, LINES_BELOW = 30, 16, 250

# The share of a crate's work that one process does by itself, before and after its functions.
BY_ONE = 0.4

# The memory of a crate's first process and of each more, in bytes, and the most processes of one crate.
FIRST_NEEDS, NEXT_NEEDS, MOST_JOBS = 2_000_000_000, 800_000_000, 4


def needs(jobs):
    return FIRST_NEEDS + NEXT_NEEDS * (jobs - 1)


def read_crates(text):
    """What each crate of a crates.txt stands on, those of the kit included."""
    lines = [line.partition("#")[0].partition(":") for line in text.splitlines()]
    return {head.split()[0]: rest.split() for head, _, rest in lines if head.strip()}


def crates_below(name, stands_on):
    """The repository's crates that a crate stands on, lowest first, and itself last."""
    found = []

    def visit(crate):
        for library in stands_on[crate]:
            if library in stands_on:
                visit(library)
        if crate not in found:
            found.append(crate)

    visit(name)
    return found


class Plan:
    """A program, the crates that it stands on, and the seconds that each of them takes of one processor."""

    def __init__(self, program, stands_on, lines_of):
        self.program, self.crates = program, crates_below(program, stands_on)
        self.below = {crate: crates_below(crate, stands_on)[:-1] for crate in self.crates}
        lines, self.seconds = {crate: lines_of(crate) for crate in self.crates}, {}
        for crate, below in self.below.items():
            self.seconds[crate] = ALONE + lines[crate] / OWN_LINES + sum(lines[it] for it in below) / LINES_BELOW

    @functools.cached_property
    def behind(self):
        """The seconds of the longest chain of crates from each crate up to the program."""
        behind = {}
        for crate in reversed(self.crates):
            above = [behind[it] for it in behind if crate in self.below[it]]
            behind[crate] = self.seconds[crate] + max(above, default=0)
        return behind

    def ready(self, proved, running):
        """The crates that may begin, that with the longest chain first."""
        begun = {*proved, *running}
        found = [it for it in self.crates if it not in begun and proved.issuperset(self.below[it])]
        return sorted(found, key=lambda it: -self.behind[it])

    def begin(self, proved, running, processors, memory):
        """The crates to begin now, each with its jobs, beside those that run: one job each, the longest chain first, as many as
        the idle processors and the free memory allow; each job that is left over goes to the chain that lasts longest with what
        it has. One crate may run in any memory."""
        begun = {}
        idle, room = processors - sum(running.values()), memory - sum(map(needs, running.values()))
        for crate in self.ready(proved, running):
            if idle > 0 and (needs(1) <= room or not running and not begun):
                begun[crate] = 1
                idle, room = idle - 1, room - needs(1)
        while idle > 0 and room >= NEXT_NEEDS and (wider := [it for it in begun if begun[it] < MOST_JOBS]):
            crate = max(wider, key=lambda it: self.behind[it] - self.seconds[it] + self.time_of(it, begun[it]))
            begun[crate] += 1
            idle, room = idle - 1, room - NEXT_NEEDS
        return begun

    def time_of(self, crate, jobs):
        """How long a crate takes with so many jobs, by the sizes."""
        return self.seconds[crate] * (BY_ONE + (1 - BY_ONE) / jobs)

    def time_left(self, proved, running, gone, pace, processors, memory):
        """How long the crates take that aren't proved. `running` has the jobs of those that run, `gone` for how long they
        have run; each takes `pace` times what the sizes say, and one that should have ended a tenth more."""
        proved, running, now, ends = set(proved), dict(running), 0, {}
        for crate, jobs in running.items():
            whole = pace * self.time_of(crate, jobs)
            ends[crate] = max(whole - gone[crate], whole / 10)
        while len(proved) < len(self.crates):
            for crate, jobs in self.begin(proved, running, processors, memory).items():
                running[crate], ends[crate] = jobs, now + pace * self.time_of(crate, jobs)
            crate = min(running, key=ends.get)
            now = ends[crate]
            del running[crate]
            proved.add(crate)
        return now
