"""Units of systemd: how exposed one is, and which calls it lets through."""

import re

from .program import ran

MOST_EXPOSED = 2.0


def text_of(*words):
    """What a program prints."""
    return ran(words)[1].decode()


def try_exposure(tally, unit):
    """What `systemd-analyze security` says of a unit, at most `MOST_EXPOSED`."""
    said = text_of("systemd-analyze", "security", "--offline=true", unit)
    score = re.search(r"Overall exposure level for \S+: ([\d.]+)", said)
    tally.note(bool(score) and float(score[1]) <= MOST_EXPOSED, f"the exposure of {unit}: {said[-200:]}")


def allowed():
    """The calls that the filter of both units lets through, by the sets that systemd names."""
    sets, name = {}, None
    for line in text_of("systemd-analyze", "syscall-filter", "--no-pager").splitlines():
        if line.startswith("@"):
            name = line.strip()
        elif name and line.strip() and not line.strip().startswith("#"):
            sets.setdefault(name, []).append(line.strip())

    def calls(word):
        return set().union(*map(calls, sets[word])) if word.startswith("@") else {word}

    return calls("@system-service") - calls("@privileged") - calls("@resources") | calls("@default")


def try_filter(tally, unit, called):
    """A unit has the filter of `allowed`, which lets these calls through."""
    filters = re.findall(r"(?m)^SystemCallFilter=(.*)$", unit)
    tally.same("the unit's filter", filters, ["@system-service", "~@privileged @resources"])
    tally.same("calls that the unit doesn't let through", called - allowed(), set())


def calls_in(trace):
    """The calls that strace noted."""
    return set(re.findall(r"(?m)^(?:\d+ +)?([a-z_][a-z_0-9]*)\(", trace.read_text(encoding="utf-8", errors="replace")))
