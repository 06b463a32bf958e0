"""The program wire: scripts of requests and imports at contests in memory, and what came of each."""

import collections
import re

from .demo import START
from .program import Program, ran
from .rehearsal import files_of

# How the streams of a connection behave, of which crates/wire/src/script.rt tells.
USUAL = (65_536, 0, 0, 0, "ends", 1_000_000, "full")
Streams = collections.namedtuple("Streams", "piece interrupts first apart end room stop", defaults=USUAL)
Served = collections.namedtuple("Served", "how status reads left written")
Ended = collections.namedtuple("Ended", "faults refusals commits")
MORNING = START - 3_600_000


def step(words, data):
    return f"{words} {len(data)}\n".encode() + data + b"\n"


def begun(verification=False):
    """The steps that make the rehearsal, with all that is set up: a contest, and six imports."""
    files = files_of(verification)
    imports = [imported(MORNING, name, text.encode()) for name, text in files.items() if name != "init"]
    return [step("contest", files["init"].encode()), *imports]


def imported(now, kind, data):
    return step(f"import {now} {kind}", data)


def served(now, data, streams=Streams()):
    return step(f"serve {now} " + " ".join(map(str, streams)), data)


def told(out):
    """What came of each step: what was served, the line of an import, what a store counted at the end of a contest."""
    found, at = [], 0
    while at < len(out):
        end = out.index(b"\n", at)
        line, at = out[at:end].decode(), end + 1
        words = line.split(" ")
        if words[0] in ("answered", "nothing", "read", "write"):
            status, reads, left, size = map(int, words[1:])
            found.append(Served(words[0], status, reads, left, out[at : at + size]))
            at += size + 1
        else:
            found.append(Ended(*map(int, words[1:])) if words[0] == "ended" else line)
    return found


class Wire(Program):
    """The program, which is given scripts."""

    def answers_to(self, steps):
        """What came of each step of a script, which ends as it should."""
        status, out, err = ran([self.path], input=b"".join(steps), timeout=600)
        found = told(out)
        is_whole = status == 0 and err == b"" and found[-1:] == ["end"]
        self.note(is_whole, f"a script of {len(steps)} steps: status {status}, {err!r}, {found[-1:]}")
        return found[:-1] if is_whole else found

    def begins(self, found):
        """Whether all was set up; what came after that."""
        wanted = [bool(re.fullmatch(r"added [1-9][0-9]*", str(one))) for one in found[:6]]
        self.note(wanted == [True] * 6, f"the rehearsal is set up: {found[:6]}")
        return found[6:]
