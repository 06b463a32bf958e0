"""Tries crates side by side, each in a process of its own, and gives what came of each as it ends."""

import concurrent.futures
import dataclasses
import os
import pathlib
import re
import tempfile

from . import kit, libraries
from .edits import edits_of
from .trying import Outcome, try_rounds

# The memory that a check may take, in kB.
A_LANE = 3_000_000


def lanes_for(processors, available):
    """How many crates are tried side by side, with so many processors and so much memory in kB."""
    return max(1, min(processors, available // A_LANE))


def lanes_here():
    """The same, on this machine and with what this process may take of it."""
    available = re.search(r"(?m)^MemAvailable: +(\d+) kB$", pathlib.Path("/proc/meminfo").read_text(encoding="utf-8"))
    return lanes_for(len(os.sched_getaffinity(0)), int(available[1]))


@dataclasses.dataclass(frozen=True)
class Way:
    """How a crate is tried: by how many processes of one check, whether over what earlier runs proved, whether an edit
    is held to the goal that it names, and whether the libraries below are taken as they are."""

    jobs: int
    keeps: bool
    heeds_goals: bool
    takes_libraries: bool


def attempt(root, name, chosen, way):
    """The chosen edits of a crate, in a process of its own, so that its processor seconds can be told apart."""
    kit.prepare()
    crate = next(it for it in kit.crates_of(root) if it.name == name)
    if not way.takes_libraries and not libraries.are_ready(root, crate, way.jobs):
        return Outcome(name, 0, notes=["it isn't tried, since a library below it isn't proved"])
    edits = [it for it in edits_of(crate) if it.name in chosen]
    edits = [it if way.heeds_goals else dataclasses.replace(it, goal="") for it in edits]
    with tempfile.TemporaryDirectory(prefix="rounds-") as room:
        kept = pathlib.Path(f"{crate.folder}/out/rounds" if way.keeps else room)
        kept.mkdir(parents=True, exist_ok=True)
        return try_rounds(crate, edits, way.jobs, kept)


def outcomes_of(turns, lanes, begin):
    """What came of each crate, as it ends. A crate is begun wherever a lane is free and the turns allow one; `begin`
    takes its name and gives its future."""
    running = {}
    while True:
        while len(running) < lanes and (name := turns.begin()) is not None:
            running[begin(name)] = name
        if not running:
            return
        for ended in concurrent.futures.wait(running, return_when=concurrent.futures.FIRST_COMPLETED).done:
            outcome = ended.result()
            turns.end(running.pop(ended), outcome.processor_seconds())
            yield outcome
