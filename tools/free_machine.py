"""What of the machine is free for a build: its processors and memory, under the limits of a container too."""

import contextlib
import math
import os
import pathlib
import re

GROUP = pathlib.Path("/sys/fs/cgroup")


def numbers_in(file):
    """The numbers in a file of the system; none where it isn't there or says that there is no limit."""
    with contextlib.suppress(OSError):
        return [int(it) for it in re.findall(r"\d+", file.read_text(encoding="ascii"))]
    return []


def processors():
    """How many processors this process may use."""
    quota = numbers_in(GROUP / "cpu.max")
    found = len(os.sched_getaffinity(0))
    return min(found, math.ceil(quota[0] / quota[1])) if len(quota) == 2 else found


def memory():
    """The free memory in bytes."""
    told = re.search(r"MemAvailable:\s+(\d+)", pathlib.Path("/proc/meminfo").read_text(encoding="ascii"))
    limit, held = numbers_in(GROUP / "memory.max"), numbers_in(GROUP / "memory.current")
    return min([1024 * int(told[1]), *(most - now for most, now in zip(limit, held))])
