"""The clock of a program that a script starts, set by Debian's faketime.

faketime keeps two files in /dev/shm for a process, named by its number, and leaves them there if the process is killed.
A later process of the same number then doesn't start. So what dead processes left is taken away before the next starts.
"""

import os
import pathlib

from .desk_opinion import moment

LIBRARY = "/usr/lib/x86_64-linux-gnu/faketime/libfaketime.so.1"


def at(text):
    """The words before a command that runs at one moment, as `2024-03-02 08:00:00`, of UTC."""
    forget_the_dead()
    return ("env", "TZ=UTC", "faketime", "-f", text)


def shown_by(file, libraries=()):
    """The environment of a process whose clock stands at the moment that a file names, read at each look, and which has these
    libraries too. Its other clock, by which it knows how long it waited, goes on."""
    forget_the_dead()
    how = {"FAKETIME_NO_CACHE": "1", "FAKETIME_DONT_FAKE_MONOTONIC": "1", "FAKETIME_TIMESTAMP_FILE": str(file)}
    return {**os.environ, "TZ": "UTC", "LD_PRELOAD": ":".join([LIBRARY, *libraries]), **how}


def text_of(milliseconds):
    """A moment as faketime reads it, which cuts a fraction off: half a millisecond later."""
    return moment(milliseconds).replace("T", " ").replace("+00:00", "5")


def forget_the_dead():
    for file in pathlib.Path("/dev/shm").glob("*faketime_*"):
        if not pathlib.Path("/proc", file.name.rpartition("_")[2]).exists():
            file.unlink(missing_ok=True)
