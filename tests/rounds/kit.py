"""What the rounds of wrong bodies take from the kit: its crates, its check of a changed copy, its tokens.

The kit's command `rt` is a Python program. Its own functions are called here, so that an edit is checked as `rt`
checks it, and nothing of it is written again.
"""

import functools
import importlib.machinery
import importlib.util
import os
import shutil
import signal
import sys

# How a check ends that the system killed, most often for want of memory.
KILLED = (-signal.SIGKILL, 128 + signal.SIGKILL)


def load():
    path = shutil.which("rt")
    if not path:
        sys.exit("the kit's command rt isn't on the path")
    loader = importlib.machinery.SourceFileLoader("rt_of_kit", os.path.realpath(path))
    made = importlib.util.module_from_spec(importlib.util.spec_from_loader("rt_of_kit", loader))
    loader.exec_module(made)
    return made


sys.dont_write_bytecode = True
RT = load()


def prepare():
    """To be called once by the main thread: the first call of the kit's guard sets a signal's handler."""
    RT.rtlib.guarded()


def crates_of(root):
    """The crates that crates.txt at the top names, each with `name`, `folder` and `below()`."""
    return RT.rtlib.crates_below(str(root))


def are_libraries_built(crate, jobs):
    """Builds the repository's libraries below the crate where they are missing or old."""
    return not any(below.build_rlib(["--jobs", str(jobs)], anew=False) for below in crate.below())


def check(crate, texts, paths, jobs, kept):
    """Checks a copy of the crate with these texts, by path, in place of its own: these functions and modules and all
    that they call, or the whole crate where none is named. A check that was killed is made once more, by one process.
    Gives the status and what was said."""
    only = [word for it in paths for word in ("--only", it)]
    ran = RT.checked(crate, texts, ["--jobs", str(jobs), *only], str(kept))
    if ran.returncode in KILLED:
        ran = RT.checked(crate, texts, ["--jobs", "1", *only], str(kept))
    return ran.returncode, ran.stdout


def is_unread(line, paths):
    """Whether a line of a report says that an edited text could not be read, so that nothing was tried."""
    return RT.unread(line, paths)


@functools.lru_cache(maxsize=None)
def blanked(folder):
    """The text of each source without comments, strings and characters, place for place, by path."""
    return RT.rtlib.blanked(folder)


def identity():
    with open(f"{RT.KIT}/KIT-ID", encoding="utf-8") as file:
        return file.read().strip()
