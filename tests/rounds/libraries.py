"""The libraries below a crate: those that `rt ci` left are taken where they stand, and else the kit builds its own.

What `rt ci` leaves has no stamp beside it, so the kit's other commands build it anew, which takes ten minutes for the
lowest library alone. But it holds what those above it were built over, and nothing else is needed to try an edit.
"""

import fcntl
import os
import pathlib
import re

from . import kit
from .digests import PARTS

# What `rt ci` says of a library that stands.
STANDS = re.compile(r"^rt: (\w+) (?:proved$|is kept: )", re.M)


def installed():
    """When the kit came to this machine, as a file's time."""
    return os.stat(f"{kit.RT.KIT}/KIT-ID").st_ctime_ns


def unproved(libraries, said):
    """Those of the libraries of which `rt ci` doesn't say that they stand, by the file of what it said."""
    text = said.read_text(encoding="utf-8", errors="replace") if said.is_file() else ""
    return sorted({it.name for it in libraries} - set(STANDS.findall(text)))


def written(folders):
    """When each file and folder at or below these folders was last written."""
    for folder in folders:
        for path, _, files in os.walk(folder):
            yield from (os.stat(os.path.join(path, name)).st_mtime_ns for name in [".", *files])


def do_stand(root, crate):
    """Whether all the libraries below the crate stand as `rt ci` left them. Each is there without a stamp, is newer
    than its sources, crates.txt and the kit, and is not older than those below it."""
    listed, since = pathlib.Path(root, "crates.txt").stat().st_mtime_ns, installed()
    ended = {}
    for library in crate.below():
        made = pathlib.Path(library.rlib)
        if not made.is_dir() or (made.parent / "stamp").exists():
            return False
        times = list(written([made]))
        sources = max(written(f"{library.folder}/{part}" for part in PARTS))
        if min(times) <= max(sources, listed, since) or any(min(times) < ended[it.name] for it in library.below()):
            return False
        ended[library.name] = max(times)
    return True


def are_ready(root, crate, jobs):
    """Whether the libraries below the crate stand or could be built. One process at a time builds."""
    with open(f"{root}/crates.txt", "rb") as file:
        fcntl.flock(file, fcntl.LOCK_EX)
        return do_stand(root, crate) or kit.are_libraries_built(crate, jobs)
