"""Scripts side by side: as many as there are processors, the longest first, and never two that need the same for themselves,
in two runs on one machine neither."""

import concurrent.futures
import fcntl
import pathlib
import time

from .table import ALONE

# Where runs on one machine see what the others have.
LOCKS = pathlib.Path("/run/lock")
SECONDS_BETWEEN_LOOKS = 0.5


class Held:
    """What this run has for itself of what the machine has once."""

    def __init__(self, folder=LOCKS):
        self.folder, self.files = folder, {}
        folder.mkdir(parents=True, exist_ok=True)

    def take(self, names):
        """Takes all of these, or none if this run or another has one of them."""
        names = sorted(set(names) - {ALONE})
        taken = {}
        for name in names:
            file = (self.folder / f"desk-gate-{name}").open("w", encoding="utf-8")
            try:
                fcntl.flock(file, fcntl.LOCK_EX | fcntl.LOCK_NB)
            except BlockingIOError:
                file.close()
                for one in taken.values():
                    one.close()
                return False
            taken[name] = file
        self.files.update(taken)
        return True

    def give(self, names):
        for name in set(names) - {ALONE}:
            self.files.pop(name).close()


def in_order(scripts):
    """The longest first; those that need the machine's processors for themselves come last."""
    return sorted(scripts, key=lambda script: (ALONE in script.own, -script.seconds))


def may_begin(script, running, width):
    if ALONE in script.own:
        return not running
    return len(running) < width and not any(ALONE in one.own for one in running.values())


def next_of(left, running, width, held):
    """The first script that may begin now, which then has what it needs; None if none may."""
    for script in left:
        if may_begin(script, running, width) and held.take(script.own):
            return script
    return None


def run_all(scripts, width, run, told, held):
    """Runs the scripts, each by `run`, and tells of each as it ends."""
    left, running = in_order(scripts), {}
    with concurrent.futures.ThreadPoolExecutor(max(1, len(scripts))) as pool:
        while left or running:
            script = next_of(left, running, width, held)
            if script is not None:
                left.remove(script)
                running[pool.submit(run, script)] = script
                continue
            if not running:
                # another run has what the first of them needs
                time.sleep(SECONDS_BETWEEN_LOOKS)
                continue
            wait_some(running, bool(left))
            for done in [one for one in running if one.done()]:
                script = running.pop(done)
                held.give(script.own)
                told(script, done.result())


def wait_some(running, is_more):
    """Waits until one of them ends; if more are to begin, which may wait for another run, not for long."""
    limit = SECONDS_BETWEEN_LOOKS if is_more else None
    concurrent.futures.wait(running, timeout=limit, return_when=concurrent.futures.FIRST_COMPLETED)
