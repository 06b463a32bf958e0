"""One part of the test command: a command that is run to its end or to its limit, and what came of it."""

import contextlib
import dataclasses
import fcntl
import os
import pathlib
import re
import shutil
import signal
import subprocess
import tempfile
import time

# The line by which a part says what it counted. What other programs write after it doesn't matter.
COUNT = re.compile(r"(?m)^(\d+) passed, (\d+) failed(?:, (\d+) skipped)?$")
FAILED = re.compile(r"(?m)^(?:FAILED: .*|rt: \S+ NOT PROVED.*)$")
SKIPPED = re.compile(r"(?m)^skipped: (.*)$")
# Seconds that a part has to end by itself once it is told to.
GRACE = 30
# The folders of runs, and the file in each by which the others see that its run goes on.
PREFIX, OWNER = "desk-gate-", "owner"
# The parts that run now.
RUNNING = set()


@dataclasses.dataclass
class Outcome:
    """What came of a part: its name, when it began and ended, what it counted, and all that it said."""

    name: str
    began: float
    ended: float
    text: str
    passed: int = 0
    failed: int = 0
    skipped: int = 0
    # What is amiss with the part as a whole, nothing if nothing is.
    fault: str = ""

    @property
    def seconds(self):
        return self.ended - self.began

    def failures(self):
        """The lines that tell of what failed."""
        return FAILED.findall(self.text) + [self.fault] * bool(self.fault)

    def left_out(self):
        """What couldn't be tried, by name."""
        told = SKIPPED.findall(self.text)
        return told or [f"{self.skipped} cases"] * bool(self.skipped)


def fault_of(name, status, limit, counts, failed):
    """What is amiss with a part as a whole, by its status, which is None if it was ended at its limit."""
    if status is None:
        return f"{name} was ended, since it took more than {limit:.0f} s"
    if not counts:
        return f"{name} said no count; its status is {status}"
    if status != 0 and failed == 0:
        return f"{name} counted no failure, but its status is {status}"
    return ""


def judged(name, began, text, status, limit=None, counts=True):
    """The outcome of a part that ended with a status, or None if it was ended at its limit. A part that has to count, and
    doesn't say what it counted, counts as one failure, and so does one whose status isn't that of its count."""
    outcome, found = Outcome(name, began, time.time(), text), COUNT.findall(text) if counts else []
    if found:
        outcome.passed, outcome.failed, outcome.skipped = (int(number or 0) for number in found[-1])
    outcome.fault = fault_of(name, status, limit, found or not counts, outcome.failed)
    outcome.failed += bool(outcome.fault)
    return outcome


def is_of(process, folder):
    """Whether the temporary files of a process, as /proc has it, lie in a folder or below it."""
    try:
        around = (process / "environ").read_bytes()
    except OSError:
        return False
    return any(b"TMPDIR=%s%s" % (os.fsencode(folder), after) in around for after in (b"\0", b"/"))


def end_what_is_left(folder):
    """Ends the servers and browsers that a script left, whose temporary files lie in its folder."""
    for process in pathlib.Path("/proc").glob("[0-9]*"):
        if int(process.name) != os.getpid() and is_of(process, folder):
            with contextlib.suppress(OSError):
                os.kill(int(process.name), signal.SIGKILL)


def unmount_below(folder):
    """Takes away the disks that a script left mounted in a folder when it was ended."""
    mounts = pathlib.Path("/proc/self/mounts").read_text(encoding="utf-8", errors="replace").splitlines()
    for place in (line.split(" ")[1] for line in reversed(mounts)):
        if place.startswith(f"{folder}/"):
            subprocess.run(["umount", "--lazy", place], check=False)


def clear(folder):
    """Takes away all that is left of a folder: processes, disks, files."""
    end_what_is_left(folder)
    unmount_below(folder)
    shutil.rmtree(folder, ignore_errors=True)


@contextlib.contextmanager
def owned(top):
    """A new folder of a run, which other users may enter. It gets its name once it is this run's own, so that no other run
    takes it for one of a run that was killed."""
    new = pathlib.Path(tempfile.mkdtemp(prefix=f"new-{PREFIX}", dir=top))
    new.chmod(0o755)
    with (new / OWNER).open("w", encoding="utf-8") as owner:
        fcntl.flock(owner, fcntl.LOCK_EX)
        folder = new.rename(top / new.name.removeprefix("new-"))
        try:
            yield folder
        finally:
            clear(folder)


def clear_dead(top):
    """Clears away what runs left that were killed, in the folder of all temporary files."""
    for folder in top.glob(f"{PREFIX}*"):
        try:
            with (folder / OWNER).open("a", encoding="utf-8") as owner:
                fcntl.flock(owner, fcntl.LOCK_EX | fcntl.LOCK_NB)
                clear(folder)
        except BlockingIOError:
            continue


def end(process):
    """Ends a process and those of its group, which get some seconds to clear up behind them."""
    for number in (signal.SIGTERM, signal.SIGKILL):
        try:
            os.killpg(process.pid, number)
            process.wait(GRACE)
            return
        except subprocess.TimeoutExpired:
            continue
        except ProcessLookupError:
            break
    process.wait()


def end_all():
    """Ends the parts that run."""
    for process in list(RUNNING):
        with contextlib.suppress(OSError):
            os.killpg(process.pid, signal.SIGKILL)


def status_of(words, around, out, limit):
    """The status with which a program ends; None if it is ended at its limit."""
    how = {"stdin": subprocess.DEVNULL, "stdout": out, "stderr": subprocess.STDOUT}
    process = subprocess.Popen(words, start_new_session=True, env=around, **how)
    RUNNING.add(process)
    try:
        return process.wait(limit)
    except subprocess.TimeoutExpired:
        return None
    finally:
        RUNNING.discard(process)
        end(process)


def said_by(folder):
    """The file that gets what the part with this folder says."""
    return pathlib.Path(f"{folder}.said")


def run(name, words, folder, limit=None, env=None, counts=True):
    """Runs a part, whose temporary files lie in a new folder of its own, and gives what came of it."""
    folder.mkdir()
    # (what runs as other users has to get there)
    folder.chmod(0o1777)
    said, began = said_by(folder), time.time()
    around = {**os.environ, "TMPDIR": str(folder), **(env or {})}
    with said.open("wb") as out:
        try:
            status = status_of(words, around, out, limit)
        except OSError as error:
            return judged(name, began, f"{error}\n", 127)
    end_what_is_left(folder)
    unmount_below(folder)
    return judged(name, began, said.read_text(encoding="utf-8", errors="replace"), status, limit, counts)
