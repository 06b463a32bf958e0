"""How many of a script's cases held, how many didn't, and how many couldn't be tried here."""

import os
import sys
import threading
import traceback

# What ends a part before its end: an exception, or a word with which the script is left.
BREAKS = (Exception, SystemExit)


def name_of(part):
    """What a part tries, as its name says."""
    return part.__name__.removeprefix("try_").replace("_", " ")


class Tally:
    def __init__(self):
        self.passed = self.failed = self.skipped = 0
        self.lock = threading.Lock()

    def note(self, is_right, what):
        """Counts a case, and tells of one that doesn't hold."""
        with self.lock:
            self.passed, self.failed = self.passed + is_right, self.failed + (not is_right)
            if not is_right:
                print(f"FAILED: {what}", flush=True)

    def same(self, what, given, wanted):
        self.note(given == wanted, f"{what}: {given!r}, wanted {wanted!r}")

    def skip(self, why, count=1):
        """Counts a case, or so many, that can't be tried on this machine, and says why, which .ci/run hands on."""
        self.skipped += count
        print(f"skipped: {why}", flush=True)

    def run_parts(self, parts):
        """Runs the parts of a script, each named try_ and what it tries, and tells of each how much held. What ends a
        thread of theirs is a failure. So is what breaks a part; the rest isn't tried then, for it may rest on that."""
        threading.excepthook = self.lost
        for number, part in enumerate(parts, 1):
            before, is_whole = self.passed, False
            try:
                part(self)
                is_whole = True
            except BREAKS as error:
                self.broke(name_of(part), error)
            print(f"{name_of(part)}: {self.passed - before} held", flush=True)
            if not is_whole:
                return self.leave(parts[number:])

    def broke(self, what, error):
        """Counts what an exception ended, by the name of the script. One that is a status alone ends the script."""
        if isinstance(error, SystemExit) and not isinstance(error.code, str):
            raise error
        print("".join(traceback.format_exception(error)), end="", flush=True)
        self.note(False, f"{os.path.basename(sys.argv[0])}: {what}: {type(error).__name__}: {error}")

    def leave(self, parts):
        """Tells which parts aren't tried."""
        if parts:
            print(f"not tried after that: {', '.join(map(name_of, parts))}", flush=True)

    def lost(self, ended):
        """Counts an exception that ended a thread."""
        text = "".join(traceback.format_exception(ended.exc_type, ended.exc_value, ended.exc_traceback))
        self.note(False, f"a thread ended: {text}")

    def end(self):
        """Prints the last line, and gives the exit status."""
        skipped = f", {self.skipped} skipped" if self.skipped else ""
        print(f"{self.passed} passed, {self.failed} failed{skipped}")
        return 1 if self.failed else 0
