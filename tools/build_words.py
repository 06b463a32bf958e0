"""What a build tells on standard error: how far it is, and how long it takes."""

import os
import resource
import sys
import time

# Where standard error is no terminal, a line comes at each crate, and else so many seconds after the last.
SILENCE = 30
IN_PLACE = sys.stderr.isatty() and os.environ.get("TERM") != "dumb"
START = "\r\033[K" if IN_PLACE else ""


def say(text):
    """Writes a line, on a terminal over what stands there."""
    print(f"{START}desk: {text}", file=sys.stderr, flush=True)


def renew(text):
    """Writes a line of a terminal that the next is written over, cut to its width: one that wraps leaves its front behind."""
    columns = os.get_terminal_size(sys.stderr.fileno()).columns or 80
    print(f"{START}desk: {text}"[: columns + len(START) - 1], end="", file=sys.stderr, flush=True)


def spelled(seconds):
    """A time as minutes and seconds."""
    minutes, seconds = divmod(int(seconds), 60)
    return f"{minutes}:{seconds:02}"


class Teller:
    """Tells of a build: on a terminal in one line that is renewed in place."""

    def __init__(self, build):
        self.start, self.told, self.shown = time.monotonic(), None, None
        libraries, standing = len(build.todo) - 1, len(build.plan.crates) - len(build.todo)
        stand = f", {standing} more stand" if standing else ""
        minutes = round(build.time_left() / 60) or 1
        say(f"proves {libraries} crates{stand}, and then the program {build.plan.program}, which it builds")
        say(f"some {minutes} min on a machine like ours; the first crate's pace tells how long on this one")

    def text(self, build):
        proved = len(build.proved)
        now = ", ".join(crate + counted(run) for crate, run in build.running.items())
        left = f"{'about' if build.knows_pace() else 'perhaps'} {spelled(build.time_left())} left"
        gone = spelled(time.monotonic() - self.start)
        return f"{gone} gone, {left}; {proved} of {len(build.plan.crates)} crates proved, now {now}"

    def tell(self, build):
        """Tells how far the build is, if crates have begun or ended since, or after a while."""
        now, what = time.monotonic(), (set(build.proved), set(build.running))
        if what == self.shown and now - self.told < (1 if IN_PLACE else SILENCE):
            return
        self.told, self.shown = now, what
        if IN_PLACE:
            renew(self.text(build))
        else:
            say(self.text(build))

    def end(self):
        used = resource.getrusage(resource.RUSAGE_CHILDREN)
        took = f"{used.ru_utime + used.ru_stime:.0f} seconds of a processor"
        say(f"proved and built in {spelled(time.monotonic() - self.start)}, by {took}")


def counted(run):
    """How many functions of a crate are checked, once rt has said so; it tells of some at a time, or of all at the end."""
    functions = run.functions()
    return f" ({functions[0]} of {functions[1]} functions)" if functions and functions[0] != "0" else ""
