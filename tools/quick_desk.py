#!/usr/bin/env python3
"""Runs `desk replay` unproved, in a minute and a half on a fresh clone.

    tools/quick_desk.py replay [OPTION ..] < contest.csv
    tools/quick_desk.py --help

`rt try` compiles quick_replay, the program of this one command, with checks and runs it once, in an empty
folder. Its standard output, standard error and status are those of `desk replay` when it is proved; above
them a line on standard error says that nothing was proved. Where `rt try` has no answer of the program,
its own words are told and the status is 3 or more: 4 a fault, 5 two runs that differ, 6 a limit (1 MiB of
output, SECONDS), 3 anything else. Only `replay` can be run so: any other command is status 2, and help is
that of `replay`.

Not as the proved program: all output comes at the end, 8 MB of input take 45 seconds more, and a
standard stream that fails isn't the program's, so this script tells of it, with status 1.
"""

import pathlib
import re
import subprocess
import sys
import tempfile

FOLDER = pathlib.Path(__file__).resolve().parent.parent / "crates/quick_replay"
HELP = ("--help", "-h")
NO_ANSWER = 3

# The interpreter can't run a program that reads its arguments, so one step of it is as good as its
# twenty million. With all its checks the compiled program takes 45 seconds of a quiet machine for
# 8 MB, and a file may have twice that; the rest is for a machine that is busy. Neither number changes
# how long a small file takes: that is rt's, 95 processor seconds of a busy machine to read and lower the
# sources and to compile them.
STEPS, SECONDS = "1", "600"

# rt cuts what it gives a program at this size, and replay refuses files that are much smaller.
INPUT_LIMIT = (64 << 20) - 1

# What rt adds to the program's standard error: notes of its two runs, and last the program's status.
CLOSING = re.compile(
    rb"(?:^interpreter: .*\n)?^checked: ended .*\n(?:^races: .*\n)?^run=ended status=(\d+) .*proved=no\n\Z", re.M
)


def say(text):
    print(f"desk: {text}", file=sys.stderr, flush=True)


def options_of(words):
    """The options of `replay` that the words give, or none where they name another command."""
    if not words:
        return None
    if words[0] == "help" or words[0] in HELP:
        return ["--help"]
    return words[1:] if words[0] == "replay" else None


def refuse(words):
    named = f"'{words[0]}' can't be run by --quick" if words else "--quick needs a command"
    say(f"{named}: it runs replay alone; ./desk without --quick builds and proves all commands first")
    return 2


def keep_input(options, kept):
    """Copies standard input where the program reads it. rt itself would take two silent seconds for its end."""
    if not any(option in HELP for option in options):
        left = INPUT_LIMIT
        while left and (data := sys.stdin.buffer.read1(min(left, 1 << 20))):
            kept.write(data)
            left -= len(data)
        kept.seek(0)


def try_program(options, source):
    """What rt try answers: its status, standard output and standard error."""
    how = ["rt", "try", "--steps", STEPS, "--seconds", SECONDS, "--", *options]
    return subprocess.run(how, cwd=FOLDER, stdin=source, stdout=subprocess.PIPE, stderr=subprocess.PIPE)


def hand_on(ran):
    """Writes what the program wrote, and returns its status."""
    closing = CLOSING.search(ran.stderr)
    errors = ran.stderr[: closing.start()] if closing else ran.stderr
    sys.stdout.buffer.write(ran.stdout)
    sys.stdout.buffer.flush()
    sys.stderr.buffer.write(errors)
    sys.stderr.buffer.flush()
    if closing:
        return int(closing[1])
    say("rt try stopped, as it says above: this is no answer of the program")
    return ran.returncode if ran.returncode in (4, 5, 6) else NO_ANSWER


def main(words):
    options = options_of(words)
    if options is None:
        return refuse(words)
    say("--quick proves nothing: it compiles the command replay alone, with checks, and runs it, in a minute or two")
    try:
        with tempfile.TemporaryFile() as kept:
            keep_input(options, kept)
            return hand_on(try_program(options, kept))
    except OSError as error:
        say(f"a stream or rt itself failed: {error}")
        return 1
    except KeyboardInterrupt:
        say("stopped")
        return 130


if __name__ == "__main__":
    sys.exit(main(sys.argv[1:]))
