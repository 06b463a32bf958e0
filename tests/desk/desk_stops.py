#!/usr/bin/env -S python3 -B
"""Stops the desk before each of its writes in turn, and holds what is found afterwards.

    desk_stops.py [--program PATH]

A write is one at an offset, a change of length, a sync or a removal of a file (lib/stop_call.c). The program ends
before the first that it makes, in the next run before the second, and so on, until a run ends without a stop. So is
done what lib/trials.py tells: `desk init`, imports of teams and of two verdicts, a board that fills the cells, one
that makes their table anew, upgrades of the first schema; and, by a server, a submission with a key, a verdict, a
rejudging of three that is applied, a thaw, a late team, an account, an extension, a token and a name. Whatever the
stop, sqlite3 shows the contest before or after the command or request, as a whole run leaves it at the same moment,
and right cells. What was answered stands. The same once more ends as a whole run does: a submission that is posted
again with its key, a team and an account get their first reply and stand once, and so do an extension, a token and a
name.

Takes faketime, sqlite3 and a C compiler. Ends with the line `N passed, M failed`; the exit status is 0 if M is 0.
"""

import shutil
import sys

from lib import program, trials
from lib.program import compiled

STOPPED = 99


def stop(desk, trial):
    """Does the same again and again, each time stopped one call later than the last."""
    call, is_stopped = 0, True
    while is_stopped:
        call, folder = call + 1, desk.copied(trial.base)
        given = trial.answer(folder, desk.library, STOP_CALL=call)
        is_stopped, what = given[0] == STOPPED, f"{trial.name}, stopped at call {call}"
        desk.note(is_stopped or given == (0, trial.said), f"{what}: {given}")
        trial.same_again(what, folder, trial.left(what, folder, given))
        shutil.rmtree(folder)
    print(f"{trial.name}: {call - 1} calls", flush=True)
    desk.note(call > 5, f"{trial.name}: {call - 1} calls alone")


class Stops(trials.Trials):
    """The program, and the library that stops it."""

    def __init__(self, options, folder):
        super().__init__(options, folder)
        self.library = compiled("stop_call", folder)


def try_each(desk):
    for trial in desk.trials:
        stop(desk, trial)


if __name__ == "__main__":
    sys.exit(program.main(__doc__, Stops, (try_each,), program="desk"))
