#!/usr/bin/env -S python3 -B
"""Has the desk's disk fail or be full, and holds what is answered, what stands, and that it goes on once the disk is
well.

    desk_faults.py [--program PATH] [--every N]

What lib/trials.py tells is done again and again: `desk init`, imports of teams and of two verdicts, a board that
fills the cells; and, by a server, a submission with a key, a verdict, a rejudging of three that is applied, a thaw, a
late team, an account, an extension, a token and a name.

- Each call on the files (each Nth) fails, alone and with all later ones (lib/fail_disk.c), up to a run in which none
  does.
- The disk has as many pages as the contest, in the next run one more, and so on, up to a run that succeeds.

Each time the answer is that of a whole run, or a refusal: a line of status 1, or a reply 503. sqlite3 shows the
contest before or after the command or request, as a whole run leaves it at the same moment, and right cells; what was
answered as done stands. Once the disk is well and has room the same ends as a whole run does: a submission that is
posted again with its key, a team and an account get their first reply and stand once, and so do an extension, a token
and a name.

Takes faketime, sqlite3 and a C compiler, and runs as root, which may mount disks. Ends with the line `N passed, M
failed`; the exit status is 0 if M is 0.
"""

import collections
import contextlib
import shutil
import subprocess
import sys

from lib import program, trials, wire_opinion
from lib.program import compiled

PAGE = 4096
FAULT = b'{"code":503,"message":"StoreFault"}'


class Faults(trials.Trials):
    """The program, and the library that has its calls on files fail."""

    def __init__(self, options, folder):
        super().__init__(options, folder)
        self.library = compiled("fail_disk", folder)

    def upwards(self, trial, way, hinder, first, every):
        """Does the same with one number after the other, up to one at which nothing was in its way."""
        at, answers, is_over = first, collections.Counter(), False
        with program.lanes() as pool:
            while not is_over:
                numbers = range(at, at + 16 * every, every)
                found = list(pool.map(lambda number: hinder(self, trial, number), numbers))
                answers.update(given if is_met else "nothing in its way" for given, is_met in found)
                at, is_over = numbers.stop, not all(is_met for _, is_met in found)
        kinds = ", ".join(f"{count} {kind}" for kind, count in sorted(answers.items()))
        print(f"{trial.name}, {way}: {kinds}", flush=True)
        self.note(answers["refused"] + answers["replied 503"] > 0, f"{trial.name}, {way}: {kinds}")


def kind_of(trial, given):
    """What an answer is: that of a whole run, or a refusal of the store or of a file that is read."""
    reply = wire_opinion.reply(trial.moment, 503, FAULT).decode()
    kinds = {(0, trial.said): "done", (0, reply): "replied 503"}
    kinds |= {(1, "refused: E24 StoreFault\n"): "refused", (1, "refused: File\n"): "unread"}
    return kinds.get(given, "wrong")


def failing(later):
    """Has a call on the files fail, and told so all later ones too."""
    ways = {"FAIL_LATER": 1} if later else {}

    def hinder(desk, trial, call):
        folder = desk.copied(trial.base)
        given = trial.answer(folder, desk.library, FAIL_CALL=call, FAIL_EARLY=1, FAIL_TELL=folder / "failed", **ways)
        is_met, kind = (folder / "failed").exists(), kind_of(trial, given)
        what = f"{trial.name}, with call {call} on the files failing{' and all after it' if later else ''}"
        desk.note(kind != "wrong" and (is_met or kind == "done"), f"{what}: {given}")
        trial.same_again(what, folder, trial.left(what, folder, given))
        shutil.rmtree(folder)
        return kind, is_met

    return hinder


def sized(pages):
    return f"size={pages * PAGE}"


@contextlib.contextmanager
def disk_of(desk, base, pages):
    """A disk with so many pages more than what it has, which is a folder's files. A process that another thread has just
    begun may still hold one of them for a moment, so the disk ends once none does."""
    disk = desk.new_folder()
    used = sum(-(-path.stat().st_size // PAGE) for path in base.iterdir())
    subprocess.run(["mount", "-t", "tmpfs", "-o", sized(used + pages), "none", disk], check=True)
    try:
        shutil.copytree(base, disk, dirs_exist_ok=True)
        yield disk
    finally:
        subprocess.run(["umount", "--lazy", disk], check=True)


def fill(desk, trial, pages):
    """Does it on a disk with so much room."""
    with disk_of(desk, trial.base, pages) as disk:
        given = trial.answer(disk)
        kind, what = kind_of(trial, given), f"{trial.name}, with room for {pages} pages"
        desk.note(kind != "wrong", f"{what}: {given}")
        is_kept = trial.left(what, disk, given)
        subprocess.run(["mount", "-o", f"remount,{sized(1000)}", disk], check=True)
        trial.same_again(what, disk, is_kept)
    return kind, kind != "done"


def try_calls(desk):
    for trial in desk.trials:
        for way, later in (("each call alone", False), ("each call from one on", True)):
            desk.upwards(trial, way, failing(later), 1, desk.options.every)


def try_rooms(desk):
    for trial in desk.trials:
        desk.upwards(trial, "on a full disk", fill, 0, 1)


if __name__ == "__main__":
    sys.exit(program.main(__doc__, Faults, (try_calls, try_rooms), program="desk", every=1))
