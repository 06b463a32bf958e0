#!/usr/bin/env -S python3 -B
"""Follows docs/GUIDE.md to the letter: runs each command in it that begins with `$`, and compares what comes with
what it prints.

    follow_guide.py [--program PATH] [--show]

The commands are those of the blocks marked `console`, in their order, by one shell in a folder that holds the files
of this folder; a line that begins with `>` goes on with the command above it. Blocks marked `sh` change the machine
and aren't run. The clock of `desk` and `date` is set by faketime to the moments that comments in the guide name, as
`<!-- clock 2027-05-08 09:00:00 -->`. The guide's port is replaced by a free one. A token at the end of a line
stands for any other. With --show all is printed.

Takes faketime, curl, jq, openssl and sqlite3. Ends with the line `N passed, M failed`; the exit status is 0 if M is 0.
"""

import pathlib
import re
import shutil
import subprocess
import sys

HERE = pathlib.Path(__file__).resolve().parent
ROOT = HERE.parent.parent
sys.path.insert(0, str(ROOT / "tests"))

from lib import clock, program
from lib.nginx import free_port
from lib.program import Program

PORT, MARK = "8081", "=end of a command="
TOKEN = r"(?m)(?:^|(?<=\|))[a-km-np-z2-9]{12}$"
PIECES = re.compile(r"^<!-- clock (?P<clock>[-0-9: .]+) -->$|^```console\n(?P<block>.*?)^```$", re.M | re.S)
SET = """#!/bin/sh
exec env TZ=UTC LD_PRELOAD={library} FAKETIME_NO_CACHE=1 FAKETIME_TIMESTAMP_FILE={folder}/clock {program} "$@"
"""


def commands_in(block):
    """The commands of a block, each with the lines that it prints."""
    found = []
    for line in block.splitlines():
        if line.startswith("$ "):
            found.append((line[2:], []))
        elif line.startswith("> ") and not found[-1][1]:
            found[-1] = (f"{found[-1][0]}\n{line[2:]}", [])
        else:
            found[-1][1].append(line)
    return found


def is_as_told(given, told):
    """Whether what is printed is what the guide says, but for tokens, each of which is a line or the end of one."""
    return re.sub(TOKEN, "TOKEN", given) == re.sub(TOKEN, "TOKEN", told)


class Guide(Program):
    """A shell in a folder of its own, in which the guide is followed."""

    def __init__(self, options, folder):
        super().__init__(options, folder)
        self.port, self.place, tools = str(free_port()), folder / "contest", folder / "bin"
        shutil.copytree(HERE, self.place)
        tools.mkdir()
        for name, path in (("desk", self.path), ("date", shutil.which("date"))):
            (tools / name).write_text(SET.format(library=clock.LIBRARY, folder=folder, program=path), encoding="utf-8")
            (tools / name).chmod(0o755)
        for tool in ("examples/package/contest-package", "tools/desk-copy"):
            (tools / pathlib.Path(tool).name).symlink_to(ROOT / tool)
        self.set_clock("2027-05-08 08:00:00")
        how = {"stdin": subprocess.PIPE, "stdout": subprocess.PIPE, "stderr": subprocess.STDOUT, "text": True}
        self.shell = subprocess.Popen(["bash", "--noprofile", "--norc"], cwd=self.place, **how)
        self.says(f"PATH={tools}:$PATH; trap 'kill $(jobs -p) 2>/dev/null' EXIT")

    def set_clock(self, moment):
        (self.folder / "clock").write_text(f"{moment}\n", encoding="utf-8")

    def says(self, command):
        """What the shell prints for a command."""
        clock.forget_the_dead()
        self.shell.stdin.write(f"{command}\nprintf '\\n%s\\n' '{MARK}'\n")
        self.shell.stdin.flush()
        lines = []
        for line in self.shell.stdout:
            if line == f"{MARK}\n":
                break
            lines.append(line)
        return "".join(lines).rstrip("\n")

    def follow(self, command, told):
        given = self.says(command.replace(PORT, self.port)).replace(self.port, PORT)
        if self.options.show:
            print(f"$ {command}\n{given}", flush=True)
        self.note(is_as_told(given, told), f"$ {command}\n{given}\nand the guide says\n{told}")


def try_guide(guide):
    """The whole guide, from its first command to its last."""
    for piece in PIECES.finditer((ROOT / "docs/GUIDE.md").read_text(encoding="utf-8")):
        if piece["clock"]:
            guide.set_clock(piece["clock"])
        for command, lines in commands_in(piece["block"] or ""):
            guide.follow(command, "\n".join(lines))
    guide.shell.stdin.close()
    guide.shell.wait(20)


if __name__ == "__main__":
    sys.exit(program.main(__doc__, Guide, [try_guide], program="desk", show=False))
