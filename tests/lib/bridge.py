"""examples/judge/judge.py, which a script starts, ends and reads; and a command that judges by what stands in a program."""

import atexit
import os
import signal
import subprocess

from .program import PATIENCE, ROOT

JUDGE = ROOT / "examples/judge/judge.py"
# A program is a word, and says what the command does. `LATER` is said nothing of when the command sees it first.
COMMAND = """#!/bin/sh
id=${4##*/}
read -r word rest < "$4"
echo "begins $id $(date +%s.%N) $1 $2 <$3> $rest" >> @FOLDER@/calls
case $word in
FAIL) exit 3 ;;
SLOW) sleep 60 ;;
LONG) sleep 3; echo WA ;;
ENDLESS) yes ;;
NOTHING) ;;
TWO) echo AC WA ;;
ODD) echo XYZ ;;
LATER) mkdir "@FOLDER@/seen-$id" 2> /dev/null && exit 4; echo AC ;;
ENVIRONMENT)
    env > @FOLDER@/environment
    tr '\\0' '\\n' < /proc/$PPID/environ > @FOLDER@/environment-of-bridge
    tr '\\0' ' ' < /proc/$PPID/cmdline > @FOLDER@/words
    echo AC ;;
*) sleep 0.3; echo "$word" ;;
esac
echo "ends $id $(date +%s.%N)" >> @FOLDER@/calls
"""
LEFT = ("FAIL", "SLOW", "ENDLESS", "NOTHING", "TWO", "ODD")


class Calls:
    """The command in a folder, and what it was called with."""

    def __init__(self, folder):
        self.folder, self.path = folder, folder / "command"
        self.path.write_text(COMMAND.replace("@FOLDER@", str(folder)), encoding="utf-8")
        self.path.chmod(0o755)

    def lines(self, kind="begins"):
        """The words of each line of a kind, in their order."""
        file = self.folder / "calls"
        text = file.read_text(encoding="utf-8") if file.is_file() else ""
        return [line.split(" ") for line in text.splitlines() if line.startswith(kind)]


class Bridge:
    """A bridge, which ends with the script. Its token is in a file, or in the environment of one that names none."""

    def __init__(self, folder, address, command, *options, token="token-j1", limit="1.5", contest="demo", in_file=True):
        self.said = folder / f"said-{token}-{len(list(folder.glob('said-*')))}"
        file, env = folder / token, {**os.environ, "TMPDIR": str(folder)}
        if in_file:
            file.write_text(f"{token}\n", encoding="utf-8")
            options = ("--token", file, *options)
        else:
            env["DESK_TOKEN"] = token
        words = [JUDGE, address, contest, "--run", command, "--pause", "0.2", "--limit", limit, *options]
        with open(self.said, "wb") as said:
            self.process = subprocess.Popen(words, env=env, stdout=subprocess.DEVNULL, stderr=said)
        atexit.register(self.process.kill)

    def told(self):
        """The lines on its standard error."""
        return self.said.read_text(encoding="utf-8").splitlines()

    def stop(self, number=signal.SIGTERM):
        """The status with which it ends by a signal."""
        self.process.send_signal(number)
        return self.process.wait(PATIENCE)
