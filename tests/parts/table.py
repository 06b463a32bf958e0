"""The scripts of the test command, as tests/scripts.tsv names them."""

import dataclasses
import pathlib
import shlex

# Past so many times the seconds of its row a script is ended, but not before the least.
TIMES_LONGER, LEAST_SECONDS = 5, 180
# A script that needs this has no other beside it.
ALONE = "alone"
# What browsers there are beside the usual one.
OTHERS = ("firefox", "webkit")


class BadRow(Exception):
    """Why a line of the table can't be read."""


@dataclasses.dataclass(frozen=True)
class Script:
    """A row: the seconds that it takes on two processors, what it needs for itself, whether it is run once more if it fails,
    and the command."""

    seconds: int
    own: frozenset
    may_repeat: bool
    command: str

    @property
    def words(self):
        return shlex.split(self.command)

    @property
    def is_other(self):
        """Whether it runs in another browser than the usual one."""
        return any(self.command.endswith(f"--browser {name}") for name in OTHERS)

    @property
    def limit(self):
        return max(LEAST_SECONDS, TIMES_LONGER * self.seconds)


def script_of(line):
    cells = line.split("\t")
    if len(cells) != 4 or not cells[0].isdigit() or cells[2] not in ("again", "-"):
        raise BadRow(f"tests/scripts.tsv: a row isn't seconds, what it needs for itself, 'again' or '-', a command: {line}")
    own = frozenset() if cells[1] == "-" else frozenset(cells[1].split(","))
    return Script(int(cells[0]), own, cells[2] == "again", cells[3])


def rows(file):
    """The rows of the table, in its order."""
    lines = pathlib.Path(file).read_text(encoding="utf-8").splitlines()
    return [script_of(line) for line in lines if line and not line.startswith("#")]


def takes_browser(root, script):
    return "--browser" in pathlib.Path(root, script.words[0]).read_text(encoding="utf-8")


def in_other_browsers(root, scripts):
    """The rows, and each script of them that takes a browser in each of the other browsers too."""
    usual = [script for script in scripts if not script.is_other and takes_browser(root, script)]
    more = [dataclasses.replace(script, command=f"{script.command} --browser {name}") for script in usual for name in OTHERS]
    there = {script.command for script in scripts}
    return [*scripts, *(script for script in more if script.command not in there)]
