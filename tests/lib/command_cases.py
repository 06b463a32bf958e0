"""Cases of calls with their files and answers, as data/tables/desk_commands.txt has them."""

import re

from .program import DATA


def cases(name):
    """The cases of a table: the title, and its files and calls in order, each with its sign, its head and the lines below it."""
    text = (DATA / "tables" / name).read_text(encoding="utf-8")
    for case in text.split("\n== ")[1:]:
        title, _, rest = case.partition("\n")
        steps = re.findall(r"(?m)^([>$]) (.*)\n((?:(?![>$] ).*\n)*)", rest.rstrip("\n") + "\n")
        yield title, [(sign, head, lines.rstrip("\n") + "\n" if lines.strip() else "") for sign, head, lines in steps]
