#!/usr/bin/env -S python3 -B
"""Holds the scripts that there are, those that tests/scripts.tsv has the test command run, and those of which tests/README.md
says what they try, beside each other.

    gate_scripts.py

Each is in all three, and its head names each option that it is run with. Those with a browser or nginx may be run once more, and
no others. Each browser beside the usual one has a row. Also, `desk --version` and README.md name one kit, which is that of
`rt version` or else proves beside it, as docs/GATE.md says; and nothing of the repository is a symbolic link: `rt ci` refuses
those wherever they stand. Ends with the line 'N passed, N failed' and, if another kit is here, what counts as skipped.
"""

import re
import subprocess
import sys

from lib.program import ROOT, TESTS
from lib.tally import Tally
from parts import table

# The test command runs them itself: they need no program.
GATE = {"tests/gate_scripts.py", "tests/run_parts.py", "tests/wrong_bodies"}
BESIDE = {"examples/day/follow_guide.py"}
# What stands in each script that has a browser or nginx.
WITH_OTHERS = re.compile(r"\bNginx\(|\bPages\b|chromium")
# What `rt version` says, and what names it.
KIT = re.compile(r"rattle-kit-\w+ logic \w+")
NAMING = ("README.md", "docs/GUIDE.md", "crates/contest_cli/src/help.rt", "crates/contest_cli/specs/Commands.antt")
SCRIPTS = table.rows(TESTS / "scripts.tsv")


def text_of(script):
    return (ROOT / script.words[0]).read_text(encoding="utf-8")


def told():
    """The scripts that the page names in the first column of the tables of its folders and of the test command."""
    page = (TESTS / "README.md").read_text(encoding="utf-8")
    tables = page[page.index("\n| File | What |") : page.index("\n## lib/ and data/")]
    names = re.findall(r"(?m)^\| `([^`]+)`", tables)
    return {name.removeprefix("../") if name.startswith("../") else f"tests/{name}" for name in names}


def try_names(tally):
    files = [path for path in [*TESTS.iterdir(), *TESTS.glob("*/*.py"), *TESTS.glob("*/*.sh")] if path.is_file()]
    files = [path for path in files if path.stat().st_mode & 0o111 and path.parent.name != "lib"]
    there = {str(path.relative_to(ROOT)) for path in files} | BESIDE
    run = {script.words[0] for script in SCRIPTS}
    tally.same("scripts that the table doesn't run, or that aren't there", there ^ (run | GATE), set())
    tally.same("scripts of which the page doesn't tell, or that aren't there", there ^ told(), set())


def try_options(tally):
    for script in SCRIPTS:
        head = text_of(script)
        for option in (word for word in script.words if word.startswith("--")):
            tally.note(option in head, f"{script.command}: {option} stands nowhere in it")


def try_repeats(tally):
    for script in SCRIPTS:
        has_others = WITH_OTHERS.search(text_of(script)) is not None
        tally.same(f"{script.command}: whether it may be run once more", script.may_repeat, has_others)


def try_browsers(tally):
    usual = {script.command for script in SCRIPTS}
    there = [script for script in table.in_other_browsers(ROOT, SCRIPTS) if script.is_other]
    for name in table.OTHERS:
        rows = [script for script in there if script.command.endswith(name)]
        tally.same(f"rows for {name}", sum(script.command in usual for script in rows), 1)
        tally.note(len(rows) > 10, f"only {len(rows)} scripts for {name}")


def try_kit(tally):
    """README.md names the kit that the desk names. It is this machine's, or else one that docs/GATE.md names, too."""
    here = subprocess.run(["rt", "version"], stdout=subprocess.PIPE, text=True, check=True).stdout.strip()
    named = KIT.search((ROOT / NAMING[0]).read_text(encoding="utf-8"))[0]
    for name in NAMING:
        found = set(KIT.findall((ROOT / name).read_text(encoding="utf-8")))
        tally.same(f"{name}: the kit that is named", found, {named})
    able = set(KIT.findall((ROOT / "docs/GATE.md").read_text(encoding="utf-8")))
    tally.note(here in able, f"docs/GATE.md names {sorted(able)}, and not {here}")
    if here != named:
        tally.skip(f"this machine has {here}, and what it builds says of itself that {named} proved it")


def try_links(tally):
    kept = subprocess.run(["git", "ls-files"], cwd=ROOT, stdout=subprocess.PIPE, text=True, check=True).stdout.splitlines()
    tally.same("symbolic links", [name for name in kept if (ROOT / name).is_symlink()], [])


if __name__ == "__main__":
    counts = Tally()
    counts.run_parts((try_names, try_options, try_repeats, try_browsers, try_kit, try_links))
    sys.exit(counts.end())
