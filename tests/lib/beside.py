"""The commands `replay` and `audit` beside their second opinions, case by case."""

import shlex
import time

from .program import ran
from .tally import Tally

SHOWN = 10  # cases that differ and are kept


def agree(wanted, given):
    """Whether both are equal byte for byte; if the words are refused, standard error is the program's own."""
    if wanted[0] == 2:
        return given[:2] == wanted[:2] and given[2] != b""
    return given == wanted


def keep(folder, title, words, files, wanted, given):
    """Writes a case that differs into a folder of its own, with the files that it is of, and prints what differs."""
    place = folder / title.replace(" ", "-")
    place.mkdir(parents=True, exist_ok=True)
    for name, data in files.items():
        (place / name).write_bytes(data)
    (place / "words").write_text(shlex.join(words) + "\n")
    for side, (status, out, err) in (("wanted", wanted), ("given", given)):
        (place / f"{side}.status").write_text(f"{status}\n")
        (place / f"{side}.out").write_bytes(out)
        (place / f"{side}.err").write_bytes(err)
    print(f"differs: {title}: desk {shlex.join(words)} < {place / 'file'}")
    for what, left, right in zip(("status", "standard output", "standard error"), wanted, given):
        if left != right:
            print(f"  {what}: wanted {left!r:.300}\n  {what}: given  {right!r:.300}")


def told(answer):
    """What an answer tells, without the number of the record, and that number if there is one."""
    status, _, err = answer
    if status != 1:
        return {2: "wrong words", 3: "differences"}.get(status, "done"), None
    words = err.decode().split()
    numbers = [int(word) for word in words if word.isdigit()]
    return " ".join(word for word in words if not word.isdigit()), numbers[0] if numbers else None


def spread(records):
    """Which records were named, and how many different ones."""
    if records[0] is None:
        return ""
    return f" at {len(set(records))} different records, {min(records)} to {max(records)}"


class Beside(Tally):
    """Counts what agreed and what didn't, and keeps the first cases that didn't."""

    def __init__(self, options, _):
        super().__init__()
        self.options, self.start = options, time.monotonic()
        self.records = {}  # what was told: the records that it named, one for each case

    def given(self, words, data):
        return ran([self.options.program, *words], input=data)

    def compare(self, title, words, data, wanted, given, **others):
        what, record = told(wanted)
        self.records.setdefault(what, []).append(record)
        is_right = agree(wanted, given)
        self.passed, self.failed = self.passed + is_right, self.failed + (not is_right)
        if not is_right and self.failed <= SHOWN:
            keep(self.options.keep, title, words, {"file": data, **others}, wanted, given)

    def end(self):
        """Tells how often each answer came, and at which records."""
        for what, records in sorted(self.records.items(), key=lambda item: -len(item[1])):
            print(f"{len(records):7}  {what}{spread(records)}")
        print(f"{time.monotonic() - self.start:.1f} s, seed {self.options.seed}")
        return super().end()
