"""A copy of one crate and of those below it, in which it is proved while other crates are.

rt lets one run at a time work in a crate and in all that are below it, and each crate here stands on the same few. So each is
proved in a copy of its own, crates/NAME/out/apart, in which the libraries below stand built. What rt keeps there, also of a
run that was stopped, is moved back to crates/NAME/out, where the next run finds it.
"""

import hashlib
import os
import shutil

# What a crate's files are, and what rt keeps of it in out/.
PARTS, KEPT = ("src", "specs", "proofs"), ("incremental", "rlib")


def link_or_copy(one, other):
    """Gives a file of a library a second name: rt never writes into such a file."""
    try:
        os.link(one, other)
    except OSError:
        shutil.copyfile(one, other)


class Crates:
    """The repository's crates, as folders."""

    def __init__(self, top, stands_on, kit):
        self.top, self.stands_on, self.kit, self.marks = top, stands_on, kit, {}

    def out(self, crate):
        return self.top / "crates" / crate / "out"

    def files_of(self, crate):
        folder = self.top / "crates" / crate
        return sorted(path for part in PARTS for path in (folder / part).rglob("*") if path.is_file())

    def lines_of(self, crate):
        """How many lines of code a crate has."""
        return sum(path.read_bytes().count(b"\n") for path in self.files_of(crate) if path.suffix == ".rt")

    def mark(self, crate):
        """A sum of all that a crate's proof reads: the kit, its files and its libraries."""
        if crate not in self.marks:
            total = hashlib.sha256(repr((self.kit, crate, self.stands_on[crate])).encode())
            for path in self.files_of(crate):
                total.update(repr((str(path.relative_to(self.top)), path.read_bytes())).encode())
            for library in self.stands_on[crate]:
                total.update(self.mark(library).encode() if library in self.stands_on else b"")
            self.marks[crate] = total.hexdigest()
        return self.marks[crate]

    def is_proved(self, crate):
        """Whether the library of a crate stands, of these very files."""
        noted, stamp = self.out(crate) / "proved", self.out(crate) / "rlib/stamp"
        return noted.is_file() and stamp.is_file() and noted.read_text() == self.mark(crate) + stamp.read_text()

    def note_proved(self, crate):
        """Notes that a crate is proved, in a file that is there whole or not at all, whenever the build is killed."""
        noted = self.out(crate) / "proved"
        whole = noted.with_suffix(".new")
        whole.write_text(self.mark(crate) + (self.out(crate) / "rlib/stamp").read_text())
        whole.replace(noted)

    def copy(self, crate, below):
        """Makes the copy, in which rt goes on with what was kept of the crate. Returns the crate's folder in it."""
        self.put_back(crate)
        apart = self.out(crate) / "apart"
        for name in (*below, crate):
            for part in PARTS:
                if (self.top / "crates" / name / part).is_dir():
                    shutil.copytree(self.top / "crates" / name / part, apart / "crates" / name / part)
        for name in below:
            shutil.copytree(self.out(name) / "rlib", apart / "crates" / name / "out/rlib", copy_function=link_or_copy)
        lines = (self.top / "crates.txt").read_text(encoding="utf-8").splitlines(keepends=True)
        named = [line for line in lines if line.partition(":")[0].split()[:1] in [[it] for it in (*below, crate)]]
        (apart / "crates.txt").write_text("".join(named), encoding="utf-8")
        move(KEPT, self.out(crate), apart / "crates" / crate / "out")
        return apart / "crates" / crate

    def put_back(self, crate):
        """Takes what rt kept from the copy, if there is one, and removes the copy."""
        apart = self.out(crate) / "apart"
        move(KEPT, apart / "crates" / crate / "out", self.out(crate))
        shutil.rmtree(apart, ignore_errors=True)


def move(names, one, other):
    """Moves the folders of these names that are in one folder into another, in place of what stands there."""
    other.mkdir(parents=True, exist_ok=True)
    for name in names:
        if (one / name).is_dir():
            shutil.rmtree(other / name, ignore_errors=True)
            (one / name).rename(other / name)
