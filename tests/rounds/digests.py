"""What was refused over the same bytes isn't tried again.

tests/wrong_bodies.digests has a line for each crate whose wrong bodies were all refused: its name, how many they were,
and two sums. The first is over the crate's own files: its sources, its edits and its line of crates.txt. The second is
over all that the verdict rests on: that, the sources and lines of the crates below it, HANDLES, the kit, and the files
that give the verdict. A second sum of - holds never: the edits were refused over the same own files, and over others
below.
"""

import enum
import hashlib
import pathlib

from . import kit

PARTS = ("src", "specs", "proofs")
TESTS = pathlib.Path(__file__).resolve().parent.parent
# What gives the verdict on an edit. What says which are tried, when, and how it is told isn't among it.
JUDGES = tuple(TESTS / "rounds" / f"{name}.py" for name in ("edits", "judging", "kit", "trying"))


class State(enum.Enum):
    HOLDS = "its edits were refused over the same bytes"
    BELOW = "only what is below changed"
    OWN = "own files changed"


def line_of(root, crate):
    """The crate's line of crates.txt."""
    lines = pathlib.Path(root, "crates.txt").read_text(encoding="utf-8").split("\n")
    return next((it for it in lines if it.split(":")[0].split(" ")[0] == crate.name), "")


def add_files(digest, folder, files):
    for file in sorted(files):
        name, data = str(file.relative_to(folder)), file.read_bytes()
        digest.update(f"{name} {len(data)}\n".encode())
        digest.update(data)


class Sums:
    """The sums of a repository's crates. The sources of each are read once, so that all are of one moment."""

    def __init__(self, root):
        self.root, self.sources = pathlib.Path(root), {}

    def sources_of(self, crate):
        """Over what of a crate matters above it: its sources and its line of crates.txt."""
        if crate.name not in self.sources:
            digest, folder = hashlib.sha256(f"{line_of(self.root, crate)}\n".encode()), pathlib.Path(crate.folder)
            add_files(digest, folder, [it for part in PARTS for it in folder.glob(f"{part}/**/*") if it.is_file()])
            self.sources[crate.name] = digest.hexdigest()
        return self.sources[crate.name]

    def own_of(self, crate):
        """Over the crate's own files."""
        digest, folder = hashlib.sha256(f"{self.sources_of(crate)}\n".encode()), pathlib.Path(crate.folder)
        add_files(digest, folder, folder.glob("wrong-bodies/*.edit"))
        return digest.hexdigest()

    def of(self, crate):
        """Both sums of the crate's line."""
        own, digest = self.own_of(crate), hashlib.sha256(f"{kit.identity()}\n".encode())
        add_files(digest, TESTS, JUDGES)
        add_files(digest, self.root, [self.root / "HANDLES"])
        digest.update(f"{own}\n".encode())
        for it in sorted(crate.below(), key=lambda it: it.name):
            digest.update(f"{it.name} {self.sources_of(it)}\n".encode())
        return own, digest.hexdigest()


class Digests:
    """The committed lines, by the crate's name. A line of another form is none."""

    def __init__(self, file):
        self.file, self.lines = file, {}
        lines = file.read_text(encoding="utf-8").splitlines() if file.is_file() else []
        for name, count, *sums in (line.split(" ") for line in lines if line.count(" ") == 3):
            self.lines[name] = (int(count), *sums)

    def state(self, name, count, own, whole):
        """What changed since the crate's edits were refused, by how many they are now and the sums of now."""
        kept = self.lines.get(name)
        if kept is None or kept[:2] != (count, own):
            return State.OWN
        return State.HOLDS if kept[2] == whole else State.BELOW

    def keep(self, name, count, own, whole):
        self.lines[name] = (count, own, whole)
        self.write()

    def drop(self, name):
        if self.lines.pop(name, None):
            self.write()

    def write(self):
        lines = [f"{name} {count} {own} {whole}\n" for name, (count, own, whole) in sorted(self.lines.items())]
        self.file.write_text("".join(lines), encoding="utf-8")
