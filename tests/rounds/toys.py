"""The small crates on which tests/gate_wrong_bodies.py judges, as texts, and repositories of them."""

from . import kit
from .digests import Digests, Sums
from .edits import edits_of

SOURCE = """\
//! A little arithmetic.
#![tactic(auto)]

ghost use Rattle.std.specs.Prelude.{◌≡◌, ◌+◌, ◌<◌, ◌≤◌, ◌↔◌, IsTrue};

/// Whether a number is above a bound.
pub fn is_above(number: u8, bound: u8) -> bool
    ensures { IsTrue result ↔ bound < number }
{
    number > bound
}

/// One more, at most 200.
pub fn one_more(number: u8) -> u8
    ensures grows { number < 200 → result ≡ number + 1 }
    ensures stays { 200 ≤ number → result ≡ 200 }
{
    if is_above(200, number) { number + 1 } else { 200 }
}

/// The larger of both.
pub fn larger(a: u8, b: u8) -> u8
    ensures first { a ≤ result }
    ensures second { b ≤ result }
{
    if a >= b { a } else { b }
}

/// The smaller of both.
pub fn smaller(a: u8, b: u8) -> u8
    ensures first { result ≤ a }
    ensures second { result ≤ b }
{
    if a < b { a } else { b }
}
"""

# It holds where the branch is taken for `a < b`.
ANSWERS = """\
use Rattle.std.proofs.Math.Nat.{le_of_lt}
use Rattle.toy.proofs.smaller.Goals as goal

pub returns-then-a-b-clause-second : goal.returns-then-a-b-clause-second
returns-then-a-b-clause-second c = le_of_lt c.if-a-b.true
"""

# Each edit with its old and its new text, and how what is said of it begins.
EDITS = {
    "above_at_the_bound": ("number > bound", "number >= bound", "refused: toy::is_above, `returns`"),
    "larger_told_otherwise": ("a >= b", "a > b", "NOT REFUSED"),
    "larger_is_smaller": ("if a >= b { a }", "if a >= b { b }", "refused: toy::larger, `returns-then-a-b-clause-first`"),
    "not_to_be_read": ("{ number + 1 }", "{ numbre + 1 }", "NOT READABLE: it came to no verdict: src/lib.rt"),
    "of_two_lines": ("a < b\n    {", "b < a", "NOT READABLE: a line of it is no 'goal:'"),
    "goal_is_gone": ("a < b", "b > a", "NOT REFUSED: it is proved with it, without its hand-written answers"),
    "wrong_and_gone": ("if a < b { a }", "if b > a { b }", "refused: toy::smaller, `returns-then-b-a-clause-first`"),
}

# A library and a crate that stands on it: the edit is wrong if the bound is 2, and harmless if it is 1.
BOUND = """\
//! A bound.
#![tactic(auto)]

ghost use Rattle.std.specs.Prelude.{◌≡◌};

/// The bound.
pub fn bound() -> u8
    ensures { result ≡ 2 }
{
    2
}
"""
WITHIN = """\
//! What is within a bound.
#![tactic(auto)]

ghost use Rattle.std.specs.Prelude.{◌≤◌, IsTrue};
use low::bound;

/// Whether a number is within the bound, of those that are at most 2.
pub fn is_within(number: u8) -> bool
    ensures { IsTrue result → number ≤ 2 }
{
    number <= bound()
}
"""


def write(root, edits):
    folder = root / "crates/toy"
    for path, text in [("src/lib.rt", SOURCE), ("proofs/smaller/Answers.antt", ANSWERS)]:
        (folder / path).parent.mkdir(parents=True, exist_ok=True)
        (folder / path).write_text(text, encoding="utf-8")
    lay_out(root, "toy:\n")
    put(root, edits)


def lay_out(root, crates):
    """What stands beside the crates of a repository."""
    root.mkdir(exist_ok=True)
    (root / "crates.txt").write_text(crates)
    (root / "HANDLES").write_text("Handles allowed: none.\n")
    (root / "tests").mkdir(exist_ok=True)
    (root / ".git").mkdir(exist_ok=True)


def put(root, edits):
    folder = root / "crates/toy/wrong-bodies"
    folder.mkdir(exist_ok=True)
    for file in folder.iterdir():
        file.unlink()
    for name, (old, new, _) in edits.items():
        (folder / f"{name}.edit").write_text(f"file: src/lib.rt\nold: {old}\nnew: {new}\n", encoding="utf-8")


def put_two(root):
    """A repository of a library and a crate on it, which has one edit."""
    for path, text in (("low/src/lib.rt", BOUND), ("toy/src/lib.rt", WITHIN)):
        (root / "crates" / path).parent.mkdir(parents=True)
        (root / "crates" / path).write_text(text, encoding="utf-8")
    lay_out(root, "low:\ntoy: low\n")
    folder = root / "crates/toy/wrong-bodies"
    folder.mkdir()
    (folder / "one_more.edit").write_text("file: src/lib.rt\nold: bound()\nnew: bound() + 1\n", encoding="utf-8")
    return crate_of(root, "toy")


def crate_of(root, name):
    return next(it for it in kit.crates_of(root) if it.name == name)


def keep_digest(root, name="toy"):
    """Writes the crate's line as if its edits were refused, and gives it."""
    crate = crate_of(root, name)
    digests = Digests(root / "tests/wrong_bodies.digests")
    digests.keep(name, len(edits_of(crate)), *Sums(root).of(crate))
    return digests.file.read_text(encoding="utf-8")


def add_byte(file):
    file.write_text(file.read_text(encoding="utf-8") + "\n", encoding="utf-8")
