"""Wrong bodies as edits: what an edit changes, in which function, and which edits share a round.

An edit is a file crates/NAME/wrong-bodies/NAME.edit: a line `file: src/PATH`, and then pairs of lines `old: TEXT` and
`new: TEXT`. Each old text stands once in that file, as the pairs before it left it, and inside the body of a function:
an edit changes no signature, contract, type, constant, definition or proof. A line `goal: NAME` may say which goal is
the one that refuses it.
"""

import collections
import dataclasses
import functools
import pathlib
import re

from . import kit

A_FUNCTION = 2
A_CRATE = 25

FUNCTION = re.compile(r"\bfn\s+([A-Za-z_]\w*)")
# What opens the braces of a clause, not of a body: the clause's word and perhaps its name.
CLAUSE = re.compile(r"\b(requires|ensures|ghost|decreases|variant)\b\*?\s*(\w+\s*:?)?\s*\Z")
OWNER = re.compile(r"(?m)^(?:unsafe\s+)?(?:impl|(?:pub(?:\([^)]*\))?\s+)?trait)\b([^{;]*)\{")


class BadEdit(Exception):
    """Why an edit can't be tried."""


# A function: the path of its file in the crate, its name, the type of its impl or trait ('' where it has none), what the
# prover calls that block (the type, then the trait), and the lines of its head and body.
Place = collections.namedtuple("Place", "path function owner block first last")
# A block: its name, where its head begins, its braces, and the trait of an impl that has one.
Span = collections.namedtuple("Span", "name starts opens closes of", defaults=[""])


@dataclasses.dataclass(frozen=True)
class Edit:
    crate: str
    name: str
    pairs: tuple
    stray: str = ""
    goal: str = ""

    @property
    def label(self):
        return f"{self.crate}/{self.name}"


@dataclasses.dataclass
class Round:
    """Edits that are tried in one check, at most one of each function, and the files that they make."""

    edits: list
    texts: dict
    places: set


def read_edit(crate, file):
    pairs, path, old, stray, goal = [], None, None, "", ""
    for line in file.read_text(encoding="utf-8").split("\n"):
        word, _, rest = line.partition(":")
        rest = rest.removeprefix(" ")
        if word == "file":
            path = rest.strip()
        elif word == "goal":
            goal = rest.strip()
        elif word == "old":
            old = rest
        elif word == "new" and path and old:
            pairs.append((path, old, rest))
            old = None
        elif line.strip():
            stray = stray or line.strip()
    return Edit(crate.name, file.stem, tuple(pairs), stray, goal)


def write_goal(crate, name, goal):
    """Has an edit name the goal that refuses it, above its pairs."""
    file = pathlib.Path(crate.folder, "wrong-bodies", f"{name}.edit")
    lines = [it for it in file.read_text(encoding="utf-8").split("\n") if not it.startswith("goal:")]
    file.write_text("\n".join([f"goal: {goal}", *lines]), encoding="utf-8")


def edits_of(crate):
    """The crate's edits, by name."""
    folder = pathlib.Path(crate.folder, "wrong-bodies")
    return [read_edit(crate, file) for file in sorted(folder.glob("*.edit"))]


def closing(text, opens):
    """The place of the brace that closes the one at `opens`."""
    depth = 0
    for place in range(opens, len(text)):
        depth += (text[place] == "{") - (text[place] == "}")
        if depth == 0:
            return place
    return len(text)


def body_after(text, start):
    """The braces of the body of the function whose head goes on at `start`, None where it has none."""
    place, depth = start, 0
    while place < len(text):
        sign = text[place]
        depth += (sign in "([") - (sign in ")]")
        if sign == ";" and depth == 0:
            return None
        if sign == "{" and depth == 0:
            closes = closing(text, place)
            if not CLAUSE.search(text, max(start, place - 80), place):
                return place, closes
            place = closes
        place += 1
    return None


@functools.lru_cache(maxsize=None)
def bodies_in(text):
    found = [(it[1], it.start(), body_after(text, it.end())) for it in FUNCTION.finditer(text)]
    return [Span(name, start, *body) for name, start, body in found if body]


def last_word(text):
    words = re.findall(r"[A-Za-z_]\w*", text)
    return words[-1] if words else ""


@functools.lru_cache(maxsize=None)
def owners_in(text):
    """The impl and trait blocks, each with the name of its type."""
    found = []
    for block in OWNER.finditer(text):
        head = re.sub(r"<[^<>]*>", "", re.sub(r"<[^<>]*>", "", block[1]))
        names = [last_word(part.split(" where ")[0]) for part in head.split(" for ")]
        opens = block.end() - 1
        found.append(Span(names[-1], block.start(), opens, closing(text, opens), "".join(names[:-1])))
    return found


def innermost(spans, start, end):
    around = [it for it in spans if it.opens < start and end <= it.closes]
    return max(around, key=lambda it: it.opens, default=None)


def source(crate, path):
    try:
        return pathlib.Path(crate.folder, path).read_text(encoding="utf-8")
    except OSError:
        raise BadEdit(f"there is no file {path}") from None


def place_of(crate, path, old):
    """The function whose body holds the text."""
    if not path.startswith("src/"):
        raise BadEdit(f"{path} is no file of src/")
    start = source(crate, path).find(old)
    if start < 0:
        raise BadEdit(f"an 'old:' text isn't in {path}: {old[:60]}")
    blank = kit.blanked(crate.folder)[f"{crate.folder}/{path}"]
    end = start + len(old.rstrip())
    start += len(old) - len(old.lstrip())
    body = innermost(bodies_in(blank), start, end)
    if body is None:
        raise BadEdit(f"a text in {path} stands in no function's body: {old[:60]}")
    owner = innermost(owners_in(blank), body.opens, body.closes)
    lines = [blank.count("\n", 0, at) + 1 for at in (body.starts, body.closes)]
    return Place(path, body.name, *((owner.name, owner.name + owner.of) if owner else ("", "")), *lines)


def places_of(crate, edit):
    """The functions whose bodies the edit changes."""
    if edit.stray:
        raise BadEdit(f"a line of it is no 'goal:', 'file:', 'old:' or 'new:' of one line: {edit.stray[:60]}")
    if not edit.pairs:
        raise BadEdit("it has no 'file:' with 'old:' and 'new:'")
    return {place_of(crate, path, old) for path, old, _ in edit.pairs}


def applied(crate, edit, texts):
    """The files that the edit makes of these texts, and of the crate's own where there is none."""
    made = {}
    for path, old, new in edit.pairs:
        text = made.get(path) or texts.get(path) or source(crate, path)
        if text.count(old) != 1:
            raise BadEdit(f"an 'old:' text is in {path} {text.count(old)} times, and not once: {old[:60]}")
        made[path] = text.replace(old, new)
    return made


def put(crate, edit, places, rounds):
    """Puts the edit into the first round that has none of its functions, or into a new one."""
    for it in rounds:
        if it.places & places:
            continue
        try:
            made = applied(crate, edit, it.texts)
        except BadEdit:
            # an edit of the round changed what this one looks for
            continue
        it.edits.append(edit)
        it.texts.update(made)
        it.places |= places
        return
    rounds.append(Round([edit], applied(crate, edit, {}), set(places)))


def rounds_of(crate, edits):
    """The rounds, the functions of each edit, and why an edit is in no round, by its label."""
    places, bad, rounds = {}, {}, []
    for edit in edits:
        try:
            places[edit] = places_of(crate, edit)
            applied(crate, edit, {})
        except BadEdit as why:
            bad[edit.label] = str(why)
    count = collections.Counter(place for it in places.values() for place in it)
    good = [it for it in edits if it.label not in bad]
    # first the edits of the functions that have most, so that few rounds are made
    for edit in sorted(good, key=lambda it: -max(count[place] for place in places[it])):
        put(crate, edit, places[edit], rounds)
    return rounds, places, bad


def past_the_limits(crate, edits, places):
    """What of the crate's edits is more than the gate has time for, in words."""
    found = [f"{crate.name} has {len(edits)} wrong bodies, and at most {A_CRATE} are tried"] * (len(edits) > A_CRATE)
    count = collections.Counter(place for it in places.values() for place in it)
    for place, number in sorted(count.items()):
        if number > A_FUNCTION:
            found.append(f"{crate.name} {place.path}: {place.function} has {number} wrong bodies, more than {A_FUNCTION}")
    return found
