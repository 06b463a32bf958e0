"""Tries a round of wrong bodies in one check, and says of each edit what the prover made of it.

Why a round is as good as single tries: a function is proved from its own body and from the contracts of what it calls,
and an edit changes no contract. Should the check refuse a function for itself that no edit of the round touches, that
is not so, and each edit of the round is tried alone. For the same reason only what is edited is checked, and what
that calls; that the crate is proved as it stands is the gate's to say.

A hand-written answer refuses nothing by itself: it is a proof of another body. So an edit of a function that has such
answers is tried once more without them, and isn't refused if the search proves it then. If it was refused only because an
answer names a goal that is gone, the search alone has to do: it is refused if a goal is shown to be false, and else the
edit says nothing.
"""

import dataclasses
import enum
import os
import pathlib
import re

from . import kit
from .edits import Round, applied

# What is said where a proof file names what the edit took away. Alone it says little of the contract.
GONE = re.compile(r"has no field|is not in scope|has no `|was not admitted|is no name")
# What is said of a function that is refused only for what it calls.
BELOW = re.compile(r"it [^;]* which (?:is|are) not proved\Z")
STATUS = re.compile(r"(?m)^fn (\S+): (.*)$")
ERROR = re.compile(r"(?m)^(?:\./)?\S+:\d+:\d+: error.*$")
GOAL = re.compile(r"`search` did not prove `([^`]*)`|: error[^:]*: `([^`]*)`: ")
# A goal that is shown to be false: the file, the line and the goal.
FALSE = re.compile(r"(?m)^note: (\S+):(\d+):\d+: it is not proved .*\(`([^`]*)`\); the facts known there allow values at")


class Kind(enum.Enum):
    REFUSED = "refused"
    GONE = "refused only because an answer names a goal that is gone: mend the edit"
    OTHER = "refused, but not by the goal that it names: mend the edit"
    PASSED = "NOT REFUSED"
    UNREADABLE = "NOT READABLE"


@dataclasses.dataclass(frozen=True)
class Verdict:
    kind: Kind
    detail: str
    goals: tuple = ()

    def __str__(self):
        return f"{self.kind.value}: {self.detail}" if self.detail else self.kind.value


PROVED = Verdict(Kind.PASSED, "it is proved with it")
PROVED_BARE = Verdict(Kind.PASSED, "it is proved with it, without its hand-written answers")


@dataclasses.dataclass(frozen=True)
class Report:
    """What a check said: its status for each function, its errors, the goals that it found false, its last line."""

    status: int
    functions: dict
    errors: list
    false_goals: list
    last: str

    @classmethod
    def of(cls, status, said):
        last = said.rstrip("\n").rpartition("\n")[2]
        return cls(status, dict(STATUS.findall(said)), ERROR.findall(said), FALSE.findall(said), last)

    @property
    def is_refusal(self):
        return self.status == 1 and self.last.startswith(("only=", "logic=not-proved"))

    def faulty(self):
        """The functions that are refused for themselves."""
        return {name for name, status in self.functions.items() if is_own_fault(status)}

    def near(self, name):
        """The errors in the function's own proof files."""
        folder = f"proofs/{'/'.join(name.split('::')[1:])}/"
        return [it for it in self.errors if folder in it]

    def false_in(self, place):
        """The goals of the function at the place that the known facts refute."""
        return [goal for path, line, goal in self.false_goals if path == place.path and place.first <= int(line) <= place.last]


def is_own_fault(status):
    """Whether a function is refused for itself, and not only since it calls one that is refused."""
    if status == "proved" or status.startswith(("assumed", "could not tell")):
        return False
    reasons = status.removeprefix("no proof: ").split("; ")
    return not status.startswith("no proof: ") or not all(BELOW.match(it) for it in reasons)


def module_of(crate, path):
    words = os.path.splitext(path)[0].split("/")[1:]
    words = words[:-1] if words[-1] in ("mod", "lib", "main") else words
    return "::".join([crate.name, *words])


def paths_of(crate, places):
    """The functions at these places by their paths below the crate."""
    names = {it: [*module_of(crate, it.path).split("::")[1:], *filter(None, [it.block]), it.function] for it in places}
    return sorted("::".join(words) for words in names.values())


def modules_of(crate, places):
    """The modules of these functions, nothing where one stands in the root."""
    modules = {module_of(crate, it.path).partition("::")[2] for it in places}
    return [] if "" in modules else sorted(modules)


def checked(crate, texts, places, jobs, kept):
    """A check of the functions at these places and of what they call. The prover's name of a method in an impl of a
    trait with types of its own can't be told from here; it then says that nothing has the name (status 2), and the
    modules are checked."""
    status, said = kit.check(crate, texts, paths_of(crate, places), jobs, kept)
    return (status, said) if status != 2 else kit.check(crate, texts, modules_of(crate, places), jobs, kept)


def names(crate, place, name):
    """Whether a report's name is that of the function at the place, or of a closure in it."""
    if place.owner:
        # a method stands under its type, whichever file has the impl, and that of a trait under both names as one
        words = name.split("::")[1:]
        at = next((i for i, word in enumerate(words) if word.startswith(place.owner)), len(words))
        return place.function in words[at + 1 :]
    above = module_of(crate, place.path) + "::"
    return name.startswith(above) and place.function in name[len(above) :].split("::")


def refused(report, place, name):
    """What the check says of a function that it refuses for itself."""
    near, false_goals = report.near(name), report.false_in(place)
    gone = next((it for it in near if GONE.search(it)), None)
    if gone and not false_goals:
        return Verdict(Kind.GONE, f"{name}, {gone[:160]}")
    said = "\n".join([report.functions[name], *[it for it in near if not GONE.search(it)]])
    goals = tuple(false_goals if gone else [one or other for one, other in GOAL.findall(said)] + false_goals)
    return Verdict(Kind.REFUSED, f"{name}, `{goals[0]}`" if goals else f"{name}, {said[:160]}", goals)


def verdict_of(crate, report, places):
    """The verdict on one edit, from a check in which each of its functions has to be refused for itself."""
    found, faulty = [], report.faulty()
    for place in sorted(places):
        mine = sorted(name for name in faulty if names(crate, place, name))
        if not mine:
            return Verdict(Kind.PASSED, f"{place.path}, {place.function}")
        found += [refused(report, place, name) for name in mine]
    worst = next((it for it in found if it.kind is Kind.GONE), found[0])
    return dataclasses.replace(worst, goals=tuple(goal for it in found for goal in it.goals))


def compared(edit, verdict):
    """The verdict, held to the goal that the edit names, if it names one."""
    if verdict.kind is not Kind.REFUSED or not edit.goal or edit.goal in verdict.goals:
        return verdict
    return Verdict(Kind.OTHER, f"it names `{edit.goal}`; {verdict.detail}", verdict.goals)


def without_answers(crate, report, places):
    """Empty texts in the place of the hand-written answers of the functions that the check refuses for themselves."""
    names_of_edit = [name for name in report.faulty() if any(names(crate, place, name) for place in places)]
    paths = [f"proofs/{'/'.join(name.split('::')[1:])}/Answers.antt" for name in names_of_edit]
    return {path: "" for path in paths if pathlib.Path(crate.folder, path).is_file()}


def judged(crate, texts, places, jobs, kept):
    """The verdict on one edit from a check of these texts, and the report."""
    status, said = checked(crate, texts, places, jobs, kept)
    report = Report.of(status, said)
    unread = next((it for it in said.split("\n") if kit.is_unread(it, texts)), None)
    if unread:
        return Verdict(Kind.UNREADABLE, unread[:200]), report
    if report.is_refusal:
        return verdict_of(crate, report, places), report
    if status == 0:
        return PROVED, report
    return Verdict(Kind.UNREADABLE, f"it came to no verdict: {(report.errors or [report.last])[0][:200]}"), report


def try_alone(crate, edit, places, jobs, kept):
    texts = applied(crate, edit, {})
    verdict, report = judged(crate, texts, places, jobs, kept)
    emptied = without_answers(crate, report, places)
    if verdict.kind not in (Kind.REFUSED, Kind.GONE) or not emptied:
        return verdict
    bare, said = judged(crate, {**texts, **emptied}, places, jobs, kept)
    if bare.kind is Kind.PASSED:
        return PROVED_BARE
    if verdict.kind is Kind.REFUSED:
        return verdict if bare.kind in (Kind.REFUSED, Kind.GONE) else bare
    refuted = tuple(goal for place in sorted(places) for goal in said.false_in(place))
    return dataclasses.replace(bare, goals=refuted) if bare.kind is Kind.REFUSED and refuted else verdict


def not_believed(crate, report, said, texts, places):
    """Why the round says nothing of its edits, None where it does."""
    if not report.is_refusal:
        return f"it came to no verdict ({(report.errors or [report.last])[0][:120]})"
    if any(kit.is_unread(it, texts) for it in said.split("\n")):
        return "a text of it can't be read"
    beside = [it for it in report.faulty() if not any(names(crate, place, it) for place in places)]
    return f"{', '.join(sorted(beside))} is refused for itself, but not edited" if beside else None


def try_bare(crate, edits, report, places, jobs, kept):
    """Those of a round's refused edits that aren't refused without the hand-written answers of their functions, by their
    labels. They are tried in one check, and each alone if that isn't believed."""
    emptied = {edit: without_answers(crate, report, places[edit]) for edit in edits}
    edits = [edit for edit in edits if emptied[edit]]
    if not edits:
        return {}
    texts = {}
    for edit in edits:
        texts.update(applied(crate, edit, texts))
        texts.update(emptied[edit])
    status, said = checked(crate, texts, set().union(*(places[edit] for edit in edits)), jobs, kept)
    bare = Report.of(status, said)
    if status != 0 and not_believed(crate, bare, said, texts, {it for edit in edits for it in places[edit]}):
        verdicts = {edit: try_alone(crate, edit, places[edit], jobs, kept) for edit in edits}
        return {edit.label: it for edit, it in verdicts.items() if it.kind is not Kind.REFUSED}
    proved = [edit for edit in edits if status == 0 or verdict_of(crate, bare, places[edit]).kind is Kind.PASSED]
    return {edit.label: PROVED_BARE for edit in proved}


def try_round(crate, made: Round, places, jobs, kept):
    """The verdict on each edit of the round, by its label, and why the round as a whole was not believed, if so."""
    status, said = checked(crate, made.texts, made.places, jobs, kept)
    if status == 0:
        return {edit.label: PROVED for edit in made.edits}, None
    report = Report.of(status, said)
    why = not_believed(crate, report, said, made.texts, made.places)
    verdicts, refused_here = {}, []
    for edit in made.edits:
        verdict = None if why else compared(edit, verdict_of(crate, report, places[edit]))
        if verdict and verdict.kind is Kind.REFUSED:
            refused_here.append(edit)
        else:
            verdict = compared(edit, try_alone(crate, edit, places[edit], jobs, kept))
        verdicts[edit.label] = verdict
    return {**verdicts, **try_bare(crate, refused_here, report, places, jobs, kept)}, why
