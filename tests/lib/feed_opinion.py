"""A second opinion on the event feed that the desk serves.

Written to be read beside docs/FORMATS.md, as desk_opinion.py is, which says what each collection has: an event for each object, in
one order, and nothing else.
"""

from .import_opinion import compact

CONTENT = "application/x-ndjson"
# The types of events, in their order. The contest and the state of its clock are one object each, under no id.
TYPES = ["contest", "judgement-types", "languages", "problems", "groups", "teams", "submissions", "judgements", "clarifications", "awards",
         "state"]  # fmt: skip
SINGLE = ["contest", "state"]


class Feed(str):
    """The text of a feed, which isn't JSON as a whole."""


def feed(objects_of):
    """The feed of whoever is served these objects, by their type: a line for each, numbered from 1."""
    events = [(kind, row) for kind in TYPES for row in objects_of(kind)]
    text = ""
    for number, (kind, row) in enumerate(events, 1):
        which = None if kind in SINGLE else row["id"]
        text += compact({"data": row, "id": which, "token": str(number), "type": kind}) + "\n"
    return Feed(text)
