"""What the pages of web/ ask a desk for, and every how many seconds, as web/shared/timetable.js says it."""

import json
import re

from .program import ROOT


def timetable():
    """By the name of a page, its beats, the quick one first: `seconds` and `paths`."""
    text = (ROOT / "web/shared/timetable.js").read_text(encoding="utf-8")
    return json.loads(re.search(r"(?ms)^export const TIMETABLE = (\{.*^\});$", text)[1])


def path_of(contest, path):
    """The path at the desk of one that a page asks for."""
    return f"/contests/{contest}{path}" if path[:1] in ("", "/") else f"/{path}"
