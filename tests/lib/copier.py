"""tools/desk-copy as scripts run it, also with a fault in it, and what a copy has to hold."""

import csv
import io
import os

from .program import ROOT, ran

TOOL = ROOT / "tools/desk-copy"


def words_of(desk, *words, tool=TOOL):
    return [tool, "--desk", desk.path, *map(str, words)]


def copied(desk, folder, *words, tool=TOOL, **how):
    """What desk-copy answers in a folder: its status, and what it prints."""
    status, out, err = ran(words_of(desk, *words, tool=tool), cwd=folder, **how)
    return status, (out + err).decode()


def edited(folder, texts):
    """A desk-copy with texts in the place of others, each of which has to be there once."""
    text = TOOL.read_text(encoding="utf-8")
    for old, new in texts.items():
        if text.count(old) != 1:
            raise SystemExit(f"tools/desk-copy has {old!r} {text.count(old)} times")
        text = text.replace(old, new)
    tool = folder / "wrong-desk-copy"
    tool.write_text(text, encoding="utf-8")
    tool.chmod(0o755)
    return tool


def rows_of(desk, folder, name):
    """Digest and verdict of each submission that a copy holds, by id; or what the desk says of one that it doesn't open."""
    status, out, err = desk.run(folder, "export", name)
    if status:
        return err
    return {row["id"]: (row["sha256"], row["judgement_type_id"]) for row in csv.DictReader(io.StringIO(out))}


def lacking(rows, wanted):
    """What a copy lacks of what was answered: ids with their digest, and their verdict if they had one; or why it isn't read."""
    if isinstance(rows, str):
        return rows

    def is_there(which):
        (digest, verdict), row = wanted[which], rows.get(which, ("", ""))
        return row[0] == digest and verdict in ("", row[1])

    return [which for which in wanted if not is_there(which)]


def bytes_in(folder, beginning):
    """The files of a folder whose names begin so, with their bytes."""
    return {name: (folder / name).read_bytes() for name in sorted(os.listdir(folder)) if name.startswith(beginning)}
