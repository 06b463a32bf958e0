"""Manual pages, made of what a program tells of itself: the help of `desk` and of its commands, and the heads of scripts."""

import re

# Tells a line of a list, as `  --port <P>  Listens on this port`, into what it is about and the rest.
ENTRY = re.compile(r" +(\S.*?)  +(\S.*)")
ALSO = {"desk": "The guide for contest directors and the formats of all files are in /usr/share/doc/desk/docs."}


def escaped(text):
    """A text as roff takes it: a line that begins with a mark of its own is no request."""
    text = text.replace("\\", r"\e").replace("-", r"\-")
    return r"\&" + text if text.startswith((".", "'")) else text


def literal(lines):
    """Lines that stand as they are."""
    return [".nf", *map(escaped, lines), ".fi"]


def part(heading, lines):
    """A part of a help, as a list if each line of it tells of one thing."""
    lines = [line for line in lines if line]
    entries = [ENTRY.fullmatch(line) for line in lines]
    body = literal([line.strip() for line in lines])
    if lines and all(entries):
        body = [text for entry in entries for text in (".TP", rf"\fB{escaped(entry[1])}\fR", escaped(entry[2]))]
    return [f".SH {heading.upper()}", *body]


def paragraph(lines):
    """A paragraph of a help: a part of its own if it begins with a heading, as `Options:`."""
    heading, _, rest = lines[0].partition(":")
    if heading == "Usage":
        return [".SH SYNOPSIS", *literal([rest.strip(), *(line.strip() for line in lines[1:])])]
    if re.fullmatch(r"[A-Z][a-z ]+", heading) and not rest and len(lines) > 1:
        return part(heading, lines[1:])
    return [".SH NOTES", *map(escaped, lines)]


def joined(before, now):
    """A paragraph behind another one: notes go on without a heading of their own."""
    return [".PP", *now[1:]] if before[0] == now[0] == ".SH NOTES" else now


def page(name, about, body, version, also):
    """A manual page of a program or a command."""
    head = f'.TH {name.upper()} 1 "" "Domzarpe {version}" "Contest desk"'
    first = [".SH NAME", rf"{escaped(name)} \- {escaped(about[0].lower() + about[1:])}"]
    seen = [".SH SEE ALSO", *(f".BR {escaped(it)} (1)," for it in also[:-1]), *(f".BR {escaped(it)} (1)" for it in also[-1:])]
    more = [".PP", escaped(ALSO[name])] if name in ALSO else []
    return "\n".join([head, *first, *body, *seen, *more]) + "\n"


def help_page(name, text, version, also):
    """The page of a help, whose first line says what the command does."""
    about, *rest = text.strip("\n").split("\n\n")
    parts = [paragraph(block.splitlines()) for block in rest]
    body = [line for before, now in zip([[""], *parts], parts) for line in joined(before, now)]
    return page(name, " ".join(about.split()), body, version, also)


def commands_of(text):
    """The commands that a help lists, but for `help` itself."""
    listed = text.partition("\nCommands:\n")[2].partition("\n\n")[0]
    return [name for name in re.findall(r"(?m)^ +([a-z]+)", listed) if name != "help"]


def head_of(script):
    """What the head of a script says: its comment, or its text if it is Python's."""
    found = re.search(r'(?s)\A#![^\n]*\n+"""(.*?)"""', script)
    if found:
        return found[1]
    lines = re.match(r"#![^\n]*\n((?:#[^\n]*\n)+)", script)[1].splitlines()
    return "\n".join(line.removeprefix("#").removeprefix(" ") for line in lines)


def script_page(name, script, version):
    """The page of a script: the first sentence of its head says what it does, and lines that are set in stand as they are."""
    about, *rest = head_of(script).strip("\n").split("\n\n")
    body = [".SH DESCRIPTION", *map(escaped, about.splitlines())]
    for block in rest:
        lines = block.splitlines()
        is_set_in = all(line.startswith("  ") for line in lines)
        body += [".PP", *(literal(lines) if is_set_in else map(escaped, lines))]
    first = re.split(r"[.:](?:\s|$)", " ".join(about.split()))[0]
    return page(name, first, body, version, ["desk"])
