"""Makes man pages from what programs say of themselves: a help text becomes roff with the macros of man."""

from __future__ import annotations

import re
from typing import Iterator

# How roff writes what has a meaning for it.
ROFF = {"\\": "\\e", "-": "\\-", "'": "\\(aq", "`": "\\(ga", "^": "\\(ha", "~": "\\(ti"}


def escaped(text: str) -> str:
    """Text without a meaning for roff."""
    return "".join(ROFF.get(it, it if ord(it) < 128 else f"\\[u{ord(it):04X}]") for it in text)


def inline(text: str) -> str:
    """A text with its code in bold."""
    return "".join(f"\\fB{escaped(piece)}\\fR" if n % 2 else escaped(piece) for n, piece in enumerate(re.split(r"`([^`]*)`", text)))


def guarded(line: str) -> str:
    """A line that roff does not take for a request."""
    return "\\&" + line if line[:1] in (".", "'") else line


def head(name: str, section: int, purpose: str, version: str) -> list[str]:
    """The first lines of a man page."""
    title = f'.TH {name.upper()} {section} "" "Niwhopera {version}" "Link aggregation"'
    return [title, ".SH NAME", f"{name} \\- {escaped(purpose)}", ".ad l", ".nh", ".if n .pl 10000v"]


def synopsis(name: str, told: str) -> list[str]:
    """How a program is called: the lines of its help text that begin with its name, or with `Usage:` and its name."""
    found = re.findall(rf"^ *(?:[Uu]sage: +)?({re.escape(name)}(?: +[\[<A-Z-].*|))$", told, re.M)
    lines = list(dict.fromkeys(re.split(r" {2,}", it)[0] for it in found if it != name)) or [name]
    rows = []
    for line in lines:
        words = line.split(" ", 1)
        rows += [".br", f"\\fB{escaped(words[0])}\\fR" + (f" {escaped(words[1])}" if len(words) > 1 else "")]
    return [".SH SYNOPSIS", *rows[1:]]


def runs(text: str) -> Iterator[tuple[bool, list[str]]]:
    """The lines in runs that end at an empty line, or where lines begin or cease to be indented; whether those of a run are."""
    for paragraph in text.strip("\n").split("\n\n"):
        gathered: list[str] = []
        for line in paragraph.split("\n"):
            if gathered and line.startswith("  ") != gathered[0].startswith("  "):
                yield gathered[0].startswith("  "), gathered
                gathered = []
            gathered.append(line)
        yield gathered[0].startswith("  "), gathered


def body(text: str) -> list[str]:
    """A help text as lines of roff: what is indented stays as it is, `NAME:` alone is a heading, and other lines flow."""
    rows: list[str] = []
    for is_indented, lines in runs(text):
        if is_indented:
            rows += [".PP", ".nf", *(guarded(escaped(it)) for it in lines), ".fi"]
        elif re.fullmatch(r"[a-z ]+:", lines[0]) and len(lines) == 1:
            rows.append(f".SH {lines[0][:-1].upper()}")
        else:
            rows += [".PP", guarded(inline(" ".join(lines)))]
    return rows


END = [".SH FILES", "The documents are in \\fBshare/doc/niwhopera\\-tools\\fR below the prefix, in the archive in \\fBshare/doc/niwhopera\\fR."]


def of_help(name: str, section: int, purpose: str, version: str, told: str) -> str:
    """The man page of a program, from its help text. A paragraph that begins with `usage:` stands in the synopsis alone."""
    usage, _, rest = told.partition("\n\n") if told.startswith("usage:") else (told, "", told)
    called = synopsis(name, " ".join(usage.split()) if told.startswith("usage:") else usage)
    return "\n".join([*head(name, section, purpose, version), *called, ".SH DESCRIPTION", *body(rest), *END]) + "\n"
