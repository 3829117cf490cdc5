"""Where else the interface of the C library stands: the list of symbols of Debian, the C program that calls each function, and docs/USING.md."""

from __future__ import annotations

import re

from lag_h import replaced
from sources import Export

# The files that name the release, but for what is written by these, and what stands before its number.
RELEASED = {
    "crates/lagffi/include/lag.h": '#define NIW_VERSION_TEXT "',
    "crates/lagtool/src/help.rt": 'pub const VERSION: &str = "',
    "crates/lagtool/src/tests.rt": '"--version"], &["lagtool ',
    "examples/rust/Cargo.toml": 'name = "two_ends"\nversion = "',
    "examples/rust/Cargo.lock": 'name = "two_ends"\nversion = "',
    "README.md": "**Status.** ",
}


def symbols(text: str, exports: list[Export], release: str) -> str:
    """The functions of the library for dpkg-gensymbols. One that is new has this release, and the version that is the release's alone."""
    versions = re.findall(r"^ (LAG_\d+)@\1 (\S+)$", text, re.M)
    kept = {line.split("@")[0].strip(): line for line in text.splitlines() if line.startswith(" lagffi_")}
    names = sorted(f"lagffi_{it.name}" for it in exports)
    own = next((version for version, its in versions if its == release), f"LAG_{len(versions)}")
    head = [line for line in text.splitlines() if "lagffi_" not in line]
    if (own, release) not in versions and any(name not in kept for name in names):
        head.append(f" {own}@{own} {release}")
    return "\n".join([*head, *(kept.get(name, f" {name}@{own} {release}") for name in names)]) + "\n"


def released(text: str, before: str, release: str) -> str:
    """A text that names the release, behind these words."""
    return replaced(text, rf"({re.escape(before)})(\d+\.\d+\.\d+)()", f"the release behind {before!r}", release)


def refusals(exports: list[Export]) -> str:
    """The rows of what functions refuse, those with the same refusals in one row."""
    rows: dict[str, list[str]] = {}
    for it in exports:
        rows.setdefault(", ".join(f"`{name}`" for name in it.refuses) or "nothing", []).append(f"`niw_{it.name}`")
    return "".join(f"|{', '.join(names)}|{told}|\n" for told, names in rows.items())


def statuses(header: str) -> str:
    """The rows of the statuses of lag.h: number, name, and the first sentence of what each means."""
    enum = header.partition("\n/* The statuses.")[2].partition("\n};")[0]
    rows = re.findall(r"^    (NIW_\w+) = (\d+),?\s+/\* (.*?) \*/", enum, re.M | re.S)
    first = [(number, name, re.match(r"(?:niw_\w+(?:, niw_\w+)*: )?(.*?)(?:[.:;] |$)", " ".join(told.split()))) for name, number, told in rows]
    return "".join(f"|{number}|`{name}`|{it[0].rstrip('.:; ')}|\n" for number, name, it in first if it)


def using(text: str, exports: list[Export], header: str) -> str:
    """docs/USING.md with what each function refuses, and a row for each status."""
    made = f"|functions|refusals, in this order|\n|---|---|\n{refusals(exports)}\n|number|status|means|\n|---:|---|---|\n{statuses(header)}"
    return replaced(text, r"(<!-- written by: tools/maintain/interface -->\n\n)(.*?)(\n<!-- end -->)", "the part of tools/maintain/interface in docs/USING.md", made)
