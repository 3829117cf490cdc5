"""What a library imports, and the table of docs/USING.md that says it."""

from __future__ import annotations

import os
import re

from counting import Count
from library import printed
from processors import PROCESSORS
from repository import TOP, Missing, read_text, write_text

PAGE = os.path.join(TOP, "docs", "USING.md")
HEAD = f"|imported|{'|'.join(PROCESSORS)}|\n|---|{'---|' * len(PROCESSORS)}\n"
# The one octet that is no constant: to where rattle_alloc points where memory is refused. Nothing writes it.
NEVER_WRITTEN = "nothing"


def of(file: str) -> set[str]:
    """The symbols that a static library imports."""
    return set(re.findall(r"^ +U (\w+)$", printed("nm", file), re.M))


def data(file: str) -> set[str]:
    """The data of a static library that could be written, thread-local data too."""
    return set(re.findall(r"^[0-9a-f]+ [bBdDCsSgG] (\w+)$", printed("nm", file), re.M)) - {NEVER_WRITTEN}


def newest_glibc(versions: str) -> str:
    """The newest version of glibc that a library needs, by what `readelf --version-info` prints."""
    return max(re.findall(r"Name: GLIBC_([0-9.]+)", versions), key=lambda it: [int(part) for part in it.split(".")], default="none")


def page() -> str:
    """The text of docs/USING.md."""
    return read_text(PAGE)


def rows(text: str) -> dict[str, set[str]]:
    """What each processor imports by the table of the page."""
    found = re.search(re.escape(HEAD) + r"((?:\|.*\n)+)", text)
    if not found:
        raise Missing("docs/USING.md has no table of what the library imports")
    cells = [[it.strip("` ") for it in line.strip("|").split("|")] for line in found[1].splitlines()]
    return {name: {row[0] for row in cells if row[place] == "yes"} for place, name in enumerate(PROCESSORS, 1)}


def table(imports: dict[str, set[str]]) -> str:
    """The table of what each processor imports."""
    every = sorted(set().union(*imports.values()))
    return HEAD + "".join(f"|`{it}`|{'|'.join('yes' if it in imports[name] else 'no' for name in PROCESSORS)}|\n" for it in every)


def write(processor: str, found: set[str]) -> None:
    """Writes the column of a processor."""
    text = page()
    write_text(PAGE, re.sub(re.escape(HEAD) + r"(?:\|.*\n)+", lambda _: table({**rows(text), processor: found}), text))


def tried(count: Count, file: str, processor: str) -> None:
    """A library imports what the page says, and has no data that it writes."""
    found, wanted = of(file), rows(page())[processor]
    count.add(f"liblag.a of {processor} imports the {len(wanted)} symbols of docs/USING.md", ", ".join(sorted(found ^ wanted)))
    count.add(f"liblag.a of {processor} has no data that it writes", ", ".join(sorted(data(file))))
