"""What each crate is: the first sentence of its own documentation, and the table of docs/internals/ARCHITECTURE.md that is made of these."""

from __future__ import annotations

import os
import re

from repository import CRATES, TOP, Missing, below, crates, read_text

PAGE = "docs/internals/ARCHITECTURE.md"
HEAD = "|crate|what it is|\n|---|---|\n"
# The first sentence of a text; a name before it; where a picture ends it, and where it may end behind 20 characters.
SENTENCE = re.compile(r"(.*?[.])(?: |$)")
NAME = re.compile(r"`\w+`: ")
MARK = re.compile(r"[:;.]| \(")
COMMA = re.compile(r".{20,}?(?=,)|.*")


def purpose(crate: str) -> str:
    """The first sentence of the comment at the top of a crate's lib.rt or main.rt."""
    for file in "lib.rt", "main.rt":
        path = os.path.join(CRATES, crate, "src", file)
        if os.path.exists(path):
            first = re.match(r"(?://! .*\n)+", read_text(path))
            found = SENTENCE.match(" ".join(line[4:] for line in first[0].splitlines())) if first else None
            if found is None:
                raise Missing(f"{os.path.relpath(path, TOP)} does not begin with a sentence behind //!")
            return found[1]
    raise Missing(f"{crate} has neither lib.rt nor main.rt")


def brief(sentence: str) -> str:
    """The first words of a sentence, for a picture."""
    words = MARK.split(NAME.sub("", sentence, count=1))[0]
    found = COMMA.match(words)
    return (found[0] if found else words).replace("`", "")


def with_table(text: str) -> str:
    """A page with a row for each crate but those of tests, lowest first, in the place of the rows that it has."""
    before, head, rest = text.partition(HEAD)
    if not head:
        raise Missing(f"{PAGE} has no table with the head {HEAD.splitlines()[0]}")
    rows = (f"|`{crate}`|" + purpose(crate).replace("|", "\\|") + "|\n" for crate in below(*crates()) if not crate.startswith("tests_"))
    return before + head + "".join(rows) + re.sub(r"\A(?:\|.*\n)*", "", rest)


def page() -> str:
    return with_table(read_text(os.path.join(TOP, PAGE)))
