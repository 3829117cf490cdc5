"""How pages read: words that were written by hand, and the places where a reader has to stop. What programs write (page_parts.py), code, links'
targets and headings do not count.
"""

from __future__ import annotations

import re
from typing import Iterator

# The most words of a paragraph, of a cell of a table, and of a sentence.
PARAGRAPH, CELL, SENTENCE = 80, 25, 35
# The most words of a page. A commit that lets one grow says why.
MOST = {
    "README.md": 900, "CONTRIBUTING.md": 3500, "CHANGELOG.md": 400, "examples/README.md": 300,
    "docs/ASSURANCE.md": 3000, "docs/COMMAND.md": 1800, "docs/CONFORM.md": 2800, "docs/FIRMWARE.md": 2600, "docs/GLOSSARY.md": 500, "docs/INSTALL.md": 500,
    "docs/LAGD.md": 3800, "docs/MEASURED.md": 1400, "docs/PROFILE.md": 6400, "docs/SECURITY.md": 400, "docs/TROUBLE.md": 3000, "docs/USING.md": 3600,
    "docs/internals/ARCHITECTURE.md": 1000, "docs/internals/DECISIONS.md": 1500, "docs/internals/THEOREMS.md": 1200,
    "hosts/README.md": 700, "hosts/bonding/README.md": 800, "hosts/dpdk/README.md": 600, "hosts/teamd/README.md": 2200, "hosts/openvswitch/README.md": 600,
}  # fmt: skip
# Of a page that has no number.
OTHERS = 700


def plain(text: str) -> str:
    """A text without the targets of its links."""
    return re.sub(r"\]\([^)]*\)", "]", text)


def blocks(text: str) -> Iterator[tuple[str, int, list[str]]]:
    """The paragraphs and the cells of a page, each with its line and its words."""
    is_made = is_code = False
    gathered: list[str] = []
    begun = 0
    for number, line in enumerate([*text.split("\n"), ""], 1):
        is_made = not line.startswith("<!-- end") and (is_made or line.startswith("<!-- written by"))
        is_code ^= bool(re.match(r"\s*(```|~~~)", line))
        if is_made or is_code or re.match(r"\s*(```|~~~|<!--)", line) or line.startswith("    ") and not gathered:
            continue
        begins = not line.strip() or bool(re.match(r"\s*([-*>]|\d+\.|#+) ", line)) or line.startswith("|")
        if begins and gathered:
            yield "paragraph", begun, gathered
            gathered = []
        if line.startswith("|"):
            yield from (("cell", number, cell.split()) for cell in re.split(r"(?<!\\)\|", plain(line).strip())[1:-1])
        elif not line.startswith("#"):
            begun = begun if gathered else number
            gathered += plain(line).split()
    if gathered:
        yield "paragraph", begun, gathered


def words_of(text: str) -> int:
    """The words of a page that were written by hand."""
    return sum(len(words) for _, _, words in blocks(text))


def too_long(path: str, text: str) -> list[str]:
    """What of a page is longer than it may be, each with its line."""
    found, most = [], MOST.get(path, OTHERS)
    if words_of(text) > most:
        found.append(f"{path}: it has {words_of(text):,} words by hand, and is to have {most:,} at most (MOST of tools/maintain/reading.py)")
    for kind, line, words in blocks(text):
        limit = CELL if kind == "cell" else PARAGRAPH
        if len(words) > limit:
            found.append(f"{path}:{line}: a {kind} of {len(words)} words, and {limit} is the most: {' '.join(words[:6])} ..")
        longest = max((len(it.split()) for it in re.split(r"(?<=[.!?:;])\s+", " ".join(words))), default=0)
        if longest > SENTENCE:
            found.append(f"{path}:{line}: a sentence of {longest} words, and {SENTENCE} is the most: {' '.join(words[:6])} ..")
    return found
