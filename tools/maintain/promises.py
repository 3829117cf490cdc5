"""What is promised: comments beside the contracts, and the tables of docs/internals/THEOREMS.md that are made of these.

A promise is a comment of a crate's `src` or `specs`, `// promise:` in the code and `-- promise:` in definitions, followed by its lines
`contract:` and, if it has any, `not said:` or `premises:`. A line that begins with three spaces more goes on with the one above. The page has
the order of the rows: a row stays where it is while its promise or its contract stays, and a new one comes last of its crate.
"""

from __future__ import annotations

import os
import re
from typing import Iterator, NamedTuple

from repository import CRATES, TOP, Missing, read_text

PAGE = "docs/internals/THEOREMS.md"
HEAD = re.compile(r"\|promise\|contract\|(not said|premises)\|")
LABEL = re.compile(r"(promise|contract|not said|premises): (.*)")
COMMENT = re.compile(r"\s*(?://|--) (.*)")


class Promise(NamedTuple):
    """What a contract promises, in a reader's words; where it stands; and what it leaves out or wants."""

    says: str
    contract: str
    but: str

    def row(self) -> str:
        return "|" + "|".join(it.replace("|", r"\|") for it in self) + "|"


def made(labels: dict[str, str], place: str) -> Promise:
    """The promise of these labels, which a comment at this place has."""
    if "contract" not in labels:
        raise Missing(f"{place}: a promise names no contract")
    return Promise(labels["promise"], labels["contract"], labels.get("not said", labels.get("premises", "")))


def promises_in(text: str, place: str) -> Iterator[Promise]:
    """The promises in a file."""
    labels: dict[str, str] = {}
    last = ""
    for line in text.splitlines():
        comment = COMMENT.fullmatch(line)
        label = LABEL.fullmatch(comment[1]) if comment else None
        if labels and (label is None and not (comment and comment[1].startswith("   ")) or label and label[1] == "promise"):
            yield made(labels, place)
            labels = {}
        if label and (labels or label[1] == "promise"):
            last = label[1]
            labels[last] = label[2]
        elif labels and comment:
            labels[last] += " " + comment[1].strip()
    if labels:
        yield made(labels, place)


def promises_of(crate: str) -> list[Promise]:
    """The promises of a crate, file by file."""
    found: list[Promise] = []
    for part in "src", "specs":
        for folder, inner, files in os.walk(os.path.join(CRATES, crate, part)):
            inner.sort()
            for file in sorted(files):
                path = os.path.join(folder, file)
                found += promises_in(read_text(path), os.path.relpath(path, TOP)) if file.endswith((".rt", ".antt")) else []
    return found


def told(row: str) -> Promise:
    """The promise that a row of the page has."""
    return Promise(*(it.replace(r"\|", "|") for it in re.split(r"(?<!\\)\|", row)[1:-1]))


def rows_of(tables: list[list[str]], promises: list[Promise]) -> list[list[str]]:
    """The rows of a crate's tables: each promise in the place of its old row, a new one at the end."""
    left = list(promises)
    found: list[list[str]] = []
    for table in tables:
        found.append([])
        for row in map(told, table):
            same = [it for it in left if it == row] or [it for it in left if it[:2] == row[:2]]
            same = same or [it for it in left if it.says == row.says] or [it for it in left if it.contract == row.contract]
            if same:
                left.remove(same[0])
                found[-1].append(same[0].row())
    found[-1] += [it.row() for it in left]
    return found


def page() -> str:
    """The page with the tables of what the crates promise."""
    parts = re.split(r"(?m)^(?=## )", read_text(os.path.join(TOP, PAGE)))
    for index, part in enumerate(parts):
        crate = part.partition("\n")[0][3:]
        lines = part.split("\n")
        heads = [it for it, line in enumerate(lines) if HEAD.fullmatch(line)]
        if not heads:
            continue
        ends = [next(it for it in range(head + 2, len(lines)) if not lines[it].startswith("|")) for head in heads]
        tables = rows_of([lines[head + 2 : end] for head, end in zip(heads, ends)], promises_of(crate))
        for head, end, table in reversed([*zip(heads, ends, tables)]):
            lines[head + 2 : end] = table
        parts[index] = "\n".join(lines)
    return "".join(parts)
