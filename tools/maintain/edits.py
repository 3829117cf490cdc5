"""An edit of a crate: where it is written, how its texts are put in and taken out, and copies of the repository on which that is done.

An edit of must-fail is a file crates/CRATE/must-fail/NAME.edit, as `rt` reads it. The others stand one behind the other in a file for each
crate, wrong-bodies.d/CRATE.edits or wrong-definitions.d/CRATE.edits, each behind a line `edit: NAME`. There a line `file:` holds for all that
follows, up to the next one. It may name two files: the one of `old:` and `everywhere:`, and behind it the one of `body:`.
"""

from __future__ import annotations

import os
import re
import shutil
from dataclasses import dataclass
from itertools import takewhile
from typing import Iterable

from repository import CRATES, MAINTAIN, TOP, Missing, below, crates, lines, read_text, write_text

BODIES = os.path.join(MAINTAIN, "wrong-bodies.d")
DEFINITIONS = os.path.join(MAINTAIN, "wrong-definitions.d")
# The names of what a command of `rt`, or one of these tools, has not made to its end in a folder `out`: it gets another name then, or goes.
UNFINISHED = re.compile(r"\.tmp[-.]|^rt-\w+-\d|^incremental\.\d")
# How often a crate is copied at most, while another command works in its folder.
TRIES = 5
# A replacement: the file, the old text and the new one.
Pair = tuple[str, str, str]


def write(path: str, text: str) -> None:
    os.makedirs(os.path.dirname(path), exist_ok=True)
    write_text(path, text)


def copy_crates(folder: str, crates: Iterable[str], with_kept: bool = False) -> str:
    """Copies these crates and those of the repository that they stand on, without their edits, and with what `rt` kept of them where that is asked, also
    while another command works there; answers their folder."""
    rows, taken = lines(), below(*crates)

    def left(_: str, names: list[str]) -> list[str]:
        return [it for it in names if it == "must-fail" or it == "out" and not with_kept or UNFINISHED.search(it)]

    for name in taken:
        source, copy = os.path.join(CRATES, name), os.path.join(folder, "crates", name)
        for tries in reversed(range(TRIES)):
            try:
                shutil.copytree(source, copy, ignore=left)
                break
            except shutil.Error:
                # The other command replaced what was listed.
                if not tries:
                    raise
                shutil.rmtree(copy)
    write(os.path.join(folder, "crates.txt"), "".join(f"{rows[name]}\n" for name in taken))
    shutil.copy(os.path.join(TOP, "HANDLES"), folder)
    return os.path.join(folder, "crates")


@dataclass(frozen=True)
class Trial:
    """An edit as it is tried: its name says what it makes of the crate; its replacements, and the tests that it names as pairs of a crate and a
    test of it."""

    crate: str
    name: str
    pairs: tuple[Pair, ...]
    tests: tuple[tuple[str, str], ...] = ()

    def fault(self) -> str | None:
        """Why this is no wrong definition; None if it is one. One that names tests may be a body alone, of which no contract speaks."""
        if not any("specs/" in file or self.tests for file, _, _ in self.pairs):
            return "the edit makes no definition wrong"
        return "the edit names tests of two crates" if len({crate for crate, _ in self.tests}) > 1 else None


class Everywhere(str):
    """An old text that is replaced wherever it stands in its file."""


@dataclass
class Named:
    """The files that the last line `file:` named."""

    file: str = ""
    body: str = ""


def read_trial(crate: str, name: str, rows: Iterable[str], named: Named | None = None) -> Trial:
    """The edit that these lines are; behind others, which named these files."""
    named = named or Named()
    file = old = ""
    pairs: list[Pair] = []
    tests: list[tuple[str, str]] = []
    for line in rows:
        word, _, text = line.partition(": ")
        if word == "refused-by":
            of, *its = text.split() or [""]
            if not its:
                raise Missing(f"{crate}/{name}: a line `refused-by:` has a crate and its tests: {line}")
            tests += [(of, it) for it in its]
        elif word == "file":
            named.file, _, named.body = text.partition(" ")
        elif word in ("old", "everywhere", "body"):
            if old:
                break
            file = named.body if word == "body" else named.file
            old = Everywhere(text) if word == "everywhere" else text
            if not file:
                raise Missing(f"{crate}/{name}: no line `file:` says in which file this stands: {line}")
        elif old and (word == "new" or line == "new:"):
            pairs.append((file, old, text))
            old = ""
        elif line:
            raise Missing(f"{crate}/{name}: not a line of an edit: {line}")
    if old:
        raise Missing(f"{crate}/{name}: no line `new:` says what stands in the place of: {old}")
    return Trial(crate, name, tuple(pairs), tuple(tests))


def stored_in(top: str, crate: str) -> list[Trial]:
    """The edits of a crate in a folder with a file for each crate; none where it has no file."""
    path = os.path.join(top, f"{crate}.edits")
    rows: dict[str, list[str]] = {}
    here: list[str] | None = None
    for line in read_text(path).splitlines() if os.path.exists(path) else []:
        if line.startswith("edit: "):
            name = line.removeprefix("edit: ")
            if name in rows:
                raise Missing(f"{path}: two edits have the name {name}")
            here = rows[name] = []
        elif here is not None:
            here.append(line)
        elif line:
            raise Missing(f"{path}: the first line is to be `edit: NAME`, and is: {line}")
    named = Named()
    return [read_trial(crate, name, its, named) for name, its in rows.items()]


def stored(top: str) -> dict[str, list[Trial]]:
    """The edits of a folder with a file for each crate, by crate, each crate after those that it stands on."""
    known = set(crates())
    for file in os.listdir(top):
        crate, dot, kind = file.partition(".")
        if kind == "edits" and crate not in known:
            raise Missing(f"{os.path.join(top, file)}: there is no crate {crate}")
    return {crate: edits for crate in below(*crates()) if (edits := stored_in(top, crate))}


def must_fail(crate: str) -> list[Trial]:
    """The edits of a crate that the test command tries."""
    folder = os.path.join(CRATES, crate, "must-fail")
    files = sorted(os.listdir(folder)) if os.path.isdir(folder) else []
    for file in files:
        if not file.endswith(".edit"):
            raise Missing(f"{os.path.join(folder, file)} is no edit: its name has to end in .edit")
    return [read_trial(crate, file.removesuffix(".edit"), read_text(os.path.join(folder, file)).splitlines()) for file in files]


def replaced(folder: str, pairs: Iterable[Pair]) -> tuple[dict[str, str], dict[str, str], str | None]:
    """The files of a crate that the replacements change, as they are and as they would be; and what is wrong with the edit."""
    was: dict[str, str] = {}
    now: dict[str, str] = {}
    for file, old, new in pairs:
        path = os.path.join(folder, file)
        text = now[path] if path in now else read_text(path) if os.path.isfile(path) else ""
        if text.count(old) != 1 and not (isinstance(old, Everywhere) and old in text):
            return {}, {}, f"the old text stands in {file} {text.count(old)} times: {old}"
        was.setdefault(path, text)
        now[path] = text.replace(old, new)
    return was, now, None


def apply(folder: str, pairs: Iterable[Pair]) -> tuple[dict[str, str], str | None]:
    """Makes the replacements in a crate; answers the files as they were, or what is wrong with the edit."""
    was, now, wrong = replaced(folder, pairs)
    for path, text in now.items():
        write(path, text)
    return was, wrong


def restore(was: dict[str, str]) -> None:
    for path, text in was.items():
        write(path, text)


def is_cut_off(output: list[str], at: int) -> bool:
    """Whether the test that has this line of the output ended at its time limit, or was killed, as for memory: that is no refusal."""
    return any("time limit" in line or "killed by signal 9" in line for line in takewhile(lambda it: it.startswith(" "), output[at + 1 :]))
