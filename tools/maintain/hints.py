"""The types of the tools, by mypy: each tool in Python is read with the modules of the folders that it names.

Two tools may have modules of one name, so each is read by itself.
"""

from __future__ import annotations

import os
import re
import subprocess
from typing import Iterator

from repository import MAINTAIN, TOOLS, TOP, read_text

TESTS = os.path.join(MAINTAIN, "tests")
# A folder of modules, as a tool names it.
FOLDER = re.compile(r'"(?:\.\./)?([\w-]+\.d)"')
# A lambda has no hints, and may be called.
WORDS = ["mypy", "--strict", "--allow-untyped-calls", "--scripts-are-modules", "--no-error-summary"]


def modules(folder: str) -> list[str]:
    """The modules in Python of a folder."""
    return [os.path.join(folder, it) for it in sorted(os.listdir(folder)) if it.endswith(".py")]


def is_program(path: str) -> bool:
    """Whether a file is a program in Python."""
    if not os.path.isfile(path) or path.endswith(".py"):
        return False
    with open(path, "rb") as it:
        return it.readline() == b"#!/usr/bin/env python3\n"


def folders(path: str) -> list[str]:
    """The folders of modules that a program names, and those that these modules name."""
    found: list[str] = []
    left = [path]
    while left:
        named = [os.path.join(place, name) for name in FOLDER.findall(read_text(left.pop())) for place in (TOOLS, MAINTAIN)]
        for folder in named:
            # Folders of edits have no modules.
            if folder not in found and os.path.isdir(folder) and modules(folder):
                found.append(folder)
                left += modules(folder)
    return found


def groups() -> Iterator[tuple[list[str], list[str]]]:
    """Of each program, and of the tests, the folders in which modules are looked up, and the files that are read."""
    for path in (os.path.join(place, name) for place in (TOOLS, MAINTAIN) for name in sorted(os.listdir(place))):
        if is_program(path):
            own = f"{path}.d"
            yield folders(path), [path, *(modules(own) if os.path.isdir(own) else [])]
    yield [TESTS], modules(TESTS)


def faults(cache: str) -> list[str]:
    """What mypy finds in the tools. The cache is a folder that is empty at first."""
    found: dict[str, None] = {}
    for looked_up, files in groups():
        env = {**os.environ, "MYPYPATH": os.pathsep.join([*looked_up, MAINTAIN, TOOLS])}
        ended = subprocess.run([*WORDS, "--cache-dir", cache, *files], cwd=TOP, env=env, capture_output=True, text=True)
        found.update(dict.fromkeys(line for line in (ended.stdout + ended.stderr).splitlines() if ": note: " not in line))
    return list(found)
