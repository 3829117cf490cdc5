"""Who plays the scripts of tools/script: a program, or node with the module of docs/try.html."""

from __future__ import annotations

import json
import os
import shutil
import subprocess
from collections.abc import Callable, Iterator
from contextlib import contextmanager
from typing import NamedTuple

from repository import PROGRAM, TOOLS, Missing


class Played(NamedTuple):
    """What `lagtool replay` answered: its status, its report, and what it said on standard error."""

    status: int
    printed: str
    said: str


# Plays the text of a script.
Play = Callable[[str], Played]


def by_program(text: str) -> Played:
    """Plays a script by the program."""
    ended = subprocess.run([PROGRAM, "replay", "-"], input=text, capture_output=True, text=True)
    return Played(ended.returncode, ended.stdout, ended.stderr)


@contextmanager
def by_module() -> Iterator[Play]:
    """One process of node plays all scripts: to start it takes longer than to play one."""
    node = shutil.which("node")
    if not node:
        raise Missing("there is no node (Debian: nodejs) in PATH; with the toolchain --prove makes the proved program")
    line = [node, os.path.join(TOOLS, "script.d", "play.mjs")]
    with subprocess.Popen(line, stdin=subprocess.PIPE, stdout=subprocess.PIPE, text=True, encoding="utf-8") as process:
        assert process.stdin and process.stdout
        asks, answers = process.stdin, process.stdout

        def play(text: str) -> Played:
            print(json.dumps(text), file=asks, flush=True)
            answer = answers.readline()
            if not answer:
                raise Missing("node ended, as the lines above say")
            return Played(**json.loads(answer))

        yield play
