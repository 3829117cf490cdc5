"""Counts what passed and what failed, and runs commands as someone would who has no toolchain."""

from __future__ import annotations

import os
import subprocess
from repository import tally
from typing import Sequence

# The seconds that a command may take.
LIMIT = 600


class Count:
    """How many checks passed, and how many failed; each is printed as it is added."""

    def __init__(self) -> None:
        self.passed = self.failed = 0

    def add(self, what: str, why: str) -> None:
        """Counts a check, which passed where there is no `why`."""
        self.passed, self.failed = self.passed + (not why), self.failed + bool(why)
        print(f"{'FAILED' if why else 'passed'}: {what}{': ' + why if why else ''}", flush=True)

    def ends(self) -> int:
        """Prints the last line; answers the status."""
        return tally(self.passed, self.failed)


def clean() -> dict[str, str]:
    """The environment without the toolchain, and without a library that was named for other checks."""
    kept = [it for it in os.environ.get("PATH", "").split(os.pathsep) if it and not os.path.exists(os.path.join(it, "rt"))]
    return {**{name: it for name, it in os.environ.items() if name != "NIWHOPERA_LIBRARY"}, "PATH": os.pathsep.join(kept)}


def ran(words: Sequence[str], given: str = "", cwd: str | None = None, **more: str) -> subprocess.CompletedProcess[str]:
    """Runs the words without the toolchain in PATH, with these values more in the environment."""
    try:
        return subprocess.run(words, input=given, capture_output=True, text=True, cwd=cwd, env={**clean(), **more}, timeout=LIMIT)
    except (OSError, subprocess.TimeoutExpired) as why:
        return subprocess.CompletedProcess(words, 127, "", str(why))
