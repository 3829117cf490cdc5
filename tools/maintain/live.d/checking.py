"""Checks that are counted, commands that are run, and signs that are waited for."""

from __future__ import annotations

import re
import subprocess
import time
from typing import Any, Callable

counted = {"passed": 0, "failed": 0}
# What each check that failed says.
failures: list[str] = []


class Failed(Exception):
    """Something could not be done: what was to be done, and what is told of it."""


class Skipped(Exception):
    """A part cannot run here: why."""


def check(holds: object, what: str, *told: object) -> None:
    """Counts a check; what is told beside it is printed where it fails."""
    counted["passed" if holds else "failed"] += 1
    lines = [] if holds else [str(text).strip() for text in told if str(text).strip()]
    if not holds:
        failures.append("\n  ".join([what, *lines]))
    print(f"{'passed' if holds else 'FAILED'}: {what}", *lines, sep="\n  ", flush=True)


def command(*words: str, **more: Any) -> subprocess.CompletedProcess[str]:
    """Runs a command; one that is not here, or does not end in time, fails as any other."""
    try:
        return subprocess.run(words, capture_output=True, text=True, errors="surrogateescape", **more)
    except (FileNotFoundError, subprocess.TimeoutExpired) as why:
        return subprocess.CompletedProcess(words, 127, "", str(why))


def found(pattern: str, text: str) -> str:
    """What the group of a pattern has of a text; where there is nothing, that has failed."""
    at = re.search(pattern, text)
    if not at:
        raise Failed(f"{pattern} is found", text[-2000:])
    return at[1]


def within(seconds: float, holds: Callable[[], object]) -> bool:
    """Waits for a sign, for so many seconds at most."""
    until = time.monotonic() + seconds
    while time.monotonic() < until:
        if holds():
            return True
        time.sleep(0.1)
    return bool(holds())
