"""Fails that are known: a file with the id of a test and a reason on each line. A run in which nothing else fails has status 0; with
--strict these have to fail, too: a line that is no longer true hides the next fail. No line excuses a test that broke, or came to no answer."""

from __future__ import annotations

from typing import Iterable

from .model import FAIL, PASS, Result


class BadKnown(Exception):
    """A file that is no list of known fails: its text says which line and why."""


def parsed(text: str, tests: Iterable[str]) -> dict[str, str]:
    """The reasons by test. What stands behind # at the start of a line is no part of it."""
    reasons: dict[str, str] = {}
    names = set(tests)
    for number, line in enumerate(text.splitlines(), 1):
        name, _, reason = line.strip().partition(" ")
        if not name or name.startswith("#"):
            continue
        if name not in names:
            raise BadKnown(f"line {number}: there is no test {name}")
        if not reason.strip():
            raise BadKnown(f"line {number}: {name} has no reason")
        reasons[name] = reason.strip()
    return reasons


def mark(results: Iterable[Result], reasons: dict[str, str]) -> None:
    """Notes the reason at each fail that is known, and at each pass whose fail was known."""
    for it in results:
        if it.verdict == FAIL:
            it.known = reasons.get(it.test.id, "")
        if it.verdict == PASS:
            it.obsolete = reasons.get(it.test.id, "")


def new_fails(results: Iterable[Result]) -> list[Result]:
    """The fails that are not known."""
    return [it for it in results if it.verdict == FAIL and not it.known]


def no_longer(results: Iterable[Result]) -> list[str]:
    """Known fails that pass: their lines can go."""
    return [it.test.id for it in results if it.obsolete]
