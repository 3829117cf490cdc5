"""Fails by their cause: a test names the tests whose fail explains a fail of its own, and fails of one kind have one cause."""

from __future__ import annotations

from dataclasses import dataclass
from typing import Optional, Sequence

from .model import FAIL, Result

# What is late by the same time, within so many seconds, has one cause, if so many tests have it, and few are late by another.
ALIKE, LATE_TESTS, SHARE = 0.15, 3, 0.8
# A device that sends fewer than three LACPDUs a second, of all links together or of one, is late wherever much happens, but not in these tests, which
# ask a quiet one.
FEW, ASK_QUIET = ("TX-09", "TX-11"), ("TX-02", "TX-03", "TX-06")
# A device that does not stay up beside the engine is right in no test that needs the link; these look at other things, or at the reason.
STAYS, APART = "EN-01", ("FM", "EN", "IV", "RX-04", "PT-01")
# Where some LACPDUs can't be read, no test sees what the device tells in them.
UNREAD, FORMS = "IV-03", ("FM-02", "FM-03")


@dataclass(frozen=True)
class Cause:
    """What explains fails: a test that failed itself, or a text where none of them explains the others. `name` is short."""

    name: str
    text: str
    explains: tuple[Result, ...]
    root: Optional[Result] = None


def lateness(it: Result) -> Optional[float]:
    """By how many seconds something came too late, where a test failed by that."""
    return next((claim.late for claim in it.claims if not claim.holds), None)


def late_alike(failed: dict[str, Result]) -> list[float]:
    """The seconds by which fails are late, if most of them are so by one number: that is how the device answers."""
    late = sorted(seconds for it in failed.values() if (seconds := lateness(it)) is not None)
    spans = [[it for it in late if begin <= it <= begin + ALIKE] for begin in late]
    most: list[float] = max(spans, key=len, default=[])
    quiet = any(name.startswith(ASK_QUIET) and lateness(it) is not None for name, it in failed.items())
    return most if quiet and len(most) >= LATE_TESTS and len(most) >= SHARE * len(late) else []


def of_kind(name: str, failed: dict[str, Result]) -> list[str]:
    """The first test of a kind, as TX-02a of TX-02a to TX-02f, where all of them that ran failed."""
    kind = name.rstrip("abcdefgh")
    own = [it for it in failed if it.rstrip("abcdefgh") == kind and it != kind]
    return own[:1] if kind in KINDS and len(own) >= KINDS[kind] and own[0] != name else []


# How many tests of a kind there are, which differ in one field.
KINDS = {"RX-07": 6, "TX-02": 6, "TX-03": 3}


def above(it: Result, failed: dict[str, Result]) -> list[str]:
    """The fails that explain one, nearest first."""
    test = it.test
    if it.crashed:
        first = next(name for name, one in failed.items() if one.crashed == it.crashed)
        return [first] if first != test.id else []
    unread = [name for name in FORMS if name in failed and UNREAD in failed and test.group != "FM"]
    claimed = [name for claim in it.claims if not claim.holds for name in claim.causes]
    named = [name for name in (*test.causes, *claimed) if name in failed and name != test.id]
    few = [name for name in FEW if lateness(it) is not None and name in failed and test.id not in FEW]
    stays = [STAYS] if STAYS in failed and test.group not in APART and test.id not in APART else []
    return unread or named or of_kind(test.id, failed) or few or stays


def root(name: str, failed: dict[str, Result]) -> str:
    """The fail that explains a fail in the end; itself, if none does, or if they explain one another."""
    seen = [name]
    while True:
        nearest = above(failed[seen[-1]], failed)
        if not nearest:
            return seen[-1]
        if nearest[0] in seen:
            return min(seen[seen.index(nearest[0]) :])
        seen.append(nearest[0])


def grouped(results: Sequence[Result]) -> list[Cause]:
    """The causes of all fails, in the order of the run: what many are late by, and each fail that no other one explains with those that it
    explains."""
    failed = {it.test.id: it for it in results if it.verdict == FAIL}
    late = late_alike(failed)
    rest = {name: it for name, it in failed.items() if not late or lateness(it) is None and name not in FEW}
    found: list[Cause] = []
    if late:
        text = f"what the device tells comes {min(late):.2f} to {max(late):.2f} s late"
        found.append(Cause("late", text, tuple(it for name, it in failed.items() if name not in rest)))
    roots: dict[str, list[Result]] = {name: [] for name in rest if root(name, rest) == name}
    for name, it in rest.items():
        if (of := root(name, rest)) != name:
            roots[of].append(it)
    return [*found, *(Cause(name, f"{name} {rest[name].crashed or rest[name].test.title}", tuple(more), rest[name]) for name, more in roots.items())]


def explained(results: Sequence[Result]) -> dict[str, str]:
    """Of each fail that another cause explains, by its test, the name of that cause."""
    return {one.test.id: it.name for it in grouped(results) for one in it.explains}


def told(results: Sequence[Result]) -> list[str]:
    """The causes that explain other fails, as lines."""
    return [f"{it.text}: explains {', '.join(one.test.id for one in it.explains)}" for it in grouped(results) if it.explains]
