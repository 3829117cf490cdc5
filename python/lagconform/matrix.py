"""The clauses of the standard, the tests that look at each, and what came of them."""

from __future__ import annotations

import re
from functools import lru_cache
from typing import Iterable, Sequence

from .model import CAVEAT, ERROR, FAIL, INCONCLUSIVE, NOT_APPLICABLE, PASS, SKIPPED, Result, Test

# The verdict of a clause is the first of these that a test of it has.
WORST = (ERROR, FAIL, INCONCLUSIVE, PASS, SKIPPED, NOT_APPLICABLE)
# The verdicts that are an answer.
ANSWERS = (PASS, FAIL)


@lru_cache(maxsize=None)
def clauses(test: Test) -> tuple[str, ...]:
    """The clauses of a test, without what stands behind each in brackets."""
    return tuple(it.strip() for it in re.sub(r"\s*\([^)]*\)", "", test.clause).split(","))


def order(clause: str) -> tuple[object, ...]:
    """Clauses by their numbers; those of other standards come last."""
    words = clause.split()
    numbers = tuple(int(it) for it in re.findall(r"\d+", words[-1]))
    return (len(words) > 1 or not words[-1][:1].isdigit(), numbers, clause)


def rows(results: Iterable[Result]) -> list[tuple[str, str, list[Result]]]:
    """Each clause with its verdict and its tests."""
    found: dict[str, list[Result]] = {}
    for it in results:
        for clause in clauses(it.test):
            found.setdefault(clause, []).append(it)
    return [(clause, worst(found[clause]), found[clause]) for clause in sorted(found, key=order)]


def worst(results: Sequence[Result]) -> str:
    """The verdict of some tests together."""
    there = {it.verdict for it in results}
    return next(it for it in WORST if it in there)


def told(verdict: str, own: Sequence[Result], left: Sequence[str]) -> str:
    """The verdict of a clause, which is partial where not each test of it that applies came to pass or fail; `left` did not run."""
    answered, applies = sum(it.verdict in ANSWERS for it in own), sum(it.verdict != NOT_APPLICABLE for it in own) + len(left)
    return f"{verdict} (partial: {answered} of {applies} tests)" if verdict in ANSWERS and answered < applies else verdict


def not_run(clause: str, own: Sequence[Result], tests: Iterable[Test]) -> list[str]:
    """The tests of a clause that did not run."""
    ran = {it.test.id for it in own}
    return [it.id for it in tests if clause in clauses(it) and it.id not in ran]


def cell(it: Result) -> str:
    """A test in the matrix."""
    return it.test.id if it.verdict == PASS else f"{it.test.id} ({it.verdict}{', known' if it.known else ''})"


def as_markdown(results: Sequence[Result], tests: Sequence[Test]) -> str:
    """The matrix of these results, of all tests that there are, as a table of Markdown."""
    out = ["| clause | verdict | tests |", "|---|---|---|"]
    for clause, verdict, own in rows(results):
        left = not_run(clause, own, tests)
        listed = ", ".join([*map(cell, own), *(f"{it} (not run)" for it in left)])
        out.append(f"| {clause} | {told(verdict, own, left)} | {listed} |")
    return "\n".join([*out, "", CAVEAT]) + "\n"


def of_nothing(why: str) -> str:
    """The matrix of a run in which no test ran."""
    return f"No test has a result: {why}\n"
