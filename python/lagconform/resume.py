"""A run that goes on where another one ended: the verdicts of its JSON are taken over, if it was of the same device."""

from __future__ import annotations

import argparse
import hashlib
import json
from dataclasses import dataclass
from typing import Any, Mapping, Optional, Sequence

from niwhopera import Mac

from .bench import BASE
from .edition import edition
from .files import unread
from .model import FAIL, NOT_APPLICABLE, PASS, VERDICTS, WHOLE_RUN, Claim, Result, Test
from .options import MEMORY_LINKS
from .refusals import Refused
from .report import FORMAT

# What JSON has the first system of the bench by, among what a run was made with.
SYSTEM = "system"
# A test with another verdict runs again, and so does one that passed while the bench was late.
TAKEN = (PASS, FAIL, NOT_APPLICABLE)


def conditions(given: argparse.Namespace, claimed: Mapping[str, bool]) -> dict[str, object]:
    """What a verdict depends on: the edition of the tests, files of own tests, the device and its build, its links, and the settings of the bench. Nothing
    of it may differ where verdicts are taken over."""
    links: object = given.interfaces
    if given.memory:
        links = given.links or MEMORY_LINKS
    return {
        **edition(), "device": given.device, "links": links, "memory": with_sum("--memory", given.memory) if given.memory else "", "hook": given.hook or "",
        "set": given.set, "flap": given.flap, "pics": dict(claimed), SYSTEM: str(given.system or BASE), "slack": given.slack, "seed": given.seed,
        "repeat": given.repeat, **({"own tests": [with_sum("--tests", it) for it in given.tests]} if given.tests else {}),
    }  # fmt: skip


def with_sum(option: str, path: str) -> str:
    """A file of a stack in memory, or of tests, and which build it is."""
    try:
        with open(path, "rb") as it:
            return f"{path}, SHA-256 {hashlib.sha256(it.read()).hexdigest()}"
    except OSError as why:
        raise unread(option, path, why) from why


@dataclass(frozen=True)
class Earlier:
    """An earlier run: the file of its JSON, the records of its tests, and what it was made with. One in which no test ran has neither."""

    path: str
    records: Sequence[Mapping[str, Any]]
    conditions: Mapping[str, Any]

    @property
    def base(self) -> Optional[Mac]:
        """The first system of the bench in it, where it says that."""
        return Mac(self.conditions[SYSTEM]) if SYSTEM in self.conditions else None


def earlier(path: str, text: str) -> Earlier:
    """The run of a file."""
    try:
        whole = json.loads(text)
        if whole.get("format") != FORMAT:
            raise Refused(f"{path} has format {whole.get('format', 'none')}, and --resume reads {FORMAT}: it is of another version of lagconform")
        records = [{"id": str(it["id"]), "verdict": str(it["verdict"]), **it} for it in whole["tests"]]
        found = Earlier(path, records, dict(whole["run"]) if records else {})
        assert found.base or not records
        return found
    except (ValueError, KeyError, TypeError, AttributeError, AssertionError) as why:
        raise Refused(f"{path} is no JSON of a run of lagconform: {type(why).__name__} {why}") from why


def check(before: Earlier, now: Mapping[str, object]) -> None:
    """Refuses a run of another device, or of the same one under other conditions: its verdicts are not those of this one."""
    for name, value in now.items() if before.records else ():
        if before.conditions.get(name) != value:
            told, wanted = (json.dumps(it) for it in (before.conditions.get(name), value))
            raise Refused(
                f"--resume {before.path}: {name} was {told} there, and is {wanted} now. Verdicts are taken over from the same device and build, "
                "run by the same words, alone"
            )


def taken(before: Earlier, tests: Sequence[Test], slack: float) -> list[Result]:
    """The results of these tests that an earlier run has. Their packets are those of its own capture, and are not named here. What looks at all frames
    of a run looks at those of this one, too, unless it failed there, or nothing else is left to run."""
    records = {it["id"]: it for it in before.records if it["verdict"] in TAKEN}
    found = of_records(before, [it for it in tests if it.id in records], records)
    stay = [it for it in found if it.test.group != WHOLE_RUN and not it.passed_late(slack)]
    over = len(stay) == sum(it.group != WHOLE_RUN for it in tests)
    return [*stay, *(it for it in found if it.test.group == WHOLE_RUN and (over or it.verdict == FAIL))]


def kept(before: Earlier, others: Sequence[Test]) -> list[Result]:
    """The results of tests that this run was not asked for, whatever the earlier run says of them: no run loses what its file had."""
    found = {it["id"]: it for it in before.records if it["verdict"] in VERDICTS}
    return of_records(before, [it for it in others if it.id in found], found)


def of_records(before: Earlier, tests: Sequence[Test], found: Mapping[str, Mapping[str, Any]]) -> list[Result]:
    """The results of tests of their records."""
    try:
        return [of_record(before.path, it, found[it.id]) for it in tests]
    except (ValueError, KeyError, TypeError) as why:
        raise Refused(f"{before.path} is no JSON of a run of lagconform: {type(why).__name__} {why}") from why


def of_record(path: str, test: Test, told: Mapping[str, Any]) -> Result:
    """A result of its record."""
    claims = [Claim(bool(it["holds"]), str(it["text"]), (), causes=tuple(map(str, it.get("causes", ())))) for it in told["claims"]]
    notes = [*map(str, told["notes"]), f"of the run in {path}"]
    return Result(test, str(told["verdict"]), str(told["why"]), claims, notes, late=float(told["late"]), crashed=str(told.get("crashed", "")))
