"""The tests of `lagconform` beside a device in memory: the right one fails nothing, and each fault is found by the tests named for it.

Nothing sleeps: the device's world has a clock that the bench moves.
"""

from __future__ import annotations

from pathlib import Path
from typing import Sequence, Type

import conform_faults
import conform_frames
import conform_machines
import pytest
from conform_device import BY_NAME, Device, LongTimeouts, World, play

from lagconform.groups import TESTS
from lagconform.model import FAIL, INCONCLUSIVE, PASS, SURE, Result
from lagconform.model import Test as Case

MODULES = conform_faults, conform_machines, conform_frames
CLASSES = [it for module in MODULES for it in vars(module).values() if isinstance(it, type) and issubclass(it, Device) and it.finds]
FAULTS: list[Type[Device]] = [*CLASSES, *(it for module in MODULES for it in module.ROWS)]


def found_by(kind: Type[Device], tests: Sequence[Case], slack: float = 0.15) -> list[Result]:
    """What tests find beside a device of a kind, on as many links as they want."""
    return play(World(kind(), max(2, *(it.links for it in tests), 2)), tests, slack=slack)


def told(results: Sequence[Result]) -> list[str]:
    return [f"{it.test.id} {it.verdict}: {it.why}" for it in results if it.verdict != PASS]


def test_the_right_device_fails_nothing() -> None:
    results = found_by(Device, [it for it in TESTS if not it.is_long or it.id in ("PT-07", "PT-08")])
    assert not told(results)


def test_a_right_device_of_long_timeouts_fails_nothing() -> None:
    results = found_by(LongTimeouts, TESTS)
    assert not [it for it in told(results) if FAIL in it or INCONCLUSIVE in it]


def test_the_page_has_how_many_faults_there_are() -> None:
    page = Path(__file__).parents[2] / "docs" / "CONFORM.md"
    text = " ".join(page.read_text().split()) if page.exists() else ""
    assert not text or f"beside {len(FAULTS)} devices in memory with one fault each" in text
    assert len({it.__name__ for it in FAULTS}) == len(FAULTS)


def test_each_test_has_a_fault_that_it_finds() -> None:
    found = {name for it in FAULTS for name in it.finds.split()}
    assert found == set(BY_NAME)


# From which --slack on the tests of a fault do not find it, of these; the largest one hides no other fault.
SLACKS = (0.15, 0.3, 0.5, 0.75, SURE)
HIDDEN = {"LooksOnceASecond": 0.3, "LateUnderData": 0.3, "NoNtt": 0.5, "SlowClock": 0.75, "ToldWithThePeriod": 0.75, "ReturnsSlowly": SURE}


@pytest.mark.parametrize("kind", FAULTS, ids=[it.__name__ for it in FAULTS])
def test_a_larger_slack_hides_these_faults_alone(kind: Type[Device]) -> None:
    from_there_on = HIDDEN.get(kind.__name__, 2 * SURE)
    at = SLACKS.index(min(SURE, from_there_on))
    for slack in SLACKS[at - (kind.__name__ in HIDDEN) : at + 1]:
        found = found_by(kind, [BY_NAME[it] for it in kind.finds.split()], slack)
        assert any(it.verdict == FAIL for it in found) == (slack < from_there_on), (slack, told(found))


@pytest.mark.parametrize("kind", FAULTS, ids=[it.__name__ for it in FAULTS])
def test_a_fault_is_found(kind: Type[Device]) -> None:
    wanted = kind.finds.split()
    results = found_by(kind, [BY_NAME[it] for it in wanted])
    assert {it.test.id: it.verdict for it in results} == dict.fromkeys((it.test.id for it in results), FAIL), told(results)
