"""tools/maintain/carry.d/bonds.py: events in time, and when the frames of a run are in order and accounted for."""

from __future__ import annotations

import os
import subprocess
import sys
import time

import pytest

import loading

# Its checks and daemons are those of live.d, which can be looked up once one of its modules is loaded.
loading.module("live.d", "checking")
bonds = loading.module("carry.d", "bonds")

# 100 frames of the host: 3 of them were not fit, 2 wait, 90 were sent and 5 not taken. 50 came: 40 were handed up, 4 not collected.
CARRY = {"unfit": 3, "none_carries": 0, "queue_full": 0, "held_too_long": 0, "overflowed": 0, "waiting": 2, "from_host": 100, "handed_up": 40}
CARRY.update(host_untaken=5, other_aggregator=1)
DATA = {"data_sent": 90, "data_unsent": 5, "data_received": 50, "uncollected": 4, "wrong_length": 0}


class Told:
    """An end of one member that has a status, and no daemon."""

    def __init__(self, carry: dict[str, int], data: dict[str, int]) -> None:
        self.status: dict[str, object] = {"carry": carry, "ports": [{"data": data}]}

    def told(self) -> dict[str, object]:
        return self.status


def said(printed: str) -> list[str]:
    """Of each check, whether it passed."""
    return [line.partition(":")[0] for line in printed.splitlines() if line.startswith(("passed", "FAILED"))]


def test_an_event_happens_each_so_many_seconds() -> None:
    event = lambda: None
    assert bonds.every(1, 3, event) == [(1.0, event), (2.0, event), (3.0, event)]
    assert bonds.every(2.5, 6, event, first=0.5) == [(0.5, event), (3.0, event), (5.5, event)]


def test_a_frame_that_was_refused_is_not_lost() -> None:
    assert bonds.Outcome(sent=100, refused=10, received=85).lost() == 5


@pytest.mark.parametrize(
    ("changed", "holds"),
    [({}, True), ({"overtaken": 1}, False), ({"twice": 1}, False), ({"strange": 1}, False), ({"received": 25}, False), ({"received": 26}, True)],
)
def test_a_run_is_in_order_where_nothing_is_overtaken_or_twice(capsys: pytest.CaptureFixture[str], changed: dict[str, int], holds: bool) -> None:
    bonds.check_order(bonds.Outcome(**{"sent": 100, "received": 100, **changed}), "a run")
    assert said(capsys.readouterr().out) == ["passed" if holds else "FAILED"]


OF_HOST = "unfit none_carries queue_full held_too_long overflowed waiting from_host data_sent data_unsent".split()
OF_MEMBERS = "handed_up host_untaken other_aggregator uncollected wrong_length data_received".split()


@pytest.mark.parametrize("name", [*OF_HOST, *OF_MEMBERS, "none of them"])
def test_each_count_of_the_host_and_of_the_members_counts(capsys: pytest.CaptureFixture[str], name: str) -> None:
    carry, data = ({key: value + (key == name) for key, value in counts.items()} for counts in (CARRY, DATA))
    bonds.check_end(Told(carry, data), "it")
    assert said(capsys.readouterr().out) == ["FAILED" if name in names else "passed" for names in (OF_HOST, OF_MEMBERS)]


class Holds(Told):
    """An end that held so many frames too long, and whose member had no room for so many."""

    def __init__(self, held: int, unsent: int) -> None:
        super().__init__({"held_too_long": held}, {"data_unsent": unsent})

    def text(self) -> str:
        return ""


@pytest.mark.parametrize(
    ("lost", "held", "unsent", "waited", "begins"),
    [
        (0, 0, 0, 0.0, "passed"),
        (0, 0, 0, 9.0, "passed"),
        (7, 7, 0, 0.9, "FAILED"),
        (7, 7, 0, 1.0, "inconclusive"),
        (7, 2, 3, 9.0, "inconclusive"),
        (7, 2, 2, 9.0, "FAILED"),
        (7, 7, 1, 9.0, "FAILED"),
    ],
)
def test_what_the_machine_may_have_lost_is_no_verdict(
    capsys: pytest.CaptureFixture[str], lost: int, held: int, unsent: int, waited: float, begins: str
) -> None:
    end = Holds(held, unsent)
    bonds.check_none_lost(bonds.Outcome(sent=100, received=100 - lost, no_room=2 if unsent == 3 else 0, waited=waited), end, end)
    assert [line.partition(":")[0] for line in capsys.readouterr().out.splitlines() if not line.startswith(" ")] == [begins]


def test_a_process_that_waits_for_a_processor_is_seen() -> None:
    words = [sys.executable, "-c", "while True: pass"]
    processor = str(min(os.sched_getaffinity(0)))
    both = [subprocess.Popen(["taskset", "-c", processor, *words]) for _ in range(2)]
    try:
        time.sleep(0.5)
        before = bonds.waited()
        time.sleep(1)
        assert {it.pid for it in both} <= before.keys() and bonds.since(before) > 0.3
    finally:
        for it in both:
            it.kill()
            it.wait()
    assert not {it.pid for it in both} & bonds.waited().keys()
