"""How many checks run side by side."""

from __future__ import annotations

import os
from pathlib import Path

import pytest

import loading  # noqa: F401  (tools/ is looked up)
import lanes

GB = 1_000_000_000


@pytest.mark.parametrize(
    ("processors", "memory", "found"),
    [(4, 23 * GB, 4), (16, 23 * GB, 7), (8, 3 * GB, 1), (8, 3 * GB - 1, 1), (2, 0, 1), (5, 15 * GB, 5), (6, 15 * GB, 5)],
)
def test_a_lane_has_a_processor_and_3_gb(monkeypatch: pytest.MonkeyPatch, processors: int, memory: int, found: int) -> None:
    monkeypatch.delenv("RT_JOBS", raising=False)
    monkeypatch.setattr(lanes, "processors", lambda: processors)
    monkeypatch.setattr(lanes, "memory", lambda: memory)
    assert lanes.lanes() == found


@pytest.mark.parametrize(("quota", "found"), [("250000 100000", 2), ("40000 100000", 1), ("max 100000", 6), ("900000 100000", 6)])
def test_a_control_group_may_have_fewer_processors(tmp_path: Path, monkeypatch: pytest.MonkeyPatch, quota: str, found: int) -> None:
    path = tmp_path / "cpu.max"
    path.write_text(quota + "\n")
    monkeypatch.setattr(lanes, "TIME", [((str(path), r"^(\d+)"), (str(path), r" (\d+)"))])
    monkeypatch.setattr(os, "sched_getaffinity", lambda _: set(range(6)))
    assert lanes.processors() == found


def test_a_control_group_may_have_less_memory(tmp_path: Path, monkeypatch: pytest.MonkeyPatch) -> None:
    limit, held = tmp_path / "memory.max", tmp_path / "memory.stat"
    limit.write_text("5000\n")
    held.write_text("file 77\nanon 1200\n")
    monkeypatch.setattr(lanes, "MEMORY", [((str(limit), r"^(\d+)"), (str(held), r"\banon (\d+)"))])
    assert lanes.memory() == 3800


def test_what_is_not_there_has_no_number(tmp_path: Path) -> None:
    path = tmp_path / "some"
    path.write_text("word 31\n")
    assert lanes.number_in(str(path), r"word (\d+)") == 31
    assert lanes.number_in(str(path), r"other (\d+)") is None
    assert lanes.number_in(str(tmp_path / "none"), r"(\d+)") is None
