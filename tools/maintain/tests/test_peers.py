"""tools/maintain/peers and tools/maintain/system_tests.py: parts that are chosen, skipped, and that do not run to their end."""

from __future__ import annotations

import contextlib
import signal
import subprocess
import sys
import time
from pathlib import Path

import pytest

import loading

peers = loading.program("peers")
system_tests = peers.system_tests
# A tool of three parts, of which one fails.
TOOL = """
import sys, time
sys.path[:0] = [{maintain!r}, {maintain!r} + "/live.d", {maintain!r} + "/.."]
import system_tests
from checking import Skipped, check
from repository import run

def skips(shared):
    raise Skipped("it is not installed")

def waits(shared):
    try:
        print("it waits", flush=True)
        time.sleep(60)
    finally:
        print("it is done", flush=True)

parts = {{"good": lambda shared: check(shared, "it holds"), "bad one": lambda shared: check(not shared, "it holds not"), "skips": skips, "waits": waits}}

def main():
    words = system_tests.reads(__doc__, parts).parse_known_args()[1]
    jobs = int(words.pop(0)) if words and words[0].isdigit() else 1
    return system_tests.run_parts(parts, lambda names: True, words, chosen=lambda names: names or list(parts)[:3], jobs=jobs)

run(main)
"""


@pytest.fixture
def tool(tmp_path: Path, monkeypatch: pytest.MonkeyPatch) -> Path:
    monkeypatch.delenv("PYTEST_ADDOPTS", raising=False)
    path = tmp_path / "tried"
    path.write_text(TOOL.format(maintain=loading.MAINTAIN))
    return path


def ran(tool: Path, *words: str) -> tuple[int, list[str]]:
    """How the tool ends, and the lines of its parts with its last one."""
    ended = subprocess.run([sys.executable, tool, *words], capture_output=True, text=True, timeout=50)
    lines = ended.stdout.splitlines()
    return ended.returncode, [it for it in lines[:-1] if it.startswith(("passed: ", "FAILED: ", "skipped: "))] + lines[-1:]


def test_each_flow_is_a_frame_of_its_own() -> None:
    frames = peers.conform.frames_of_flows()
    assert len(set(frames)) == len(frames) == 64 and {it[12:14] for it in frames} == {b"\x08\x00"}


@pytest.mark.parametrize("jobs", [(), ("2",)])
def test_parts_are_chosen_repeated_and_told_of(tool: Path, tmp_path: Path, jobs: tuple[str, ...]) -> None:
    skipped, failed = "skipped: skips: it is not installed", "FAILED: it holds not"
    assert ran(tool, "--list") == (0, ["waits"])
    assert ran(tool, *jobs, f"--junitxml={tmp_path}/junit.xml") == (1, ["passed: it holds", failed, skipped, "1 passed, 1 failed"])
    assert 'errors="0" failures="1" skipped="1" tests="3"' in (tmp_path / "junit.xml").read_text()
    assert ran(tool, *jobs, "--lf") == (1, [failed, "0 passed, 1 failed"])
    assert ran(tool, *jobs, "skips", "good", "-k", "not waits") == (0, [skipped, "passed: it holds", "1 passed, 0 failed"])
    assert ran(tool, *jobs, "-x", "bad one", "good") == (1, [failed, "0 passed, 1 failed"])
    assert ran(tool, "nobody")[0] == ran(tool, "--nothing")[0] == 2


@pytest.mark.parametrize("number", [signal.SIGTERM, signal.SIGINT])
def test_a_signal_ends_a_part_by_what_it_does_at_its_end(tool: Path, number: signal.Signals) -> None:
    with subprocess.Popen([sys.executable, tool, "waits", "good"], stdout=subprocess.PIPE, text=True) as process:
        assert process.stdout and [process.stdout.readline() for _ in range(2)] == ["waits:\n", "it waits\n"]
        began = time.monotonic()
        process.send_signal(number)
        told = process.stdout.read()
    assert time.monotonic() - began < 30 and "it is done" in told and "it holds" not in told and process.returncode == 128 + number


@pytest.mark.parametrize(
    "why", [peers.system_tests.Failed("its link stays down", "0 LACPDUs"), KeyError("port"), ValueError("no number"), subprocess.SubprocessError("ended")]
)
def test_a_trial_that_does_not_run_to_its_end_fails(monkeypatch: pytest.MonkeyPatch, why: Exception) -> None:
    for name in ("passed", "failed"):
        monkeypatch.setitem(system_tests.counted, name, 0)

    def trial(_: object) -> list[str]:
        raise why

    told = system_tests.attempt("teamd", trial, None)
    assert len(told.failed) == 1 and told.answer is None and system_tests.counted == {"passed": 0, "failed": 1}


@pytest.mark.parametrize(
    ("waited", "holds", "runs", "ends"),
    [(0.9, [0, 1], 1, (1, 1)), (1.0, [0, 1], 2, (2, 0)), (9.0, [0, 0], 2, (1, 1)), (9.0, [1, 0], 1, (2, 0))],
)
def test_a_part_that_fails_while_it_waits_for_a_processor_runs_once_more(
    waited: float, holds: list[int], runs: int, ends: tuple[int, int], monkeypatch: pytest.MonkeyPatch, capsys: pytest.CaptureFixture[str]
) -> None:
    ran: list[int] = []

    def part(shared: list[int]) -> None:
        ran.append(0)
        system_tests.check(True, "it runs")
        system_tests.check(shared[len(ran) - 1], "it holds", "more")

    for name in ("counted", "failures"):
        monkeypatch.setattr(system_tests, name, {"passed": 0, "failed": 0} if name == "counted" else [])
        monkeypatch.setattr(sys.modules["checking"], name, getattr(system_tests, name))
    monkeypatch.setattr(system_tests, "watched", lambda: contextlib.nullcontext(lambda: waited))
    told = system_tests.attempt("part", part, holds)
    line = f"inconclusive: part: it holds: this failed while its processes waited {waited} s for a processor; once more" in capsys.readouterr().out
    assert (len(ran), line, len(told.failed), len(system_tests.failures)) == (runs, runs > 1, ends[1], ends[1])
    assert (system_tests.counted["passed"], system_tests.counted["failed"], told.passed) == (2 - ends[1], ends[1], 2 - ends[1])


def test_how_long_processes_wait_is_known_of_those_that_ended(monkeypatch: pytest.MonkeyPatch) -> None:
    now = {1: 5.0}
    lateness = sys.modules["lateness"]
    monkeypatch.setattr(lateness, "waited", lambda: dict(now))
    monkeypatch.setattr(lateness, "LOOKS", 0.01)
    with lateness.watched() as late:
        now.update({1: 5.5, 2: 0.25})
        time.sleep(0.5)
        del now[2]
        now[3] = 0.125
        assert late() == 0.875
        # Another process has its number.
        now[1] = 4.0
        assert late() == 0.375
