"""The table of failures: for how long no frame comes where one of two links goes, and how much memory a daemon has."""

from __future__ import annotations

from typing import Sequence

from beside import print_rows, switches
from bonds import DEVICE, FLIGHT, RATE, Cables, Event, Outcome, Programs, pair, run_flows
from checking import Skipped, check

HEADINGS = ("way", "link down: longest gap, ms", "link silent: longest gap, ms", "memory of an end, MB")
# Both links go in turn, each for so many seconds, and are then back for as long.
TIMES, DOWN, SILENT = 2, 2.0, 6.0


def events(laid: Cables, words: tuple[str, str], seconds: float) -> list[Event]:
    """Links go and come back in turn."""
    def at(second: float, what: str, number: int) -> Event:
        return second, lambda: laid.tell(what, number)

    found = []
    for turn in range(TIMES):
        begin = 1.0 + 2 * turn * seconds
        found += [at(begin, words[0], turn % 2), at(begin + seconds, words[1], turn % 2)]
    return found


def memory_of(process: int) -> float:
    """The most memory that a process has had, in MB (VmHWM)."""
    with open(f"/proc/{process}/status", encoding="utf-8") as lines:
        return next(int(line.split()[1]) for line in lines if line.startswith("VmHWM:")) / 1000


def measure(name: str, programs: Programs, laid: Cables, processes: Sequence[int], device: str) -> tuple[list[str], list[Outcome]]:
    outcomes = [run_flows(programs, 2 * TIMES * seconds + 2, events(laid, words, seconds), devices=(device, device))
                for words, seconds in ((("cut", "join"), DOWN), (("silence", "hear"), SILENT))]
    memory = max(map(memory_of, processes))
    return [name, *(f"{outcome.gap_ms:,}" for outcome in outcomes), f"{memory:.1f}"], outcomes


def measure_lagd(programs: Programs, name: str, *options: str) -> list[str]:
    with pair(programs, options=list(options)) as (laid, ours, theirs):
        cells, outcomes = measure(name, programs, laid, [ours.process.pid, theirs.process.pid], DEVICE)
        orderly = all(outcome.overtaken == outcome.twice == 0 for outcome in outcomes)
        check(orderly, f"{name}: no frame was overtaken and none came twice", *outcomes, ours.text(), theirs.text())
        return cells


def print_failures(programs: Programs) -> None:
    rows = [measure_lagd(programs, "lagd"), measure_lagd(programs, "lagd --fast", "--fast")]
    try:
        with switches(programs) as (laid, name, processes):
            rows.append(measure(name, programs, laid, processes, "br0")[0])
    except Skipped as why:
        print(f"skipped: Open vSwitch: {why}", flush=True)
    print(f"links of 0 and 20 ms, 64 flows, {RATE:,} frames a second, flight {FLIGHT} ms; each link is down for {DOWN:.0f} s, and then each is "
          f"silent for {SILENT:.0f} s")
    print_rows(HEADINGS, rows)
