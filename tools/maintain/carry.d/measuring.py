"""The table of one run: two daemons beside two bonds of Open vSwitch, through the same events."""

from __future__ import annotations

import glob
from typing import Callable, Sequence

from beside import print_rows, switches
from bonds import DELAYS, DEVICE, FLIGHT, RATE, Cables, Event, Outcome, Programs, move_all, pair, run_flows
from checking import Skipped, check

HEADINGS = ("run", "frames", "overtaken", "twice", "lost", "longest gap, ms", "processor a frame, us")
# How fast frames go where nothing happens to the links, and for how many seconds.
FAST, FAST_SECONDS = 100000, 5


def seconds_of(process: int) -> float:
    """For how many seconds a process had a processor."""
    total = 0
    for path in glob.glob(f"/proc/{process}/task/*/schedstat"):
        with open(path, encoding="utf-8") as times:
            total += int(times.read().split()[0])
    return total / 1e9


def row(name: str, outcome: Outcome, processes: Sequence[int], before: float) -> list[str]:
    took = (sum(map(seconds_of, processes)) - before) * 1e6 / max(outcome.received, 1)
    counts = [outcome.sent, outcome.overtaken, outcome.twice, outcome.lost(), outcome.gap_ms]
    return [name, *(f"{count:,}" for count in counts), f"{took:.1f}"]


def troubles(laid: Cables) -> list[Event]:
    """Each link is cut for 3 s, and each is silent for 5 s."""
    def at(second: float, what: str, number: int) -> Event:
        return second, lambda: laid.tell(what, number)

    return [at(2, "cut", 1), at(5, "join", 1), at(11, "cut", 0), at(14, "join", 0), at(20, "silence", 1), at(25, "hear", 1),
            at(31, "silence", 0), at(36, "hear", 0)]


def measure(name: str, programs: Programs, laid: Cables, processes: Sequence[int], devices: tuple[str, str],
            moves: Callable[[], None] | None = None) -> list[list[str]]:
    """The rows of two ends."""
    rows, before = [], sum(map(seconds_of, processes))
    outcome = run_flows(programs, 41, troubles(laid), devices=devices)
    rows.append(row(f"{name}, each link cut and silent", outcome, processes, before))
    before = sum(map(seconds_of, processes))
    if moves:
        outcome = run_flows(programs, 12, [(second, moves) for second in range(1, 11)], devices=devices)
        rows.append(row(f"{name}, each flow moved ten times", outcome, processes, before))
    return rows


def measure_fast(name: str, programs: Programs, processes: Sequence[int], devices: tuple[str, str]) -> list[str]:
    """The row of two ends without delay, where nothing happens."""
    before = sum(map(seconds_of, processes))
    outcome = run_flows(programs, FAST_SECONDS, rate=FAST, devices=devices)
    return row(f"{name}, {FAST:,} frames a second", outcome, processes, before)


def measure_way(programs: Programs, name: str, *options: str) -> list[list[str]]:
    """The rows of two daemons, by one of their ways."""
    with pair(programs, options=list(options)) as (laid, ours, theirs):
        return measure(name, programs, laid, [ours.process.pid, theirs.process.pid], (DEVICE, DEVICE), move_all(ours))


def measure_way_fast(programs: Programs, name: str, *options: str) -> list[str]:
    with pair(programs, delays=(), options=list(options)) as (_, ours, theirs):
        return measure_fast(name, programs, [ours.process.pid, theirs.process.pid], (DEVICE, DEVICE))


def measure_ours(programs: Programs) -> list[list[str]]:
    rows = measure_way(programs, "lagd") + measure_way(programs, "lagd --fast", "--fast")
    with pair(programs, program=programs.forcing) as (_, ours, theirs):
        ends = [ours.process.pid, theirs.process.pid]
        before = sum(map(seconds_of, ends))
        outcome = run_flows(programs, 12, [(second, move_all(ours)) for second in range(1, 11)])
        rows.append(row("lagd without markers, each flow moved ten times", outcome, ends, before))
    return [*rows, measure_way_fast(programs, "lagd"), measure_way_fast(programs, "lagd --fast", "--fast")]


def measure_open_vswitch(programs: Programs, delays: Sequence[int] = DELAYS) -> list[list[str]]:
    with switches(programs, delays) as (laid, name, processes):
        if not delays:
            return [measure_fast(name, programs, processes, ("br0", "br0"))]
        return measure(name, programs, laid, processes, ("br0", "br0"))


def print_table(programs: Programs) -> None:
    rows = measure_ours(programs)
    try:
        rows += measure_open_vswitch(programs)
        rows += measure_open_vswitch(programs, ())
    except Skipped as why:
        print(f"skipped: Open vSwitch: {why}", flush=True)
    print(f"64 flows, {RATE:,} frames a second where nothing else is said, flight {FLIGHT} ms; links of 0 and 20 ms, and without delay at "
          f"{FAST:,} frames a second; processor: of both ends, for each frame that came")
    print_rows(HEADINGS, rows)
    ours = [cells for cells in rows if cells[0].startswith(("lagd,", "lagd --fast,"))]
    check(all(cells[2] == cells[3] == "0" for cells in ours), "with markers no frame was overtaken and none came twice")
