"""The long run: ten million frames, thousands of moves and two hundred failures, by each way."""

from __future__ import annotations

import os
from typing import Callable

from beside import print_rows, switches
from bonds import Cables, Event, Outcome, Programs, move_all, pair, run_flows
from checking import Skipped, check
from measuring import seconds_of

# A round has four cuts of half a second, and one silence, in seconds from its begin; and conversations are asked to move each second.
ROUND, CUTS, CUT, SILENCE, HEAR = 22.0, (0.0, 4.0, 8.0, 12.0), 0.5, 16.0, 19.5
ROUNDS, RATE = 40, 12000
HEADINGS = ("way", "frames", "moves", "failures", "overtaken", "twice", "lost", "longest gap, ms", "processor a frame, us")


def failures(laid: Cables, rounds: int) -> list[Event]:
    """What happens to the links: each in turn is cut, or falls silent."""
    def at(second: float, what: str, number: int) -> Event:
        return second, lambda: laid.tell(what, number)

    events = []
    for turn in range(rounds):
        begin = 1.0 + turn * ROUND
        for place, second in enumerate(CUTS):
            events += [at(begin + second, "cut", (place + turn) % 2), at(begin + second + CUT, "join", (place + turn) % 2)]
        events += [at(begin + SILENCE, "silence", turn % 2), at(begin + HEAR, "hear", turn % 2)]
    return events


def row(name: str, outcome: Outcome, moves: int, rounds: int, took: float) -> list[str]:
    counts = [outcome.sent, moves, rounds * (len(CUTS) + 1), outcome.overtaken, outcome.twice, outcome.lost(), outcome.gap_ms]
    return [name, *(f"{count:,}" for count in counts), f"{took * 1e6 / max(outcome.received, 1):.2f}"]


def run_lagd(programs: Programs, name: str, rounds: int, *options: str) -> list[str]:
    with pair(programs, options=list(options)) as (laid, ours, theirs):
        ends = [ours.process.pid, theirs.process.pid]
        before, move = sum(map(seconds_of, ends)), move_all(ours)
        moves: list[Event] = [(second + 0.7, move) for second in range(1, int(rounds * ROUND))]
        outcome = run_flows(programs, rounds * ROUND + 2, sorted(failures(laid, rounds) + moves, key=lambda event: event[0]), rate=RATE)
        moved = ours.carry()["moves"]
        text = f"{outcome.sent:,} frames, {moved:,} moves: {outcome.overtaken} overtaken, {outcome.twice} twice"
        check(outcome.overtaken == outcome.twice == outcome.strange == 0, f"{name}: {text}", outcome, ours.text(), theirs.text())
        return row(name, outcome, moved, rounds, sum(map(seconds_of, ends)) - before)


def run_open_vswitch(programs: Programs, rounds: int) -> list[str]:
    with switches(programs) as (laid, name, processes):
        before = sum(map(seconds_of, processes))
        outcome = run_flows(programs, rounds * ROUND + 2, failures(laid, rounds), rate=RATE, devices=("br0", "br0"))
        return row(name, outcome, 0, rounds, sum(map(seconds_of, processes)) - before)


WAYS: dict[str, Callable[[Programs, int], list[str]]] = {
    "plain": lambda programs, rounds: run_lagd(programs, "lagd", rounds),
    "offload": lambda programs, rounds: run_lagd(programs, "lagd --offload", rounds, "--offload"),
    "fast": lambda programs, rounds: run_lagd(programs, "lagd --fast", rounds, "--fast"),
    "openvswitch": run_open_vswitch,
}
# Without a name: what ends with two ways and what stands beside them.
USUAL = ("plain", "fast", "openvswitch")


def print_long(programs: Programs, ways: list[str]) -> None:
    rounds = int(os.environ.get("ROUNDS", ROUNDS))
    rows = []
    for way in ways or USUAL:
        try:
            rows.append(WAYS[way](programs, rounds))
        except Skipped as why:
            print(f"skipped: {way}: {why}", flush=True)
    print(f"links of 0 and 20 ms, 64 flows, {RATE:,} frames a second; each {ROUND:.0f} s four cuts of half a second and a silence of {HEAR - SILENCE} s, and each "
          f"second all conversations are asked to move; Open vSwitch has no command for that; processor: of both ends")
    print_rows(HEADINGS, rows)
