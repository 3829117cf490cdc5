#!/usr/bin/python3
"""Plots a report of `lagtool replay` over time (SVG): a row a port, with what its last LACPDU said of it.

lagtool replay SCRIPT | plot_replay.py > PLOT.svg

Ticks of 100 ms go from left to right, those of each system on their own. A bar tells the state by the LACPDU that the port sent last:
grey from none on, yellow with the bit Synchronization, green with Distributing, red with Expired or Defaulted. A stroke is an LACPDU, a
dot a marker, and a cross what was lost.
"""

from __future__ import annotations

import re
import sys
from typing import NamedTuple

SYNCHRONIZATION, DISTRIBUTING, DEFAULTED, EXPIRED = 8, 32, 64, 128
LEFT, ROW, WIDTH = 110, 34, 900
TICK = re.compile(r"\d+ tick ([12]) (\d+) -> ticked")
EMIT = re.compile(r"\d+ emit ([12]) (\d+) -> (lacpdu|marker) (\w+) (sent|lost)")


class Sent(NamedTuple):
    """A frame of a port: the tick, its state octet, or None for a marker, and whether it was lost."""

    tick: int
    state: int | None
    is_lost: bool


def read(text: str) -> tuple[dict[tuple[int, int], list[Sent]], int]:
    """What each port of each system sent, and the last tick."""
    ticks, found = {1: 0, 2: 0}, dict[tuple[int, int], list[Sent]]()
    for line in text.split("\n"):
        if tick := TICK.fullmatch(line):
            ticks[int(tick[1])] += int(tick[2])
        elif emit := EMIT.fullmatch(line):
            state = int(emit[4], 16) if emit[3] == "lacpdu" else None
            row = found.setdefault((int(emit[1]), int(emit[2])), [])
            row.append(Sent(ticks[int(emit[1])], state, emit[5] == "lost"))
    return found, max(ticks.values())


def color(state: int) -> str:
    """The color of a bar."""
    if state & DISTRIBUTING:
        return "#7cb87c"
    if state & (DEFAULTED | EXPIRED):
        return "#d99090"
    return "#e6cf75" if state & SYNCHRONIZATION else "#cccccc"


def bars(row: list[Sent], y: int, last: int, at: float) -> list[str]:
    """The row of a port."""
    told = [it for it in row if it.state is not None]
    ends = [it.tick for it in told[1:]] + [last]
    parts = []
    for it, end in zip(told, ends):
        box = f'x="{LEFT + it.tick * at:.1f}" y="{y}" width="{max(1.0, (end - it.tick) * at):.1f}" height="18"'
        parts.append(f'<rect {box} fill="{color(it.state or 0)}"><title>tick {it.tick}: state {it.state or 0:02x}</title></rect>')
    for it in row:
        x = LEFT + it.tick * at
        if it.is_lost:
            parts.append(f'<path d="M{x - 4:.1f} {y + 5} l8 8 m0 -8 l-8 8" stroke="#a33" stroke-width="2"/>')
        elif it.state is None:
            parts.append(f'<circle cx="{x:.1f}" cy="{y + 9}" r="4" fill="#2b5c8a"/>')
        else:
            parts.append(f'<path d="M{x:.1f} {y} v18" stroke="#333"/>')
    return parts


def plot(text: str) -> str:
    """The picture."""
    rows, last = read(text)
    at, parts = WIDTH / max(1, last), []
    for place, ((system, port), row) in enumerate(sorted(rows.items())):
        y = 14 + place * ROW
        parts += [f'<text x="8" y="{y + 13}">system {system} port {port}</text>', *bars(row, y, last, at)]
    foot = 22 + len(rows) * ROW
    step = next(it for it in (10, 50, 100, 500, 1000, 10**9) if last / it <= 12)
    for tick in range(0, last + 1, step):
        parts.append(f'<text x="{LEFT + tick * at:.1f}" y="{foot}" text-anchor="middle">{tick / 10:g} s</text>')
    box = f"0 0 {LEFT + WIDTH + 30} {foot + 10}"
    return f'<svg xmlns="http://www.w3.org/2000/svg" viewBox="{box}" font-family="sans-serif" font-size="12">' + "\n".join(["", *parts, "</svg>"]) + "\n"


if __name__ == "__main__":
    sys.stdout.write(plot(sys.stdin.read()))
