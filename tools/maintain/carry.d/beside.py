"""Two bonds of Open vSwitch in the place of two daemons, and how a table of both is printed."""

from __future__ import annotations

import contextlib
import os
from typing import Iterable, Iterator, Sequence

from bonds import COMES_UP, DELAYS, PEERS, Cables, Programs, cables
from checking import Skipped, within
from fetching import Packages
from openvswitch import OpenVSwitch
from spaces import OURS, THEIRS, ip


@contextlib.contextmanager
def switch_ends(programs: Programs, delays: Sequence[int] = DELAYS) -> Iterator[tuple[Cables, list[OpenVSwitch]]]:
    """The cables between two bonds whose links all carry."""
    packages = Packages(PEERS, True)
    with cables(programs, delays) as laid:
        ends = [OpenVSwitch(packages, programs.folder, OURS, ("a0", "a1")), OpenVSwitch(packages, programs.folder)]
        try:
            for end in ends:
                end.start()
            if not within(2 * COMES_UP, lambda: all(len(end.carrying()) == 2 for end in ends)):
                raise Skipped("two bonds of Open vSwitch do not come up")
            for space in OURS, THEIRS:
                ip(space, "link", "set", "br0", "txqueuelen", "4096", "up")
            yield laid, ends
        finally:
            for end in ends:
                end.end()


@contextlib.contextmanager
def switches(programs: Programs, delays: Sequence[int] = DELAYS) -> Iterator[tuple[Cables, str, list[int]]]:
    """The cables between two such bonds, the name with its version, and the processes."""
    with switch_ends(programs, delays) as (laid, ends):
        yield laid, f"Open vSwitch {ends[0].version()}", [end.running[-1].pid for end in ends]


def print_rows(headings: Sequence[str], rows: Iterable[Sequence[str]]) -> None:
    """A table of the pages, below the machine and its load."""
    print(f"{os.cpu_count()} processors, load {os.getloadavg()[0]:.0f}")
    for cells in (headings, ["---"] * len(headings), *rows):
        print(f"| {' | '.join(cells)} |")
