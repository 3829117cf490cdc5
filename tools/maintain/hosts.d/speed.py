"""teamd as it is, teamd with the library, and lagd with plane=team, measured in turns in one guest; and what one team and many teamds cost."""

from __future__ import annotations

import os
import re
import shutil
import subprocess

from built import Built
from checking import Skipped, check
from repository import TOP
from teams import ended, guest, place, program

ROUNDS, ROUNDS_OF_MANY = 3, 2
WAYS = {"own": "teamd as it is", "library": "teamd with the library", "lagd": "lagd, plane=team"}
OF_TEAMD = {way: WAYS[way] for way in ("own", "library")}
ROWS_OF_COST = 10


def daemon() -> str:
    """The program lagd, of this clone."""
    told = subprocess.run(["make", "-s", "daemon"], cwd=TOP, capture_output=True, text=True)
    if told.returncode:
        raise Skipped(f"lagd is not built: {told.stderr.strip()[-400:]}")
    return os.path.join(TOP, "out", "bin", "lagd")


def table(told: str) -> dict[str, dict[str, list[str]]]:
    """The values of each row, of all rounds, by the ways."""
    rows: dict[str, dict[str, list[str]]] = {}
    for way, row, value in re.findall(r"^cell: (\w+) \| (.*?) \| (.*)$", told, re.M):
        rows.setdefault(row, {}).setdefault(way, []).append(value)
    return rows


def printed(rows: dict[str, dict[str, list[str]]], ways: dict[str, str]) -> None:
    """The table of the rows, and the load."""
    print("|all rounds|" + "|".join(ways.values()) + "|\n|---|" + "---|" * len(ways))
    for row, cells in rows.items():
        print(f"|{row}|" + "|".join(", ".join(cells.get(way, ["-"])) for way in ways) + "|")
    print(f"the load of the machine in the last 1, 5 and 15 minutes: {' '.join(f'{it:.0f}' for it in os.getloadavg())}")


def cost(built: Built) -> None:
    """What one idle team costs in a second, by counts that the load of the machine does not change."""
    for name in "valgrind", "strace":
        if not shutil.which(name):
            raise Skipped(f"there is no {name} (Debian: {name})")
    shutil.copy(program(built, True), f"{place(built)}/own")
    told = guest(built, "cost", program(built), "teamd")
    rows = table(told)
    printed(rows, OF_TEAMD)
    check(len(rows) == ROWS_OF_COST and all(set(it) == set(OF_TEAMD) for it in rows.values()), "what a team costs is counted in each row", told[-1500:])
    check(ended(told), "cost: the guest comes to its end", told[-800:])


def many(built: Built) -> None:
    """1, 8, 32 and 128 idle teamds beside each other, and 32 that start at once."""
    shutil.copy(program(built, True), f"{place(built)}/own")
    told = guest(built, "many", program(built), "teamd", f"ROUNDS={ROUNDS_OF_MANY}")
    rows = table(told)
    printed(rows, OF_TEAMD)
    # Of 32 that start at once libteam starts some not at all, with either runner; what 128 do is told, too.
    carry = [it for count in (1, 8, 32) for it in rows.get(f"{count}: all carry", {}).get("library", [])]
    check(carry == ["yes"] * 3 * ROUNDS_OF_MANY, f"1, 8 and 32 teamds with the library carry, in {ROUNDS_OF_MANY} rounds", told[-1500:])
    check(ended(told), "many: the guest comes to its end", told[-800:])


def speed(built: Built) -> None:
    folder = place(built)
    shutil.copy(program(built, True), f"{folder}/own")
    shutil.copy(daemon(), f"{folder}/lagd")
    iperf3 = built.unpacked("iperf3", "libiperf0", "libsctp1")
    shutil.copy(built.found(f"{iperf3}/**/bin/iperf3"), folder)
    for name in "libiperf.so.0", "libsctp.so.1":
        shutil.copy(built.found(f"{iperf3}/**/{name}"), f"{folder}/lib/{name}")
    told = guest(built, "speed", program(built), "teamd", f"ROUNDS={ROUNDS}")
    rows = table(told)
    printed(rows, WAYS)
    began = rows.get("from the start until both carry, s", {})
    check(all(len(began.get(way, [])) >= ROUNDS for way in WAYS), f"{ROUNDS} rounds of three daemons are measured", told[-1500:])
    check(ended(told), "speed: the guest comes to its end", told[-800:])
