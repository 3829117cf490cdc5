"""c/lag.c beside the native library: the calls of lag.h, each of both with one program by gcc -O2, in turn."""

from __future__ import annotations

import tempfile

import library
from building import build_harness, say
from report import Measured, Table, machine, number

RUNS = 5
# Ports, and conversations in use.
COLUMNS = [("2", "1"), ("8", "256"), ("64", "all")]


def measure(cache: str) -> int:
    """Measures both in turn, and prints a table of the least times and their ratios."""
    with tempfile.TemporaryDirectory() as folder:
        say("building the native library; what is not yet proved is proved first")
        programs = [build_harness(cache, library.proved(folder), "native"), build_harness(cache, [library.PORTABLE], "portable")]
    # The calls of systems of 256 conversations.
    runs = [[Measured(library.printed(it, "0", "call")) for it in programs] for _ in range(RUNS)]
    print(f"{machine()}; {RUNS} runs of each, in turn; {library.printed('gcc', '--version').splitlines()[0]}, -O2")
    table, rows = Table(), []
    for name in runs[0][0].names("call"):
        cells = []
        for key in [("call", name, *column) for column in COLUMNS]:
            if key in runs[0][0].times:
                native, portable = (min(run[which].times[key] for run in runs) for which in (0, 1))
                cells += [number(native), number(portable), f"{portable / native:.2f}"]
        is_right = not any(wrong for run in runs for it in run for key, wrong in it.wrong.items() if key[1] == name)
        rows.append(([name, *cells, *["-"] * (3 * len(COLUMNS) - len(cells))], is_right))
    table.section(["ns a call: ports / conversations", *(it for column in COLUMNS for it in (f"native, {' / '.join(column)}", "c/lag.c", "ratio"))], rows)
    print(f"\n{table.rows} rows, {table.wrong} wrong")
    return 1 if table.wrong else 0
