"""The instructions of the calls, counted by callgrind, which no load of the machine changes."""

from __future__ import annotations

import glob
import re
import tempfile

import library
from building import build_harness, say
from report import Measured, Table, call_rows, codec_rows
from repository import read_text, want


def measure(cache: str, parts: list[str]) -> int:
    """Counts those of the codec and of the calls of systems of 256 conversations, and prints them as the times are."""
    want("valgrind")
    harness = build_harness(cache, ["-DINSTRUCTIONS", *parts], "instructions")
    say("counting, some minutes")
    with tempfile.TemporaryDirectory() as folder:
        m = Measured(library.printed("valgrind", "--tool=callgrind", f"--callgrind-out-file={folder}/of", harness, "-1", "call"))
        # A file for each run; the last one of its words is that of which the calls are told.
        for file in sorted(glob.glob(f"{folder}/of.*"), key=lambda it: int(it.rpartition(".")[2])):
            found = re.search(r"^desc: Trigger: Client Request: (.*)$(?:.|\n)*?^(?:totals|summary): (\d+)", read_text(file), re.M)
            if found:
                words = tuple(found[1].split("\t"))
                m.times[words] = int(found[2]) / m.calls[words]
    table = Table()
    codec_rows(table, m, "instructions")
    call_rows(table, m, "instructions")
    print(f"\n{table.rows} rows, {table.wrong} wrong")
    return 1 if table.wrong else 0
