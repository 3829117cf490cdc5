"""Counts the instructions of calls of c/lag.c: an emulator of qemu runs calls.c beside it, and tells each instruction with its function."""

from __future__ import annotations

import os
import shutil
import subprocess
import tempfile
from typing import Iterable, Iterator, NamedTuple, Sequence

import board
from library import PORTABLE, printed
from repository import Missing

PROGRAM, WORDS = (os.path.join(os.path.dirname(os.path.abspath(__file__)), name) for name in ("calls.c", "words.c"))
KEEPS_LOOPS = "-fno-tree-loop-distribute-patterns"
# Ports, and the LAGs that they are in.
LAYOUTS = ((2, 1), (8, 1), (8, 4))
NEW, TICK, SETTLED, DUE, SENDS, TAKEN, KEEP = (
    "`niw_new`",
    "`niw_tick`, nothing due",
    "`settle`, nothing due",
    "`niw_tick` that makes an LACPDU due on each port",
    "`settle`, an LACPDU due on each port",
    "`niw_receive` of an LACPDU that changes nothing",
    "`keep`, for a warm start",
)
# The calls, in the order of the program.
CALLS = [
    NEW,
    TICK,
    SETTLED,
    DUE,
    SENDS,
    "`niw_transmit` of an LACPDU",
    TAKEN,
    "`niw_receive` of one that flips Sync: the port leaves the trunk",
    "`niw_tick` at which all ports lose their partner",
    "`niw_set_link`: the link of a port goes down that distributes",
]
# Those of a program with rows. `keep` is the last one of either.
WITH_ROWS = ["-DROWS_OF_A_CHIP"]
ROWS_CALLS = [SETTLED, SENDS]
NOTHING: dict[str, str] = {}
# What the functions of C libraries begin with that copy and fill memory: glibc's memmove calls others.
MEMORY = (b"mem", b"_wordcopy")


class Counted(NamedTuple):
    """A processor, and its C library: its compiler with its words, those that its programs are linked by, what runs them, and packages of Debian; whether
    WORDS takes the place of the library's memcpy and its like."""

    name: str
    compiler: list[str]
    linked: list[str]
    runs: list[str]
    packages: str
    by_words: bool = False


# picolibc's script for the linker wants to know where memory is; the program has a start of its own.
PLACES = {"__flash": 1 << 20, "__flash_size": 1 << 20, "__ram": 1 << 24, "__ram_size": 1 << 20}
RV32_LINKED = ["--specs=picolibc.specs", "-nostartfiles", *(f"-Wl,--defsym={name}={value}" for name, value in PLACES.items())]
RV32 = Counted("RV32, picolibc", ["riscv64-unknown-elf-gcc", "-march=rv32imac", "-mabi=ilp32"], RV32_LINKED, ["qemu-riscv32"],
               "gcc-riscv64-unknown-elf, picolibc-riscv64-unknown-elf, qemu-user")
COUNTED = [
    Counted(f"{board.NAME}, newlib", board.COMPILER, board.LARGE.linked, board.LARGE.runs, board.PACKAGES),
    RV32,
    RV32._replace(name="RV32, [words.c](../tools/maintain/sizes.d/words.c)", by_words=True),
    Counted("PowerPC, glibc", ["powerpc-linux-gnu-gcc", "-fno-pie"], ["-static"], ["qemu-ppc"], "gcc-powerpc-linux-gnu with what it recommends, qemu-user"),
]
HEAD = "|instructions (2 ports; 8 ports; 8 ports in 4 LAGs)|" + "|".join(it.name for it in COUNTED) + "|\n|---|" + "---:|" * len(COUNTED) + "\n"


def lacks() -> list[str]:
    """What is not here of what the table is counted with."""
    return [f"{it.name}: {it.runs[0]} and {it.compiler[0]} with its C library (Debian: {it.packages})" for it in COUNTED
            if not (shutil.which(it.runs[0]) and board.links(*it.compiler, *it.linked))]


def between(told: Iterable[bytes]) -> Iterator[tuple[int, int]]:
    """Of each counted call how many instructions it took, and how many of them were in memcpy and its like."""
    whole = memory = 0
    for line in told:
        if not line.startswith(b"Trace"):
            continue
        function = line.rstrip().rpartition(b" ")[2]
        if function == b"count_to":
            if whole:
                yield whole, memory
            whole = memory = 0
        elif function == b"count_from":
            whole = memory = 0
        else:
            whole += 1
            memory += function.startswith(MEMORY)
    

def counts(it: Counted, words: list[str], calls: list[str], layouts: Sequence[tuple[int, int]] = LAYOUTS) -> list[list[tuple[int, int]]]:
    """Of each layout the counts of these calls, and of `keep`, on a processor. The environment and the path of a program move its stack, and memcpy takes
    other ways where a struct is aligned otherwise: so each run has none, and one path."""
    found, emulator = [], shutil.which(it.runs[0]) or it.runs[0]
    with tempfile.TemporaryDirectory() as folder:
        library, made = os.path.join(folder, "lag.o"), os.path.join(folder, "calls")
        printed(*it.compiler, *words, "-c", "-o", library, PORTABLE)
        memory = [os.path.join(folder, "words.o")] if it.by_words else []
        for made_of_words in memory:
            printed(*it.compiler, *words, KEEPS_LOOPS, "-c", "-o", made_of_words, WORDS)
        for ports, lags in layouts:
            printed(*it.compiler, *words, f"-DPORTS={ports}", f"-DLAGS={lags}", *it.linked, "-o", made, PROGRAM, library, *memory)
            called = board.command([emulator, "-singlestep", "-d", "exec,nochain", *it.runs[1:]], os.path.basename(made))
            with subprocess.Popen(called, cwd=folder, env=NOTHING, stdin=subprocess.DEVNULL, stdout=subprocess.DEVNULL, stderr=subprocess.PIPE) as ran:
                found.append(list(between(ran.stderr or ())))
            if ran.returncode or len(found[-1]) != len(calls) + 1:
                raise Missing(f"{it.name}: sizes.d/calls.c of {ports} ports ended with {ran.returncode} after {len(found[-1])} of {len(calls) + 1} calls")
    return found


def of_a_second(ports: int, took: dict[str, int]) -> int:
    """What the loop takes in a second of so many ports that all distribute, with short timeouts: ten ticks, at one of which all send, and an
    LACPDU comes on each port, no two in one turn; settle follows each of these."""
    return 9 * (took[TICK] + took[SETTLED]) + took[DUE] + took[SENDS] + ports * (took[TAKEN] + took[SETTLED])


def of_layouts(words: list[str], compiler: list[str], layouts: list[tuple[int, int]]) -> str:
    """The rows of a table: what a second of the loop takes, and `keep`, on the board of COUNTED, by this compiler, of each layout."""
    it = COUNTED[0]._replace(compiler=compiler)
    found = [taken(CALLS, its) for its in counts(it, words, CALLS, layouts)]
    rows = [{**its, **taken(ROWS_CALLS, own)} for its, own in zip(found, counts(it, [*words, *WITH_ROWS], ROWS_CALLS, layouts))]
    lines = []
    for name, of in (("", found), (", with rows", rows)):
        lines.append([f"a second of the loop{name}", *(of_a_second(ports, its) for (ports, _), its in zip(layouts, of))])
        lines.append([f"`keep`{name}", *(its[KEEP] for its in of)])
    return "".join("|" + "|".join([str(name), *(f"{it:,}" for it in cells)]) + "|\n" for name, *cells in lines)


def taken(calls: list[str], told: list[tuple[int, int]]) -> dict[str, int]:
    return {call: whole for call, (whole, _) in zip([*calls, KEEP], told)}


def table(words: list[str]) -> str:
    """The table: by -Os and these words, of each call, and each layout, the instructions; what a second takes, also with rows; at last how many of them copy
    and fill memory."""
    counted = [[its[:len(CALLS)] for its in counts(it, words, CALLS)] for it in COUNTED]
    found = [[taken(CALLS, its) for its in of] for of in counted]
    rows_found = [[taken(ROWS_CALLS, its) for its in counts(it, [*words, *WITH_ROWS], ROWS_CALLS)] for it in COUNTED]
    seconds = [[of_a_second(ports, its) for (ports, _), its in zip(LAYOUTS, of)] for of in found]
    rows_seconds = [[of_a_second(ports, {**its, **rows}) for (ports, _), its, rows in zip(LAYOUTS, of, with_rows)] for of, with_rows in zip(found, rows_found)]
    told = [(call, [[its[call] for its in of] for of in found]) for call in CALLS] + [("**a second of the loop**, all ports distribute", seconds)]
    told += [(f"{call}, with rows", [[its[call] for its in of] for of in rows_found]) for call in ROWS_CALLS]
    told.append(("**a second of the loop**, with rows", rows_seconds))
    lines = [[name, *("; ".join(f"{whole:,}" for whole in of) for of in values)] for name, values in told]
    shares = [[round(100 * memory / whole) for its in of for whole, memory in its] for of in counted]
    lines.append(["of 100 of these in `memcpy`, `memmove`, `memset`, without rows", *(f"{min(it)} to {max(it)}" for it in shares)])
    return HEAD + "".join("|" + "|".join(line) + "|\n" for line in lines)
