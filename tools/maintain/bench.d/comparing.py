"""c/lag.c by two compilers, the native library and any other liblag.a, beside Open vSwitch's lib/lacp.c, all in one run: an LACPDU that changes nothing, a
tick, a flip with its answer, and the heap of 2 ports."""

from __future__ import annotations

import os
import tempfile

import embedded
import library
import switch
from building import BENCH, log_run, say
from report import PORTS, Table, machine, number
from repository import Missing, read_text, want, write_text

HERE = os.path.join(BENCH, "comparing")
INCLUDE = f"-I{os.path.dirname(library.HEADER)}"
THEIRS = "lacp.c"
HEAP = "heap"
COMPILERS = ("gcc", "clang")
# How many times the time of lacp.c a call may take: with 2 ports, with 8 and with 64.
GOALS = {"LACPDU that changes nothing": (2.5, 3, 3), "tick": (1.5, 1.5, 1.5), "flip and answer": (1.5, 1.5, 1.5)}
MOST_HEAP = 1200


def named(cache: str, folder: str, name: str, made: str) -> str:
    """The object of a library with the calls that are timed, of which only their table is seen from outside."""
    calls, one = f"{folder}/{name}-calls.o", f"{folder}/{name}.o"
    log_run(cache, "comparing", ["gcc", "-O2", "-std=c11", INCLUDE, f"-DNAME={name}", "-c", f"{HERE}/ours.c", "-o", calls])
    library.printed("ld", "-r", "-o", one, calls, "--whole-archive", made, "--no-whole-archive")
    library.printed("objcopy", f"--keep-global-symbol={name}", one)
    return one


def libraries(cache: str, folder: str, others: list[str], with_native: bool) -> dict[str, str]:
    """The libraries by the names that the run has for them."""
    made = {}
    for compiler in COMPILERS:
        made[f"lag_{compiler}"] = f"{folder}/lag_{compiler}-library.o"
        words = [compiler, "-O2", "-fno-stack-protector", "-ffunction-sections", "-fdata-sections", INCLUDE, "-c", library.PORTABLE]
        log_run(cache, "comparing", [*words, "-o", made[f"lag_{compiler}"]])
    if with_native:
        made["native"] = library.archive(folder, library.one_object(folder, library.proved(folder)))
    for it in others:
        name, _, file = it.partition("=")
        if not file or not name.isidentifier() or name in made or not os.path.isfile(file):
            raise Missing(f"{it}: wanted is a NAME of letters, digits and _ that no other has, = and a liblag.a or object")
        made[name] = file
    return made


def program(cache: str, folder: str, sources: str, made: dict[str, str]) -> str:
    """All of them in one program."""
    objects = [named(cache, folder, name, file) for name, file in made.items()]
    objects += embedded.compiled(cache, folder, sources)
    listed, built = " ".join(f"X({name})" for name in made), f"{folder}/compare"
    words = ["gcc", "-O2", "-std=c11", f"-DLIST={listed}", f"{HERE}/compare.c", f"{BENCH}/embedded/heap.c"]
    log_run(cache, "comparing", [*words, "-Wl,--gc-sections", *embedded.WRAPS, *objects, "-o", built])
    return built


class Compared:
    """What one run printed: of a kind of call, so many ports and a library the least time, or of the heap the octets."""

    def __init__(self, text: str) -> None:
        self.found: dict[tuple[str, str, str], float] = {}
        for line in text.splitlines():
            kind, ports, name, least, *_ = line.split("\t")
            self.found[kind, ports, name] = float(least)
        self.names = [name for kind, _, name in self.found if kind == HEAP and name != THEIRS]

    def ratio(self, kind: str, ports: str, name: str) -> float:
        return self.found[kind, ports, name] / self.found[kind, ports, THEIRS]

    def rows(self, kind: str) -> list[tuple[list[str], bool]]:
        rows = [([THEIRS, *(cell for ports in PORTS for cell in (number(self.found[kind, ports, THEIRS]), ""))], True)]
        for name in self.names:
            cells = [(number(self.found[kind, ports, name]), f"{self.ratio(kind, ports, name):.2f}") for ports in PORTS]
            rows.append(([name, *(cell for pair in cells for cell in pair)], True))
        return rows


def print_tables(told: Compared) -> None:
    table = Table()
    for kind in GOALS:
        table.section([f"{kind}, ns", *(cell for ports in PORTS for cell in (f"{ports} ports", "ratio"))], told.rows(kind))
    heap = [([name, f"{told.found[HEAP, '2', name]:,.0f}"], True) for name in (THEIRS, *told.names)]
    table.section(["heap of 2 ports, octets", ""], heap)
    for name in told.names:
        for kind, goals in GOALS.items():
            for ports, most in zip(PORTS, goals):
                table.goal(f"{name}: {kind}, {ports} ports, beside {THEIRS}", told.ratio(kind, ports, name), most)
        table.goal(f"{name}: the heap of 2 ports", told.found[HEAP, "2", name], MOST_HEAP, " octets")
    table.print_goals()


def measure(cache: str, rounds: int, others: list[str], with_native: bool, values: str | None) -> int:
    """Builds all, runs them once, and prints tables; a wrong answer ends the run. What the run printed goes to a file, where one is named."""
    want("gcc", "clang", "ld", "objcopy", "ar")
    sources, version = switch.configured(cache)
    with tempfile.TemporaryDirectory() as folder:
        made = libraries(cache, folder, others, with_native)
        built = program(cache, folder, sources, made)
        say(f"{rounds} rounds of {', '.join(made)}")
        told = library.printed(built, str(rounds))
    versions = "; ".join(library.printed(it, "--version").splitlines()[0] for it in COMPILERS)
    head = f"{machine()}. Open vSwitch {version}; {versions}; -O2; the least of {rounds} rounds in one run."
    print(head)
    print_tables(Compared(told))
    if values:
        words = ["tools/maintain/bench --compare", f"--rounds {rounds}", *(["--no-native"] if not with_native else []), *(f"--library {it.partition('=')[0]}=.." for it in others)]
        write_text(values, f"# {' '.join(words)}\n# {head}\n# kind of call\tports\tlibrary\tleast, ns or octets\tmedian, ns\n{told}")
    return 0
