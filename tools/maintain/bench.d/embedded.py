"""liblag.a beside Open vSwitch's lib/lacp.c, each compiled for a program that has one LAG and nothing else: code, memory and times."""

from __future__ import annotations

import os
import shutil
import tempfile

import library
import switch
from building import BENCH, build_harness, log_run, say
from report import PORTS, Measured, Table, machine
from repository import read_text, want, write_text
from stacks import deepest

RUNS = 5
SAME, HEAP = "an LACPDU that changes nothing", "octets of the heap"
# What of Open vSwitch LACP needs, beside stand-ins for its threads, clock and log.
PARTS = ("lacp", "hmap")
# Each function by itself: the linker drops what nobody calls, and what it wants.
SMALL = ["-O2", "-ffunction-sections", "-fdata-sections"]
# For firmware, by -Os on Thumb-2: the headers of Open vSwitch want those of Linux, so the compiler is that of Linux. The calls of a program, its ports.
ARM, RUNS_ARM = "arm-linux-gnueabihf-gcc", "qemu-arm"
THUMB = [ARM, "-mcpu=cortex-m4", "-mthumb", "-mfloat-abi=soft", "-fno-pie", "-fno-asynchronous-unwind-tables"]
CALLED = ["create", "configure", "destroy", "member_register", "member_unregister", "member_carrier_changed", "process_packet", "run", "member_may_enable"]
HELD_PORTS = (2, 24)
ALONE = ["-static", "-nostdlib", "-Wl,--gc-sections,--unresolved-symbols=ignore-all,--build-id=none,-e,lacp_run"]
WRAPS = [f"-Wl,--wrap={name}" for name in ("malloc", "calloc", "realloc", "free")]


def text(file: str) -> int:
    """The octets of code and constants of an object or a library."""
    return int(library.printed("size", "-t", file).splitlines()[-1].split()[0])


def compiled(cache: str, folder: str, sources: str) -> list[str]:
    """The objects of Open vSwitch's side."""
    files = [*(f"{sources}/lib/{name}.c" for name in PARTS), *(f"{BENCH}/embedded/{name}.c" for name in ("ovs", "standing"))]
    made = []
    for file in files:
        made.append(f"{folder}/{os.path.basename(file)}.o")
        words = ["-D_GNU_SOURCE", "-DHAVE_CONFIG_H", f"-I{sources}/include", f"-I{sources}/lib", f"-I{sources}"]
        log_run(cache, "embedded", ["gcc", *SMALL, *words, "-c", file, "-o", made[-1]])
    return made


def ran(program: str) -> Measured:
    # What is freed goes back at once, so that the heap is what is held.
    return Measured(library.printed(program, "2", "beside", env={**os.environ, "GLIBC_TUNABLES": "glibc.malloc.tcache_count=0"}))


def pairs(runs: list[Measured], name: str, ports: str) -> list[tuple[float, float]]:
    """Ours and theirs in each run."""
    if name == HEAP:
        return [(ours, theirs) for it in runs for ours, theirs in [it.counts["heap", ports]]]
    return [(it.times["beside", name, ports, "ours"], it.times["beside", name, ports, "theirs"]) for it in runs]


def row(runs: list[Measured], name: str) -> tuple[list[str], bool]:
    """A row of the table: of each size ours, theirs and the ratio, from the lowest to the highest of the runs; and whether all answers were right."""
    cells = [name]
    for ports in PORTS:
        found = pairs(runs, name, ports)
        told = [sorted(a for a, _ in found), sorted(b for _, b in found)]
        shown = [[f"{it:,.0f}" for it in each] for each in told] + [[f"{it:.2f}" for it in sorted(a / b for a, b in found)]]
        cells += [it[0] if it[0] == it[-1] else f"{it[0]}-{it[-1]}" for it in shown]
    return cells, not any(wrong for run in runs for (_, which, *_), wrong in run.wrong.items() if which == name)


def theirs(sources: str, folder: str) -> str:
    """The table of what lib/lacp.c takes of firmware: code and constants, data, octets of the heap, and the deepest stack of its calls."""
    os.makedirs(f"{folder}/gnu", exist_ok=True)
    write_text(f"{folder}/gnu/stubs-soft.h", "")
    words = ["-Os", "-ffunction-sections", "-fdata-sections", "-D_GNU_SOURCE", "-DHAVE_CONFIG_H", f"-I{folder}", *(f"-I{sources}/{it}" for it in ("include", "lib", ""))]
    parts, made, graph = [*(f"{sources}/lib/{name}.c" for name in PARTS), f"{BENCH}/embedded/standing.c"], [], ""
    for part in parts:
        made.append(f"{folder}/{os.path.basename(part)}.thumb.o")
        library.printed(*THUMB, *words, "-fcallgraph-info=su", "-c", "-o", made[-1], part)
        graph += read_text(f"{made[-1].removesuffix('.o')}.ci")
    names = [f"lacp_{it}" for it in CALLED]
    library.printed(*THUMB, *ALONE, *(f"-Wl,-u,{it}" for it in names), "-o", f"{folder}/alone", *made)
    code, data = library.printed(ARM.replace("gcc", "size"), f"{folder}/alone").splitlines()[1].split()[:2]
    own, ports = [f"{BENCH}/embedded/{it}.c" for it in ("ovs", "heap", "held")], ",".join(map(str, HELD_PORTS))
    library.printed(ARM, *words, f"-DHELD_PORTS={ports}", "-static", *WRAPS, "-Wl,--gc-sections", "-o", f"{folder}/held", *parts, *own)
    held = library.printed(RUNS_ARM, f"{folder}/held").split()
    rows = [("code and constants", code), ("data", data), *((f"heap, {of} ports", it) for of, it in zip(HELD_PORTS, held)), ("stack", str(deepest(graph, names)))]
    return "|lib/lacp.c by -Os, Thumb-2, octets||\n|---|---:|\n" + "".join(f"|{name}|{int(it):,}|\n" for name, it in rows)


def measure(cache: str) -> int:
    """Builds both, runs the program, and prints two tables."""
    want("gcc", "clang", "size", "ld", "objcopy", "ar")
    sources, version = switch.configured(cache)
    with tempfile.TemporaryDirectory() as folder:
        lag = library.archive(folder, library.one_object(folder, library.proved(folder)))
        objects = compiled(cache, folder, sources)
        program = build_harness(cache, ["-DBESIDE", "-Wl,--gc-sections", *objects, lag], "beside")
        say(f"{RUNS} runs")
        runs = [ran(program) for _ in range(RUNS)]
        sizes = {"liblag.a": text(lag), "lib/lacp.c": text(objects[0]), "lib/hmap.c": text(objects[1])}
        firmware = theirs(sources, folder) if shutil.which(ARM) and shutil.which(RUNS_ARM) else f"skipped: lib/lacp.c on Thumb-2 wants {ARM} and {RUNS_ARM}\n"
    print(f"{machine()}. Open vSwitch {version}; {RUNS} runs, of each the lowest and the highest figure.")
    table = Table()
    table.section(["code and constants, octets", ""], [([name, f"{octets:,}"], True) for name, octets in sizes.items()])
    head = ["ns a call; octets", *(it for ports in PORTS for it in (f"ours, {ports} ports", "theirs", "ratio"))]
    table.section(head, [row(runs, name) for name in (HEAP, *runs[0].names("beside"))])
    for ports in PORTS:
        table.goal(f"{SAME}, {ports} ports, beside lib/lacp.c, in the run that comes nearest", min(a / b for a, b in pairs(runs, SAME, ports)), 3)
    table.goal("the heap of 2 ports", pairs(runs, HEAP, "2")[0][0], 2048, " octets")
    table.print_goals()
    print(f"\n{firmware}\n{table.rows} rows, {table.wrong} wrong")
    return 1 if table.wrong else 0
