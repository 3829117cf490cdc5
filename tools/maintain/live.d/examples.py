"""The example in C that README.md names, and the same in Rust: each builds without a warning and prints what README says. The C of
docs/USING.md and docs/FIRMWARE.md stands in programs that run."""

from __future__ import annotations

import glob
import os
import re
import shutil

import library
from checking import check, command
from linking import EXAMPLES, RUN_BY, STRICT, build, ran
from repository import COMPILER, MAINTAIN, TOP, read_text

EXAMPLE = os.path.join(EXAMPLES, "two_ends.c")
CARGO = os.path.join(TOP, "examples", "rust", "Cargo.toml")
LARGER = ["-DPORTS=8", "-DLAGS=4"]
PRINTS = "both ends distribute after 30 ticks of 100 ms\n"


def check_example(folder: str, libraries: list[str]) -> None:
    told = ran(build(os.path.join(folder, "two_ends"), [EXAMPLE], libraries, *STRICT, "-Werror"))
    check(told.returncode == 0 and told.stdout == PRINTS, "examples/c/two_ends.c prints what README says", told.stdout + told.stderr)
    check(PRINTS.strip() in read_text(f"{TOP}/README.md"), "README says what it prints")


def check_programs(folder: str, libraries: list[str]) -> None:
    """Each program of examples/c that has a text beside it prints that text; what it measures goes to standard error. large_chip.c and pool.c have a library of
    their own, and pool.c prints the same of a larger switch; the others that are named print the same by both libraries."""
    pooled = ["-DNIW_POOL", library.PORTABLE]
    both = [libraries, pooled]
    ways = {"large_chip": [pooled], "pool": [pooled, [*pooled, *LARGER]]}
    ways |= dict.fromkeys(("hash_buckets_64", "restarts", "restarts_rows", "two_handles"), both)
    for text in sorted(glob.glob(f"{EXAMPLES}/*.txt")):
        name = os.path.basename(text).removesuffix(".txt")
        wanted = read_text(text)
        for linked in ways.get(name, [libraries]):
            told = ran(build(os.path.join(folder, name), [os.path.join(EXAMPLES, f"{name}.c")], linked, *STRICT))
            named = " ".join([f"examples/c/{name}.c", *(it for it in linked if it.startswith("-D"))])
            check(told.returncode == 0 and told.stdout == wanted, f"{named} prints what stands beside it", told.stdout + told.stderr)


def check_no_libc(folder: str, libraries: list[str]) -> None:
    """The library works without a C library, over the functions that docs/USING.md lists, and lag.h without its headers: with the compiler's alone."""
    headers = command(*COMPILER, "-print-file-name=include").stdout.strip()
    words = [*STRICT, "-ffreestanding", "-nostdinc", "-isystem", headers, "-nostdlib", "-static"]
    told = ran(build(os.path.join(folder, "no_libc"), [os.path.join(EXAMPLES, "no_libc.c")], libraries, *words))
    check(told.returncode == 0, "examples/c/no_libc.c: two ends come up without a C library", f"it ended with {told.returncode}")


def check_quotes() -> None:
    """Each block of C in docs/USING.md and docs/FIRMWARE.md stands in a program that is compiled and run; `...` leaves lines out."""
    sources = [*sorted(glob.glob(f"{EXAMPLES}/*.[ch]")), os.path.join(MAINTAIN, "live.d", "planes.c")]
    texts = [open(it, encoding="utf-8").read() for it in sources]
    blocks = []
    for name in "USING", "FIRMWARE":
        blocks += re.findall(r"^```c\n(.*?)^```$", read_text(f"{TOP}/docs/{name}.md"), re.M | re.S)
    parts = [part for block in blocks for part in block.split("...\n")]
    strange = [part for part in parts if not any(part in text for text in texts)]
    check(bool(parts) and not strange, f"the {len(parts)} pieces of C in docs/USING.md and docs/FIRMWARE.md stand in programs that run", *strange)


def check_rust_example(folder: str, libraries: list[str]) -> None:
    """Skipped, with a line, where there is no cargo, or only one of another processor."""
    if RUN_BY or not shutil.which("cargo"):
        print(f"skipped: examples/rust: {'no cargo of this processor' if RUN_BY else 'no command cargo in PATH'}", flush=True)
        return
    linked = os.path.join(folder, "linked")
    os.makedirs(linked)
    library.archive(linked, library.one_object(linked, libraries))
    words = {"LAG_FOLDER": linked, "CARGO_TARGET_DIR": os.path.join(folder, "cargo"), "RUSTFLAGS": "-D warnings"}
    told = command("cargo", "run", "--quiet", "--offline", "--locked", "--manifest-path", CARGO, env={**os.environ, **words})
    check(told.returncode == 0 and told.stdout == PRINTS, "examples/rust prints what README says", told.stdout + told.stderr)
