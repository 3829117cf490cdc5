"""The sources by stock Rust: whether a cargo is here that builds them, and what its tests say.

CARGO names the cargo; where it is given and empty, none is taken. As a program this prints which cargo builds the C library for the processor of CC, and
nothing where none does.
"""

from __future__ import annotations

import os
import re
import shutil
import subprocess
import sys
from typing import NamedTuple

from repository import COMPILER, TOP, Missing, read_text, say

# Nothing is fetched: all that is built stands in the repository.
OFFLINE = "--offline"
PACKAGES = "Debian: rustc-web and cargo-web"
CARGO = os.environ.get("CARGO", "cargo")


class Tests(NamedTuple):
    """What the tests of the crates said."""

    passed: int
    failed: int


def wanted() -> tuple[int, ...]:
    """The version of Rust that the workspace wants at the least."""
    found = re.search(r'^rust-version = "([\d.]+)"', read_text(os.path.join(TOP, "Cargo.toml")), re.M)
    if not found:
        raise Missing("Cargo.toml names no rust-version")
    return tuple(map(int, found[1].split(".")))


def version() -> str:
    """What cargo says of itself."""
    return subprocess.run([CARGO, "--version"], cwd=TOP, capture_output=True, text=True).stdout.strip()


def is_for_compiler() -> bool:
    """Whether cargo builds for the processor of the C compiler."""
    told = subprocess.run([CARGO, "-vV"], cwd=TOP, capture_output=True, text=True).stdout
    host = re.search(r"^host: (\w+)-", told, re.M)
    of_compiler = subprocess.run([*COMPILER, "-dumpmachine"], capture_output=True, text=True).stdout
    return bool(host) and of_compiler.split("-")[0] == (host[1] if host else "")


def missing() -> str:
    """Why cargo builds nothing here; "" where it does."""
    least = ".".join(map(str, wanted()))
    if not shutil.which(CARGO):
        return f"there is no cargo ({PACKAGES}; {least} or later)"
    told = version()
    found = re.search(r"\b(\d+)\.(\d+)\.\d+", told)
    if not found or (int(found[1]), int(found[2])) < wanted():
        return f"cargo is older than {least}: {told} ({PACKAGES})"
    return ""


def target() -> str:
    """The folder in which cargo builds."""
    return os.environ.get("CARGO_TARGET_DIR") or os.path.join(TOP, "target")


def make_ready() -> None:
    """Has out/rust be what the sources of now give, before cargo reads the workspace."""
    made = subprocess.run([CARGO, "run", "--quiet", OFFLINE, "--package", "eraser"], cwd=TOP, capture_output=True, text=True)
    if made.returncode:
        raise Missing(f"facade/eraser does not read the sources: {made.stderr.strip()[-800:]}")


def tests() -> Tests:
    """Runs the tests of all crates, and passes on what they print. One that is not built is one that failed."""
    make_ready()
    passed = failed = 0
    with subprocess.Popen([CARGO, "test", OFFLINE, "--no-fail-fast"], cwd=TOP, stdout=subprocess.PIPE, text=True) as ran:
        for line in ran.stdout or ():
            counted = re.match(r"test result: \w+\. (\d+) passed; (\d+) failed", line)
            if counted:
                passed, failed = passed + int(counted[1]), failed + int(counted[2])
            elif not re.match(r"test \S+ \.\.\. ok$|running \d+ tests?$|$", line):
                print(line, end="", flush=True)
    if ran.returncode and not failed:
        failed = 1
        say("cargo test builds not all tests, as the lines above say")
    return Tests(passed, failed)


if __name__ == "__main__":
    # CC and cargo may be missing, and cargo may be too old: then c/lag.c is the library.
    if os.path.exists(os.path.join(TOP, "Cargo.toml")) and not missing() and is_for_compiler():
        print(version())
    sys.exit(0)
