"""What the tools share: where the repository and the command rt are, what crates.txt says, and how a tool ends.

The tools of tools/ and tools/maintain/ call `run` in their last line; their other modules stand in folders NAME.d.
"""

from __future__ import annotations

import os
import re
import shlex
import shutil
import signal
import subprocess
import sys
from pathlib import Path
from typing import Callable, NoReturn

TOOLS = os.path.dirname(os.path.abspath(__file__))
# The tools of who changes the project; those that a user runs stand in tools/ itself.
MAINTAIN = os.path.join(TOOLS, "maintain")
TOP = os.path.dirname(TOOLS)
CRATES = os.path.join(TOP, "crates")
# Where tools keep what they fetch: rt wants no links of folders in the repository.
CACHE = os.environ.get("XDG_CACHE_HOME") or os.path.expanduser("~/.cache")
# The program that tools/lagtool --prove makes; and that which tools run: it, or one that LAGTOOL names.
MADE = os.path.join(CRATES, "lagtool", "out", "lagtool")
PROGRAM = os.environ.get("LAGTOOL", MADE)
# What tools/test leaves: what names the sources that it ran on, and the last line of `rt ci`. The programs and tests that it made stand in the folders out/ of crates.
VERDICT = os.path.join(TOP, "out", "verdict")
RT = os.environ.get("RT", "rt")
CC = os.environ.get("CC", "cc")
# CC may be words, such as `ccache gcc`: what a command line begins with.
COMPILER = [CC] if shutil.which(CC) else shlex.split(CC)
# No program in C or C++ here has a warning.
WARNINGS = ["-Wall", "-Wextra", "-Wpedantic", "-Wconversion", "-Werror"]
# What a command is for, where it is not here.
WHY = {RT: "it comes with the Rattle toolchain (README.md), and RT may name it", CC: "a C compiler, which CC may name"}


class Missing(Exception):
    """Something that the tool needs is not here, or failed: what is told of it."""


def read_text(path: str | Path) -> str:
    return Path(path).read_text(encoding="utf-8")


def read_bytes(path: str | Path) -> bytes:
    return Path(path).read_bytes()


def write_text(path: str | Path, text: str) -> None:
    Path(path).write_text(text, encoding="utf-8")


def write_bytes(path: str | Path, octets: bytes) -> None:
    Path(path).write_bytes(octets)


def want(*names: str) -> None:
    """Stops the tool where one of these commands is not here. Of words, such as `ccache gcc`, the first one is the command."""
    for name in names:
        if not any(map(shutil.which, (name, *name.split()[:1]))):
            raise Missing(f"there is no command {name} in PATH" + (f": {WHY[name]}" if name in WHY else ""))


def kit() -> str:
    """The folder of the toolchain."""
    want(RT)
    told = subprocess.run([RT, "doc"], stdin=subprocess.DEVNULL, capture_output=True, text=True)
    if told.returncode or not told.stdout.strip():
        raise Missing(f"{RT} doc tells no page of the toolchain: {told.stderr.strip()[-400:]}")
    return os.path.dirname(told.stdout.strip().splitlines()[-1])


def daemon_words() -> tuple[list[str], list[str]]:
    """With which words the daemon is compiled, and with which it is linked: those of libinih, libmnl, libcap-ng and libbpf, and of libsystemd
    where that is here. Its Makefile makes the programs of the kernel, which it has in it."""
    want("pkg-config", "make")
    names = "inih", "libmnl", "libsystemd", "libcap-ng", "libbpf"
    found = [name for name in names if not subprocess.run(["pkg-config", "--exists", name]).returncode]
    for name, package in ("inih", "libinih-dev"), ("libmnl", "libmnl-dev"), ("libcap-ng", "libcap-ng-dev"), ("libbpf", "libbpf-dev"):
        if name not in found:
            raise Missing(f"the daemon needs {name}, and pkg-config finds none (Debian: {package})")
    defined = {"libsystemd": "-DHAVE_SYSTEMD"}
    told = [subprocess.run(["pkg-config", kind, *found], capture_output=True, text=True).stdout.split() for kind in ("--cflags", "--libs")]
    return [*(defined[name] for name in found if name in defined), "-isystem", kernel_programs(), *told[0]], told[1]


def kernel_programs(name: str = "programs", sources: str = "kernel") -> str:
    """The folder in which the daemon's Makefile makes a header of these programs of the kernel, after that is done."""
    daemon = os.path.join(TOP, "lagd")
    made = subprocess.run(["make", "-s", "-C", daemon, f"KERNEL={sources}", f"out/{name}.skel.h"], capture_output=True, text=True)
    if made.returncode:
        raise Missing(f"the programs of the kernel are not made: {made.stderr.strip()[-800:]}")
    return os.path.join(daemon, "out")


def with_pytest() -> str:
    """A Python that has pytest."""
    for name in filter(None, (os.environ.get("PYTHON"), sys.executable, "/usr/bin/python3")):
        if shutil.which(name) and not subprocess.run([name, "-c", "import pytest"], capture_output=True).returncode:
            return name
    raise Missing("no Python here has pytest (Debian: python3-pytest); PYTHON may name one")


def runtime() -> str:
    """The C part of the toolchain, with which the C library is linked."""
    return os.path.join(kit(), "c", "liblibc_c.a")


def lines() -> dict[str, str]:
    """The lines of crates.txt, without comments, by the names of their crates."""
    rows = [line.split("#")[0].strip() for line in read_text(os.path.join(TOP, "crates.txt")).splitlines()]
    return {re.split("[ :]", row)[0]: row for row in rows if row}


def crates() -> dict[str, list[str]]:
    """The crates of the repository, each with those of the repository that it uses."""
    listed = lines()
    return {name: [it for it in row.partition(":")[2].split() if it in listed] for name, row in listed.items()}


def below(*names: str) -> list[str]:
    """These crates and all crates of the repository that they stand on, lowest first."""
    uses = crates()
    found: list[str] = []

    def add(name: str) -> None:
        if name not in found:
            for it in uses[name]:
                add(it)
            found.append(name)

    for name in names:
        add(name)
    return found


def tested_sources() -> str | None:
    """What git names the sources that the test command proves, and the toolchain; None where they are of no commit, or git or the toolchain is not here."""
    its = ("crates", "crates.txt", "HANDLES")
    wanted = ["git", "rev-parse", *(f"HEAD:{it}" for it in its)], ["git", "status", "--porcelain", "--", *its], [RT, "version"]
    try:
        asked = [subprocess.run(words, cwd=TOP, capture_output=True, text=True) for words in wanted]
    except OSError:
        return None
    return None if any(it.returncode for it in asked) or asked[1].stdout else " ".join((asked[0].stdout + asked[2].stdout).split())


def verdict() -> str | None:
    """The last line of the test command for these sources, where it ran here; else None."""
    try:
        tested, line = read_text(VERDICT).split("\n")[:2]
    except (OSError, ValueError):
        return None
    return line if tested == tested_sources() else None


def has_passed() -> bool:
    """Whether the test command passed here on these sources."""
    return bool(re.match(r"[1-9]\d* passed, 0 failed", verdict() or ""))


def stood_at_verdict(path: str) -> bool:
    """Whether this file, or folder, stood there as the test command ended: another command may have made it since, of other sources."""
    return os.path.exists(path) and os.path.getmtime(path) <= os.path.getmtime(VERDICT)


def is_made_by_gate(path: str) -> bool:
    """Whether this file is one that the test command made of these sources, and passed."""
    return has_passed() and stood_at_verdict(path)


def make_program() -> None:
    """Makes the proved program, where it is missing or older than its sources and LAGTOOL names none, and looks that it works."""
    if PROGRAM == MADE and not is_made_by_gate(MADE) and subprocess.run([os.path.join(TOOLS, "lagtool"), "--prove"]).returncode:
        raise Missing("the program is not proved, as the lines above say")
    if subprocess.run([PROGRAM, "check", os.devnull], stdout=subprocess.DEVNULL).returncode:
        raise Missing(f"{PROGRAM} check fails, as the lines above say")


def hear_signals() -> None:
    """Has the signals by which a daemon ends or reads its file anew no longer ignored, as nohup has SIGHUP: a daemon leaves what is ignored so."""
    for it in signal.SIGHUP, signal.SIGINT, signal.SIGQUIT:
        if signal.getsignal(it) == signal.SIG_IGN:
            signal.signal(it, signal.SIG_DFL)


def say(text: object) -> None:
    """Tells a line on standard error, under the name of the tool."""
    print(f"{os.path.basename(sys.argv[0])}: {text}", file=sys.stderr, flush=True)


def tally(passed: int, failed: int) -> int:
    """Prints the last line of a tool that checks something; answers its status."""
    print(f"{passed} passed, {failed} failed")
    return int(failed > 0)


def run(main: Callable[[], int | None], told: str | None = None) -> NoReturn:
    """Runs a tool; --help alone prints what is told of it, where that is given. Where something is missing it ends with a line and status 2."""
    try:
        status = print(told, end="") if told and sys.argv[1:] in (["--help"], ["-h"]) else main()
        sys.stdout.flush()
        sys.exit(status)
    except BrokenPipeError:
        # Nobody reads on: there is nothing to say, and nothing is left to write at the end.
        os.dup2(os.open(os.devnull, os.O_WRONLY), 1)
        sys.exit(141)
    except (Missing, OSError) as why:
        say(why)
        sys.exit(2)
    except KeyboardInterrupt:
        sys.exit(130)
