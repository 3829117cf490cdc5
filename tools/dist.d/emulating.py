"""Tries what was built for another processor as it is tried on this one, by qemu, but for what wants the kernel: packet sockets and
network namespaces, which qemu has not for a program alone."""

from __future__ import annotations

import os
import re
import subprocess
import tempfile

from counting import Count, clean, ran
from processors import ARM64, Processor
from repository import CACHE, MAINTAIN, TOP, write_text

# Debian's Python of arm64, which is fetched once and not installed: beside that of this machine apt installs none.
TREE = os.path.join(CACHE, "niwhopera-dist", "arm64")
VERSION = "3.11"
PYTHON = os.path.join(TREE, "usr", "bin", f"python{VERSION}")
PARTS = [f"python{VERSION}-minimal", f"libpython{VERSION}-minimal", f"libpython{VERSION}-stdlib", "libexpat1", "zlib1g", "libffi8", "libssl3"]
PURE = ["python3-pytest", "python3-iniconfig", "python3-packaging", "python3-pluggy", "python3-attr", "python3-more-itertools"]


def fetched() -> str:
    """Fetches Debian's Python of arm64; answers why not."""
    os.makedirs(TREE, exist_ok=True)
    names = [*(f"{it}:{ARM64.name}" for it in PARTS), *PURE]
    with tempfile.TemporaryDirectory() as folder:
        got = ran(["apt-get", "-q", "-o", "APT::Sandbox::User=root", "download", *names], cwd=folder)
        if got.returncode:
            return (got.stderr or got.stdout).strip()[-200:]
        for file in sorted(os.listdir(folder)):
            unpacked = ran(["dpkg-deb", "-x", os.path.join(folder, file), TREE])
            if unpacked.returncode:
                return unpacked.stderr.strip()[-200:]
    return ""


def python() -> list[str]:
    """What runs Python on arm64; nothing, with a line, where there is none."""
    why = "" if os.path.exists(PYTHON) else fetched()
    if why or not os.path.exists(PYTHON):
        print(f"skipped: the Python module: no Python of arm64: {why}")
        return []
    return [*ARM64.runs, "-L", TREE, PYTHON]


def try_tool(count: Count, name: str, words: list[str], given: dict[str, str]) -> None:
    """Runs a check of tools/maintain, and counts what it counts."""
    print(f"{name} {' '.join(words)}:", flush=True)
    ended = subprocess.run([os.path.join(MAINTAIN, name), *words], cwd=TOP, env={**os.environ, **given}, stdout=subprocess.PIPE, text=True)
    told = ended.stdout.splitlines()
    last = re.fullmatch(r"(\d+) passed, (\d+) failed", told[-1]) if told else None
    print(*(it for it in told[:-1] if not it.startswith("passed: ")), sep="\n", flush=True)
    if not last:
        count.add(f"{name} ends with its counts", f"status {ended.returncode}")
        return
    count.passed, count.failed = count.passed + int(last[1]), count.failed + int(last[2])


def wrapper(folder: str, words: list[str]) -> str:
    """A program of this machine that runs one of the processor."""
    made = os.path.join(folder, os.path.basename(words[-1]))
    write_text(made, f"#!/bin/sh\nexec {' '.join(words)} \"$@\"\n")
    os.chmod(made, 0o755)
    return made


# Runs pytest with a Python that tests can start as a program: the wrapper, which its first word names.
PYTEST = "import sys, pytest; sys.executable = sys.argv.pop(1); sys.exit(pytest.main(sys.argv[1:]))"


def try_python_tests(count: Count, library: str, folder: str) -> None:
    """Runs the tests of the Python module."""
    by = python()
    if not by:
        return
    given = {"NIWHOPERA_LIBRARY": library, "PYTHONPATH": f"{TREE}/usr/lib/python3/dist-packages:{TOP}/python", "PYTHONDONTWRITEBYTECODE": "1"}
    given["EMULATED_BY"] = by[0]
    words = [*by, "-W", "error", "-c", PYTEST, wrapper(folder, by), "-q", "-rs", "-p", "no:cacheprovider", "tests"]
    ended = subprocess.run(words, cwd=os.path.join(TOP, "python"), env={**clean(), **given}, capture_output=True, text=True)
    told = ended.stdout.strip().splitlines()
    counts = {word: int(number) for number, word in re.findall(r"(\d+) (passed|failed|error)", told[-1] if told else "")}
    failed = counts.get("failed", 0) + counts.get("error", 0) or int(ended.returncode != 0)
    shown = told[-40:] if failed else [it for it in told if it.startswith("SKIPPED ")] + told[-1:]
    print("the tests of the Python module:", *shown, ended.stderr[-400:], sep="\n", flush=True)
    count.passed, count.failed = count.passed + counts.get("passed", 0), count.failed + failed


def tried(count: Count, root: str, processor: Processor) -> None:
    """Tries what an archive has, which is unpacked."""
    with tempfile.TemporaryDirectory() as folder:
        program = wrapper(folder, [*processor.runs, os.path.join(root, "bin", "lagtool")])
        by = " ".join(processor.runs)
        try_tool(count, "live", ["--library"], {"CC": processor.compiler, "RUN_BY": by, "LIBRARY": os.path.join(root, "lib", "liblag.a")})
        try_tool(count, "examples", [], {"LAGTOOL": program})
        try_tool(count, "capture-tests", [], {"LAGTOOL": program})
        try_python_tests(count, os.path.join(root, "lib", "liblag.so.0"), folder)
