"""Tests of hosts/shared/lag_end.h and lag_state.h, and a fuzzer of this."""

from __future__ import annotations

import os
import shutil
import subprocess

from built import HOSTS, Built
from checking import check, counted
from library import HEADER
from repository import WARNINGS

SECONDS = 20


def words_of(built: Built, name: str) -> list[str]:
    """What a compiler wants of a program of the tests."""
    return ["-g", f"-I{HOSTS}/shared", f"-I{os.path.dirname(HEADER)}", os.path.join(HOSTS, "shared", "tests", f"{name}.c"), *built.archives()]


def try_program(built: Built, name: str, what: str) -> str:
    """Runs one with the sanitizers; answers where it stands."""
    program = f"{built.folder}/{name}"
    built.compile("-std=gnu11", *WARNINGS, "-fsanitize=address,undefined", "-o", program, *words_of(built, name))
    told = subprocess.run([program], capture_output=True, text=True)
    passed = told.stdout.count("passed: ")
    counted["passed"] += passed
    check(told.returncode == 0 and passed, f"{passed} tests of {what} pass", told.stdout[-1500:], told.stderr[-1500:])
    return program


def try_states(built: Built) -> None:
    try_program(built, "end", "an end that follows another one")
    try_program(built, "service", "an end in service")
    program = try_program(built, "state", "a state")
    fuzzer, corpus = (f"{built.folder}/{it}" for it in ("fuzz-state", "corpus"))
    made = shutil.which("clang") and subprocess.run(["clang", "-std=gnu11", "-O1", "-DFUZZ", "-fsanitize=fuzzer,address,undefined", "-o", fuzzer, *words_of(built, "state")], capture_output=True).returncode == 0
    if not made:
        print("skipped: no clang that has libFuzzer")
        return
    os.makedirs(corpus)
    subprocess.run([program, f"{corpus}/seed"], check=True)
    told = subprocess.run([fuzzer, f"-max_total_time={SECONDS}", "-max_len=3000", corpus], capture_output=True, text=True, cwd=built.folder)
    check(told.returncode == 0, f"{SECONDS} s of octets make no strange state", told.stderr[-1500:])
