"""Builds what is timed: the harness over the C library, by gcc and clang. All of it, and what is fetched, lies in a cache folder outside the tree."""

from __future__ import annotations

import os
import subprocess

import library
from repository import Missing

BENCH = os.path.dirname(os.path.abspath(__file__))


def say(text: str) -> None:
    print(f"tools/maintain/bench: {text}", flush=True)


def log_run(cache: str, log: str, words: list[str], cwd: str | None = None, env: dict[str, str] | None = None) -> None:
    """Runs the words, and adds what they print to the log of this name."""
    file = f"{cache}/{log}.log"
    with open(file, "a") as it:
        ended = subprocess.run(words, cwd=cwd, env=env, stdin=subprocess.DEVNULL, stdout=it, stderr=subprocess.STDOUT)
    if ended.returncode:
        raise Missing(f"{' '.join(words)[:100]} ended with {ended.returncode}; {file} has what it printed")


def build_harness(cache: str, parts: list[str], name: str = "harness") -> str:
    """Builds the harness over a library; answers its file."""
    sources, built = f"{BENCH}/harness", f"{cache}/built"
    os.makedirs(built, exist_ok=True)
    codecs = []
    for compiler, level in ("gcc", "-O2"), ("clang", "-O3"):
        codecs.append(f"{built}/codec_{compiler}.o")
        log_run(cache, "harness", [compiler, level, f"-DPREFIX={compiler}_", "-c", f"{sources}/codec.c", "-o", codecs[-1]])
    words = ["gcc", "-O2", "-std=c11", f"-I{os.path.dirname(library.HEADER)}", "-o", f"{built}/{name}", f"{sources}/times.c"]
    log_run(cache, "harness", [*words, *codecs, *parts])
    return f"{built}/{name}"
