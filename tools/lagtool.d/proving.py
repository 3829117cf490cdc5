"""Proves and builds the program: libraries that have nothing in common side by side, the rest in turn."""

from __future__ import annotations

import contextlib
import os
import signal
import subprocess
import sys
import threading
import time
from concurrent.futures import ThreadPoolExecutor

from lanes import lanes
from repository import CRATES, RT, Missing, below, crates, say

# The most jobs that rt takes for a check of its own accord.
JOBS = 4
# For how many seconds what is stopped may end by itself.
PATIENCE = 5


def spoken(seconds: float) -> str:
    return f"{seconds / 60:.0f} minutes" if seconds >= 120 else f"{seconds:.0f} seconds"


def apart(name: str) -> tuple[list[list[str]], list[str]]:
    """The libraries below a crate, lowest first: lists without a crate in common, none of which stands on another, and the rest.
    `rt` keeps a crate and all below it to itself, so those alone can be proved side by side."""
    uses = crates()
    found: dict[str, list[str]] = {}
    rest: list[str] = []
    for crate in below(name)[:-1]:
        lowest = [it for it in below(crate) if not uses[it]]
        (found.setdefault(lowest[0], []) if len(lowest) == 1 else rest).append(crate)
    return list(found.values()), rest


def size(crate: str) -> int:
    """The octets of a crate's code, definitions and proofs, by which the longest list is found. They say nothing of minutes: the last
    crate is small, and takes as long as many others together."""
    folders = [os.path.join(CRATES, crate, part) for part in ("src", "specs", "proofs")]
    return sum(os.path.getsize(os.path.join(at, it)) for folder in folders for at, _, files in os.walk(folder) for it in files)


class Proof:
    """The proof of a program. What `rt` prints goes to a file of its folder out/."""

    def __init__(self, name: str) -> None:
        self.name, self.all = name, below(name)
        self.sizes = {crate: size(crate) for crate in self.all}
        self.log = os.path.join(CRATES, name, "out", "proof.log")
        self.proved: set[str] = set()
        self.running: set[subprocess.Popen[bytes]] = set()
        self.shown, self.is_stopped, self.began = "", False, time.time()
        self.jobs = min(lanes(), JOBS)
        self.lock, self.starting = threading.Lock(), threading.Lock()

    def __enter__(self) -> Proof:
        os.makedirs(os.path.dirname(self.log), exist_ok=True)
        with open(self.log, "w", encoding="utf-8"):
            return self

    def __exit__(self, *_: object) -> None:
        self.stop()
        if self.shown and sys.stderr.isatty():
            print("\r\033[K", end="", file=sys.stderr, flush=True)

    def stop(self) -> None:
        """Ends what runs, with what that started, and begins nothing more."""
        with self.starting:
            self.is_stopped, running = True, list(self.running)
        for ends in signal.SIGTERM, signal.SIGKILL:
            for it in running:
                with contextlib.suppress(ProcessLookupError, subprocess.TimeoutExpired):
                    os.killpg(it.pid, ends)
                    it.wait(PATIENCE)

    def make(self) -> None:
        """Proves all; stops where that fails."""
        lists, rest = apart(self.name)
        longest: list[str] = max(lists, key=lambda names: sum(self.sizes[it] for it in names), default=[])
        with ThreadPoolExecutor(lanes()) as pool:
            try:
                for proved in [pool.submit(self.prove_each, it, self.jobs if it is longest else 1) for it in lists]:
                    proved.result()
                pool.submit(self.prove_each, [*rest, self.name], self.jobs).result()
            except BaseException:
                # The pool ends once its threads do, and those once what they wait for does.
                self.stop()
                raise

    def prove_each(self, names: list[str], jobs: int) -> None:
        for name in names:
            words = ["run"] if name == self.name else ["lib"]
            self.prove(name, [RT, *words, "--jobs", str(jobs), *(["--", "--help"] if name == self.name else [])])

    def prove(self, crate: str, words: list[str]) -> None:
        """Proves and builds one crate, in a process group of its own."""
        with open(self.log, "a", encoding="utf-8") as log:
            folder, nothing = os.path.join(CRATES, crate), subprocess.DEVNULL
            with self.starting:
                if self.is_stopped:
                    return
                ran = subprocess.Popen(words, cwd=folder, stdin=nothing, stdout=log, stderr=log, start_new_session=True)
                self.running.add(ran)
            ran.wait()
            self.running.remove(ran)
        if self.is_stopped:
            return
        if ran.returncode:
            self.stop()
            raise Missing(f"the program could not be proved: {crate} failed, and {self.log} has what rt said")
        self.proved.add(crate)
        if self.shown:
            self.show(self.shown)

    def show(self, what: str) -> None:
        """Says how far the proof is, now and after each crate; on a terminal in one line. How long the others take it can't know."""
        with self.lock:
            self.shown = what
            text = f"{what}: {len(self.proved)} of {len(self.all)} crates after {spoken(time.time() - self.began)}"
            if len(self.proved) == len(self.all):
                return
            if sys.stderr.isatty():
                print(f"\r\033[K{self.name}: {text}", end="", file=sys.stderr, flush=True)
            else:
                say(text)
