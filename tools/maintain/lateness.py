"""How long the processes of a run waited for a processor, as the kernel counts it, and how long another machine had the processors of this one: frames are
late for that reason alone."""

from __future__ import annotations

import contextlib
import glob
import os
from threading import Event, Thread
from typing import Callable, Iterator

# For how many seconds the processes have to wait, all together, until what this alone explains is no verdict: so long a daemon holds a frame at most, while it
# waits for the answer of a marker, and the queue of a device is full before that.
LATE = 1.0
# And what part of the time, of one that lasts longer.
LATE_SHARE = 0.1
# How often it looks, in seconds, as a process that ended tells no more.
LOOKS = 0.5


def parents() -> dict[int, int]:
    """The parent of each process."""
    found: dict[int, int] = {}
    for path in glob.glob("/proc/[0-9]*/stat"):
        try:
            with open(path, encoding="utf-8", errors="replace") as it:
                words = it.read().rpartition(")")[2].split()
        except OSError:  # it ended
            continue
        found[int(path.split("/")[2])] = int(words[1])
    return found


def below(process: int) -> list[int]:
    """The processes that a process started, and those that these started."""
    of, found = parents(), [process]
    for it in found:
        found += [child for child, parent in of.items() if parent == it]
    return found[1:]


def stolen() -> float:
    """For how many seconds others had the processors of this virtual machine, all together, since it began."""
    with open("/proc/stat", encoding="utf-8") as it:
        return int(it.readline().split()[8]) / os.sysconf("SC_CLK_TCK")


def waited() -> dict[int, float]:
    """How many seconds each process below this tool has waited for a processor, with all its threads, since it began; process 0 has what was stolen."""
    found = {0: stolen()}
    for process in below(os.getpid()):
        found[process] = 0.0
        for path in glob.glob(f"/proc/{process}/task/*/schedstat"):
            try:
                with open(path, encoding="utf-8") as it:
                    found[process] += int(it.read().split()[1]) / 1e9
            except OSError:
                continue
    return found


def since(before: dict[int, float]) -> float:
    """How many seconds the processes that run now waited since then, all together: what is late because of the machine is no later than that."""
    return sum(now - before.get(process, 0.0) for process, now in waited().items())


@contextlib.contextmanager
def watched() -> Iterator[Callable[[], float]]:
    """Gives how many seconds the processes below this tool waited since then, all together, also those that ended meanwhile, as of the last look."""
    before, seen, ended = waited(), dict[int, float](), Event()

    def look() -> None:
        while not ended.wait(LOOKS):
            seen.update(waited())

    looks = Thread(target=look, daemon=True)
    looks.start()
    try:
        yield lambda: sum(max(0.0, now - before.get(process, 0.0)) for process, now in {**seen, **waited()}.items())
    finally:
        ended.set()
        looks.join()
