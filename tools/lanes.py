"""How many checks run side by side: what tools/test and tools/maintain/wrong-bodies take where no number is given."""

from __future__ import annotations

import os
import re

# The most memory that a check of the largest crate was seen to take, and the tests beside it.
EACH = 3_000_000_000
# What a control group may take of time and of memory: version 2, then version 1.
TIME = [
    (("/sys/fs/cgroup/cpu.max", r"^(\d+)"), ("/sys/fs/cgroup/cpu.max", r" (\d+)")),
    (("/sys/fs/cgroup/cpu/cpu.cfs_quota_us", r"^(\d+)"), ("/sys/fs/cgroup/cpu/cpu.cfs_period_us", r"(\d+)")),
]
MEMORY = [
    (("/sys/fs/cgroup/memory.max", r"^(\d+)"), ("/sys/fs/cgroup/memory.stat", r"\banon (\d+)")),
    (("/sys/fs/cgroup/memory/memory.limit_in_bytes", r"^(\d+)"), ("/sys/fs/cgroup/memory/memory.stat", r"total_rss (\d+)")),
]


def number_in(path: str, pattern: str) -> int | None:
    """The number that the pattern finds in a file, or None."""
    try:
        with open(path, encoding="utf-8") as file:
            found = re.search(pattern, file.read())
    except OSError:
        return None
    return int(found[1]) if found else None


def processors() -> int:
    """The processors that this process may use, or fewer by the quota of its control group."""
    found = len(os.sched_getaffinity(0))
    for quota_in, period_in in TIME:
        quota, period = number_in(*quota_in), number_in(*period_in)
        if quota and period:
            found = min(found, max(quota // period, 1))
    return found


def memory() -> int:
    """The bytes of memory that are available, under the limit of the control group too."""
    found = 1024 * (number_in("/proc/meminfo", r"MemAvailable:\s+(\d+)") or 0)
    for limit_in, held_in in MEMORY:
        limit, held = number_in(*limit_in), number_in(*held_in)
        if limit and held is not None:
            found = min(found, limit - held)
    return found


def lanes(each: int = EACH) -> int:
    """As many lanes as RT_JOBS says; without it one for so much memory each, at least one and at most one for each processor."""
    asked = os.environ.get("RT_JOBS", "")
    return max(1, int(asked) if asked.isdecimal() else min(processors(), memory() // each))
