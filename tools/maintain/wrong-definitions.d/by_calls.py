"""The wrong definitions of the C library, which a program in C refuses.

A static library is built only of a crate that is proved. So here an edit has to be proved too: no contract tells it from what stands there. Then
tools/maintain/live.d/calls.c is linked with the library that it makes, and just the functions of calls.c that the edit names have to have a check that
fails. Edits that name different functions are tried in one library, where just what they name has to fail. So an edit that nothing finds any more
passes only where another one of its library makes just its functions fail. One that is asked for by itself is tried alone; each was, when its functions
were written down. `rt lib` makes the crates below, over what it kept; each lane has a copy of lagffi with what its first build proved, and builds
over that.
"""

from __future__ import annotations

import os
import re
import shutil
import subprocess
from concurrent.futures import ThreadPoolExecutor
from functools import partial
from queue import Queue
from typing import Callable, Iterable, Iterator

import prover
from checking import Failed
from edits import Pair, Trial, apply, copy_crates, replaced, restore
from lanes import lanes
from linking import build_calls
from processors import rtlib
from prover import Result
from repository import RT, kit, runtime

CRATE = "lagffi"
# What stands in the place of a crate in a line `refused-by:`.
PLACE = "tools/maintain/live"
# The seconds that the calls may take; they take a few.
LIMIT = 60


def is_of(trial: Trial) -> bool:
    """Whether the edit is refused so."""
    return any(place == PLACE for place, _ in trial.tests)


def words_for(top: str, jobs: int) -> list[str]:
    """The words that prove and build the library in a folder that is a copy of the crate, over the libraries of these crates."""
    rt = rtlib()
    of_crate = rt.Crate(os.path.join(top, "crates", CRATE), top, {}).words(["--jobs", str(jobs)])
    tools = ["--toolchain", os.path.join(kit(), "toolchain"), "--backend", "llvm"]
    return [os.path.join(kit(), "bin", "rattle"), "build", *of_crate, *rt.KEPT, *tools, "-o", f"out/lib{CRATE}.a"]


def called(words: list[str], crate: str) -> tuple[list[str], str | None]:
    """Builds the library of a copy of the crate and calls it; answers the functions of calls.c with a check that fails, or what is wrong."""
    ran = subprocess.run(words, cwd=crate, stdin=subprocess.DEVNULL, stdout=subprocess.PIPE, stderr=subprocess.STDOUT, text=True)
    if ran.returncode:
        return [], "is not proved, so there is no library:\n" + "\n".join(ran.stdout.splitlines()[-12:])
    out = os.path.join(crate, "out")
    try:
        program = build_calls(out, [os.path.join(out, f"lib{CRATE}.a"), runtime()])
        ended = subprocess.run([program], stdout=subprocess.PIPE, stderr=subprocess.STDOUT, text=True, timeout=LIMIT)
    except Failed as why:
        return [], "\n".join(why.args)
    except subprocess.TimeoutExpired:
        return [], "the calls do not end"
    failed = re.findall(r"^calls: failed: (\w+): ", ended.stdout, re.M)
    ends = re.search(r"^calls: \d+ passed, (\d+) failed$", ended.stdout, re.M)
    if not ends or int(ends[1]) != len(failed) or ended.returncode != bool(failed):
        return [], f"the calls end otherwise, with {ended.returncode}:\n" + ended.stdout[-1000:]
    return failed, None


def named(batch: Iterable[Trial]) -> set[str]:
    """The functions of calls.c that these edits name."""
    return {function for it in batch for _, function in it.tests}


def makes_definition_wrong(trial: Trial) -> bool:
    return any(file.startswith("specs/") for file, _, _ in trial.pairs)


def batches(crate: str, trials: Iterable[Trial]) -> list[list[Trial]]:
    """Those of these edits that make a definition wrong, so that those of one batch name different functions, and stand beside each other."""
    found: list[list[Trial]] = []
    for trial in sorted(filter(makes_definition_wrong, trials), key=lambda it: -len(it.tests)):
        fits = (it for it in found if not named(it) & named([trial]) and not replaced(crate, pairs([*it, trial]))[2])
        batch = next(fits, None)
        if batch is None:
            found.append([trial])
        else:
            batch.append(trial)
    return found


def pairs(batch: Iterable[Trial]) -> list[Pair]:
    return [pair for it in batch for pair in it.pairs]


def failing(words: list[str], crate: str, batch: list[Trial]) -> tuple[set[str], str | None]:
    """The functions of calls.c with a check that fails under all these edits together, or what is wrong."""
    was, fault = apply(crate, pairs(batch))
    if fault:
        return set(), fault
    try:
        failed, fault = called(words, crate)
    finally:
        restore(was)
    return set(failed), fault


def found_by_own(words: list[str], crate: str, batch: list[Trial]) -> list[Result]:
    """Tries edits together; answers none of them where the functions that find them are not just those that they name."""
    failed, fault = failing(words, crate, batch)
    if fault or failed != named(batch):
        return []
    return [prover.result(it, True, f"refused by {', '.join(sorted(named([it])))} of calls.c, with {len(batch) - 1} more edits made") for it in batch]


def found_alone(words: list[str], crate: str, alone: list[Trial]) -> list[Result]:
    """Tries one edit; answers it in any case."""
    if not makes_definition_wrong(alone[0]):
        return [prover.result(alone[0], False, "the edit makes no definition wrong")]
    failed, fault = failing(words, crate, alone)
    told = f"{', '.join(sorted(named(alone)))} of calls.c"
    if fault or failed == named(alone):
        return [prover.result(alone[0], not fault, fault or f"refused by {told}")]
    return [prover.result(alone[0], False, f"{told} and nothing else is to refuse, but {', '.join(sorted(failed)) or 'nothing'} does")]


def try_all(folder: str, trials: list[Trial]) -> Iterator[Result]:
    """Tries these edits; answers each, whether it is refused, and what to print."""
    if not trials:
        return
    first = os.path.join(copy_crates(folder, [CRATE], with_kept=True), CRATE)
    subprocess.run([RT, "lib"], cwd=first, stdin=subprocess.DEVNULL, stdout=subprocess.DEVNULL, stderr=subprocess.DEVNULL)
    failed, fault = called(words_for(folder, lanes()), first)
    if failed or fault:
        yield from (prover.result(it, False, f"{CRATE} does not pass as it stands: {fault or ', '.join(failed)}") for it in trials)
        return
    words, together, copies = words_for(folder, 1), batches(first, trials), Queue[str]()
    for number in range(lanes()):
        copies.put(shutil.copytree(first, os.path.join(folder, f"lane {number}")))

    def in_lane(tries: Callable[[list[str], str, list[Trial]], list[Result]], batch: list[Trial]) -> list[Result]:
        crate = copies.get()
        try:
            return tries(words, crate, batch)
        finally:
            copies.put(crate)

    with ThreadPoolExecutor(lanes()) as pool:
        done = set[Trial]()
        for results in pool.map(partial(in_lane, found_by_own), [it for it in together if len(it) > 1]):
            done.update(it for it, _, _ in results)
            yield from results
        for results in pool.map(partial(in_lane, found_alone), [[it] for it in trials if it not in done]):
            yield from results
