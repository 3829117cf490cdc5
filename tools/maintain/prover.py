"""Edits that the prover has to refuse: what wrong-bodies and wrong-definitions share.

The crates are copied to a temporary folder, and proved there over the libraries of those below, side by side. Over what that kept, one check
tries many of them, and each other one has a check of its own (batches.py), side by side. What it kept is left in the crate's own folder, where nothing is
kept yet, so that the next tool proves nothing again.
"""

from __future__ import annotations

import contextlib
import os
import shutil
import subprocess
import sys
from concurrent.futures import ThreadPoolExecutor
from typing import Iterable, Iterator

import batches
from batches import LIMITED, REFUSED
from edits import Trial, copy_crates
from lanes import lanes
from processors import rtlib, take_libraries
from repository import CRATES, RT, Missing

# An edit, whether it passed, and what to print.
Result = tuple[Trial, bool, str]
# Where `rt check` keeps in a crate's folder `out` what it proved.
KEPT = "incremental"


def result(trial: Trial, is_right: bool, text: str) -> Result:
    """What became of an edit, as it is printed."""
    return trial, is_right, text if is_right else f"FAILED {text}"


def judged(text: str | None) -> tuple[bool, str]:
    """Whether an edit passed of which this was said, and what to print."""
    if text is None:
        return False, "was not tried, as its crate is not proved as it stands"
    return text.startswith(REFUSED) and not text.startswith(LIMITED), text


def size(crate: str) -> int:
    """The octets of the sources below a folder."""
    return sum(os.path.getsize(os.path.join(at, file)) for at, _, files in os.walk(os.path.join(crate, "src")) for file in files)


def leave_kept(crate: str, own: str) -> None:
    """Leaves what `rt check` kept of a copy of a crate in the crate's own folder, all at once, where nothing is kept there."""
    made, kept, part = (os.path.join(folder, "out", it) for folder, it in ((crate, KEPT), (own, KEPT), (own, f"{KEPT}.{os.getpid()}")))
    if os.path.exists(made) and not os.path.exists(kept):
        with contextlib.suppress(OSError):  # no room, or another tool was faster
            shutil.copytree(made, part)
            os.rename(part, kept)
        shutil.rmtree(part, ignore_errors=True)


def said_of(pool: ThreadPoolExecutor, folder: str, crate: str, trials: list[Trial]) -> dict[Trial, str]:
    """What the prover says of each of these edits of a crate, over what is kept of it: of those that it refuses together, then of each other one."""
    checker, of = batches.Checker(folder, crate), {it.name: it for it in trials}
    asked = [pool.submit(checker.refused, batch) for batch in batches.batches(checker.folder, trials)]
    said = {of[name]: f"{REFUSED}: {line[:160]}" for it in asked for name, line in it.result().items()}
    alone = [it for it in trials if it not in said]
    said.update(zip(alone, pool.map(checker.alone, alone)))
    # A refusal says nothing where what is kept is refused as it stands.
    return said if not pool.submit(checker.checked, {}).result()[0] else {}


def tried(folder: str, trials: list[Trial]) -> Iterator[Result]:
    """Tries these edits, those of a crate as soon as that is proved; one of which nothing is said has failed, as where its crate is not proved as it stands."""
    take_libraries()
    top, rt = copy_crates(folder, dict.fromkeys(it.crate for it in trials), with_kept=True), rtlib()
    names = sorted(dict.fromkeys(it.crate for it in trials), key=lambda it: -size(os.path.join(top, it)))
    # More jobs of one crate take more of the processors in all.
    jobs, checks = ["--jobs", "1"] if len(names) >= lanes() else [], [*rt.guarded(), rt.RATTLE, "check"]

    def is_proved(crate: str) -> bool:
        made = rt.Crate(os.path.join(top, crate), folder, {})
        # `rt check` keeps all others out of the crates below, too, meanwhile. Where those are made it does no more than this.
        is_ready = made.below() and all(it.is_built() for it in made.below())
        words = [*checks, *made.words(jobs), *rt.KEPT] if is_ready else [RT, "check", *jobs]
        checked = subprocess.run(words, cwd=made.folder, stdin=subprocess.DEVNULL, capture_output=True, text=True, errors="replace")
        if checked.returncode:
            print(f"{crate} is not proved:\n{checked.stdout[-4000:]}{checked.stderr[-4000:]}", end="", file=sys.stderr, flush=True)
        else:
            leave_kept(made.folder, os.path.join(CRATES, crate))
        return checked.returncode == 0

    with ThreadPoolExecutor(lanes()) as pool, ThreadPoolExecutor(max(len(names), 1)) as waiting:
        proved = {name: pool.submit(is_proved, name) for name in names}

        def of_crate(crate: str) -> dict[Trial, str]:
            return said_of(pool, folder, crate, [it for it in trials if it.crate == crate]) if proved[crate].result() else {}

        said = {it: text for found in waiting.map(of_crate, names) for it, text in found.items()}
    yield from (result(it, *judged(said.get(it))) for it in trials)


def named(every: dict[str, list[Trial]], words: list[str]) -> list[Trial]:
    """The edits that words CRATE or CRATE/NAME name; all, where there are no words."""
    known = {*every, *(f"{crate}/{it.name}" for crate, edits in every.items() for it in edits)}
    for word in words:
        if word not in known:
            raise Missing(f"there is no edit {word}: --list prints them")
    return [it for crate, edits in every.items() for it in edits if not words or crate in words or f"{crate}/{it.name}" in words]


def told(results: Iterable[Result]) -> int:
    """Prints what became of each edit, and the counts; answers the status."""
    passed = failed = 0
    for trial, is_right, text in results:
        passed, failed = passed + is_right, failed + (not is_right)
        print(f"{trial.crate}/{trial.name}: {text}", flush=True)
    print(f"{passed} passed, {failed} failed")
    return 1 if failed or not passed else 0
