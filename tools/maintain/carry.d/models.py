"""The protocol between the daemon and the programs of the kernel, as a model: spin looks at all its interleavings."""

from __future__ import annotations

import os
import re
import shutil

from bonds import Programs
from checking import Failed, Skipped, check, command
from repository import CC

MODEL = os.path.join(os.path.dirname(os.path.abspath(__file__)), "fast.pml")
# How many frames it has where it holds, and where it is wrong: with four of them and two moves all states take too long.
FRAMES, MORE = 3, 4
# What makes it wrong, and what stands in its place in the daemon.
WRONG = {
    "NO_WAIT": "a marker goes before the programs ended that may have read the old row",
    "MARKER_BY_ANOTHER_WAY": "a marker goes by another way than the data before it",
    "ANSWERED_BEFORE_THE_BACKLOG": "a marker is answered before the data that came before it went up",
    "TWO_WORDS": "a row has its member and its count in two words",
    "NO_COUNT": "a row gets a member while frames are on their way to the daemon",
    "UNCOUNTED_LOSS": "a frame for which there is no room is not counted",
    "OVERTAKES_THOSE_THAT_WAIT": "a frame overtakes those that wait",
    "NEVER_BELIEVED": "a row keeps the count of a frame that was lost behind it",
    "BELIEVED_AT_ONCE": "a row loses its count before the programs ended that may have counted",
    "A_QUEUE_THAT_HOLDS": "the TAP device has a queueing discipline that holds frames",
    "TAKEN_OFF_BY_THE_PROGRAM": "a program takes off what it counted, while the daemon doubts the count",
    "UNFIT_BY_THE_DAEMON": "a frame that is unfit for the member of its row is left to the daemon, which finds it fit",
}


def explore(folder: str, *words: str) -> tuple[int, int]:
    """How many states there are, and how many errors, of which one is looked for."""
    place = os.path.join(folder, "model")
    shutil.rmtree(place, ignore_errors=True)
    os.mkdir(place)
    for step in (["spin", *words, "-a", MODEL], [CC, "-O1", "-w", "-DSAFETY", "-DCOLLAPSE", "-o", "pan", "pan.c"]):
        ended = command(*step, cwd=place)
        if ended.returncode:
            raise Failed(f"{step[0]} takes the model", ended.stdout + ended.stderr)
    told = command("./pan", "-m1000000", cwd=place).stdout
    states, errors = re.search(r"(\d+) states, stored", told), re.search(r"errors: (\d+)", told)
    if not states or not errors or "max search depth too small" in told:
        raise Failed("all states of the model are seen", told)
    return int(states[1]), int(errors[1])


def model(programs: Programs) -> None:
    """The model holds, and each change that makes it wrong is found."""
    if not shutil.which("spin"):
        raise Skipped("there is no spin (Debian: spin)")
    states, errors = explore(programs.folder, f"-DFRAMES={FRAMES}")
    check(errors == 0, f"in {states:,} states of the model no frame passes one that was sent before, and each comes or is counted")
    for word, what in WRONG.items():
        check(explore(programs.folder, f"-DFRAMES={MORE}", f"-D{word}")[1] > 0, f"the model is wrong where {what}")
