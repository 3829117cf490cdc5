"""The wrong definitions that the prover refuses: those of the laws of systems and of progress.

An edit of files of its own crate is tried as wrong bodies are. One that names files of a crate below is made on a copy, over what `rt check` kept,
in which that crate has to be proved still.
"""

from __future__ import annotations

import glob
import os
import re
import shutil
import subprocess
from typing import Iterable, Iterator

import prover
from batches import REFUSED, told_alone
from edits import DEFINITIONS, Trial, apply, copy_crates, restore, write
from prover import Result
from repository import RT, Missing, read_text

CRATES = ("lagmodel", "lagnetwork", "lagfleet", "lagbeside", "lagprogress")
ERROR = re.compile(r"(?:\./)?([^\s:]+):\d+:\d+: error: ")


def unread(lines: list[str]) -> str | None:
    """The first file with an error of these lines that is no proof: the prover could not read it. None if there is none."""
    files = [found[1] for line in lines if (found := ERROR.match(line))]
    return next((file for file in files if not file.startswith("proofs/")), None)


def ran(folder: str, word: str) -> tuple[int, list[str]]:
    """The status and the lines of a command of `rt` in a folder."""
    ended = subprocess.run([RT, word], cwd=folder, stdin=subprocess.DEVNULL, stdout=subprocess.PIPE, stderr=subprocess.STDOUT, text=True, errors="replace")
    return ended.returncode, ended.stdout.splitlines()


def checked(crate: str) -> tuple[int, list[str]]:
    """The status of a check of a crate, over what is kept in its folder, and its lines up to the verdict."""
    status, lines = ran(crate, "check")
    ends = [at for at, line in enumerate(lines, 1) if line.startswith("logic=")]
    return status, lines[: ends[-1]] if ends else lines


def try_below(top: str, trial: Trial) -> tuple[bool, str]:
    """Makes an edit on a copy in which all is proved; the crates below have to be proved still, and the crate of the edit is to be refused."""
    crate = os.path.join(top, trial.crate)
    if checked(crate)[0]:
        return False, "is not proved as it stands"
    was, fault = apply(crate, trial.pairs)
    if fault:
        return False, fault
    try:
        changed = dict.fromkeys(file.split("/")[1] for file, _, _ in trial.pairs if file.startswith(".."))
        refused = [it for it in changed if checked(os.path.join(top, it))[0]]
        said = "" if refused else told_alone((), *checked(crate))
    finally:
        restore(was)
    return (False, f"the prover refuses {', '.join(refused)}") if refused else prover.judged(said)


def counterexample(trial: Trial) -> str:
    """The file of the proof that the law is false under an edit, where there is one."""
    return os.path.join(DEFINITIONS, f"{trial.crate}.{trial.name}.counterexample")


def want_edits(trials: Iterable[Trial]) -> None:
    """Stops the tool where a counterexample is of no edit."""
    left = set(glob.glob(os.path.join(DEFINITIONS, "*.counterexample"))) - {counterexample(it) for it in trials}
    if left:
        raise Missing(f"{min(left)} is of no edit")


def try_counterexample(folder: str, trial: Trial, path: str) -> tuple[bool, str]:
    """Proves, under the wrong definition, that the law is false. The proof takes the place of the crate's own."""
    head, _, proof = read_text(path).partition("---\n")
    crate = os.path.join(copy_crates(folder, [trial.crate]), trial.crate)
    _, fault = apply(crate, trial.pairs)
    if fault:
        return False, fault
    for part in ("src", "proofs"):
        shutil.rmtree(os.path.join(crate, part))
    body = "pub fn refuted()\n    ensures { " + head.split("ensures: ")[1].strip() + " }\n{\n}\n"
    uses = "".join(f"ghost use {line[5:]};\n" for line in head.splitlines() if line.startswith("use: "))
    write(os.path.join(crate, "src", "lib.rt"), "//! A law that is false.\n#![tactic(auto)]\n\n" + uses + "\n" + body)
    write(os.path.join(crate, "proofs", "Lib.antt"), "pub mod Counterexample\n")
    write(os.path.join(crate, "proofs", "Counterexample.antt"), proof)
    answer = f"use Rattle.{trial.crate}.proofs.Counterexample.{{refuted}}\nuse Rattle.{trial.crate}.proofs.refuted.Goals as goal\n\n"
    write(os.path.join(crate, "proofs", "refuted", "Answers.antt"), answer + "pub returns : goal.returns\nreturns c = refuted\n")
    subprocess.run([RT, "fmt"], cwd=crate, stdin=subprocess.DEVNULL, capture_output=True)
    # An earlier run of this tool may have proved the same.
    is_proved = any(re.match(rf"rt: {trial.crate} (proved|is kept: )", line) for line in ran(folder, "ci")[1])
    return is_proved, "refuted: the law is false of it" if is_proved else "the counterexample is not proved"


def names_below(trial: Trial) -> bool:
    """Whether an edit names files of a crate below, which has to be proved still."""
    return any(file.startswith("..") for file, _, _ in trial.pairs)


def of_own_crate(trials: list[Trial]) -> list[Trial]:
    """Those of these edits that are tried as wrong bodies are."""
    return [it for it in trials if not names_below(it)]


def read_on(results: Iterable[Result]) -> Iterator[Result]:
    """These results; an edit that is refused only as a definition does not read any more has failed."""
    for trial, is_right, text in results:
        file = unread([text.removeprefix(f"{REFUSED}: ")])
        yield prover.result(trial, False, f"{file} does not read any more") if file else (trial, is_right, text)


def try_others(folder: str, trials: list[Trial]) -> Iterator[Result]:
    """Tries the edits that name files of a crate below, and proves the counterexamples; answers each, whether it passed, and what to print."""
    below = [it for it in trials if names_below(it)]
    top = copy_crates(os.path.join(folder, "below"), [it.crate for it in below], with_kept=True) if below else ""
    yield from (prover.result(it, *try_below(top, it)) for it in below)
    for trial in trials:
        path = counterexample(trial)
        if os.path.exists(path):
            yield prover.result(trial, *try_counterexample(os.path.join(folder, "counterexample"), trial, path))
