"""Wrong bodies, and statements of laws: those that one check of a crate refuses, so that a check is not made for each, and each other one by a check of its own.

A function's proof knows of other functions what their contracts say, and whom they call, but not their bodies. So of wrong bodies of different functions
each is refused, or not, as it would be alone; no edit adds a call that another one's would close to a cycle. So is each wrong statement of a law, which is
a function with nothing in its body, where nothing else names the law. Where what the prover says is not that plain an edit is left to be tried alone: where
an error is of a function that no edit changes, or the prover cannot read all, or gives no verdict; and so is each other edit.
"""

from __future__ import annotations

import os
import re
import shutil
import signal
import subprocess
import tempfile
from collections import Counter
from functools import lru_cache
from typing import Any, Iterable, NamedTuple, Sequence

from edits import Trial, replaced, write
from processors import rtlib
from repository import read_text

# How many edits one check has at most.
MOST = 16
FUNCTION = re.compile(r"( *)(?:pub(?:\([\w:]+\))? )?(?:ghost |const |unsafe |extern \"C\" )*fn (\w+)")
# Of an error: where it is, and what it says. The prover's own words for a statement that it could not prove come in a note.
ERROR = re.compile(r"(?:\./)?([^\s:]+):(\d+):\d+: error: (.*)|note: ([^\s:]+):(\d+):\d+: (it is not proved .*)")
# An error before any proof, or a limit of the prover, by which nothing is known of the others.
NO_VERDICT = re.compile(
    r"\S+:\d+:\d+: error\[|fn .*: could not tell"
    r"|.*(ran out of (stack|the (steps|memory) that the check)|(outgrew the memory limit|stopped at the step limit) \()"
)
ANSWERS = re.compile(r"proofs/(?:(.+)/)?(\w+)/Answers\.antt$")
# What a proof says where an edit took away what it names.
NAMED = re.compile(r"has no field|is not in scope|has no `|w(as|ere) not admitted")
# What an error of a source says that is of a goal; without a goal before it the prover could not read the source.
UNREAD = r"is not in scope|has no field|is no name|operand is missing|expected the end|cannot continue"
OF_GOAL = re.compile(rf"`[^`]*`: (?!.*({UNREAD}|w(as|ere) not admitted))")
# An error with its place: the declaration that it is of, if one reads, and what it says; and a note with its place.
AT = re.compile(r"(?:\./)?([^\s:]+):\d+:\d+: error: (?:(`[^`]*`): )?(.*)")
NOTE = re.compile(r"note: \S+:\d+:\d+: ")
# What is said of an edit that the prover refuses, and of one of which it gave no verdict, so that it says nothing of the contract.
REFUSED = "refused, as it must be"
LIMITED = f"{REFUSED} (only by a limit"


class Function(NamedTuple):
    """A function of a file: its name, the line of the `impl` that has it, "" without one, its first line, that of the brace that opens its body, and that
    of the one that closes it; from 1 on. A law has both in one line."""

    name: str
    impl: str
    first: int
    opens: int
    closes: int


class Place(NamedTuple):
    """A function of a crate: its file below the crate's folder, and its first line there."""

    file: str
    line: int


def functions(text: str) -> list[Function]:
    """The functions of a file that `rt fmt` wrote, but for those without a body, and those that have one in the line of something else."""
    lines, found = text.splitlines(), []
    starts = [(at, it) for at, line in enumerate(lines) if (it := FUNCTION.match(line))]
    for number, (at, it) in enumerate(starts):
        until = starts[number + 1][0] if number + 1 < len(starts) else len(lines)
        opens = next((n for n in range(at, until) if re.fullmatch(rf"{it[1]}((?:\S.*)?\{{|\{{\}})", lines[n])), None)
        closes = opens if opens is None or lines[opens].endswith("}") else next((n for n in range(opens + 1, len(lines)) if lines[n] == it[1] + "}"), None)
        if opens is not None and closes is not None:
            impl = next((line for line in reversed(lines[:at]) if line[:1].strip()), "") if it[1] else ""
            found.append(Function(it[2], impl, at + 1, opens + 1, closes + 1))
    return found


def around(within: Sequence[Function], line: int) -> Function | None:
    """The innermost of these functions that has a line, if one has it."""
    its = [it for it in within if it.first <= line <= it.closes]
    return max(its, key=lambda it: it.first) if its else None


def changes(crate: str, trial: Trial) -> dict[str, dict[int, str]]:
    """The lines that an edit changes, from 1 on, as they would be, of each file below the crate's folder: each text stands in one line, and so does what
    takes its place, so lines stay where they are. Empty where the edit cannot be made."""
    was, now, _ = replaced(crate, trial.pairs)
    rows = {path: zip(text.splitlines(keepends=True), now[path].splitlines(keepends=True)) for path, text in was.items()}
    return {os.path.relpath(path, crate): {number: new for number, (old, new) in enumerate(its, 1) if old != new} for path, its in rows.items()}


@lru_cache(maxsize=None)
def count_of_words(crate: str) -> Counter[str]:
    """How often the sources and proofs of a crate have each word, but for comments and imports of sources, and of each file of proofs the words of its own
    path."""
    found = Counter[str]()
    for path in [os.path.join(at, file) for part in ("src", "specs", "proofs") for at, _, files in os.walk(os.path.join(crate, part)) for file in files]:
        if path.endswith(".rt"):
            text = re.sub(r"//.*", "", read_text(path))
            found.update(re.findall(r"\w+", re.sub(r"^ *(pub )?use [^;]*;", "", text, flags=re.M)))
        elif path.endswith(".antt"):
            within = path.split(os.sep)
            found.update(it for it in re.findall(r"\w+", read_text(path)) if it not in within)
    return found


def is_of_own_proof(crate: str, function: Function, line: int) -> bool:
    """Whether a line is of what only the proof of this function knows: of its body, or of the statement of a law that nothing else names."""
    is_law = not function.impl and function.opens == function.closes and count_of_words(crate)[function.name] == 1
    return function.opens < line < function.closes or is_law and function.first < line < function.opens


def places(crate: str, trial: Trial) -> set[Place]:
    """The functions whose bodies, or statements of laws, an edit changes; none where it changes anything else, or cannot be made."""
    found = set()
    for file, lines in changes(crate, trial).items():
        within = functions(read_text(os.path.join(crate, file))) if file.startswith("src/") else []
        for line in lines:
            function = around(within, line)
            if function is None or not is_of_own_proof(crate, function, line):
                return set()
            found.add(Place(file, function.first))
    return found


def batches(crate: str, trials: Iterable[Trial]) -> list[list[Trial]]:
    """These edits of a crate, but for those that have to be tried alone, so that no two of one batch change the same function."""
    found: list[tuple[list[Trial], set[Place]]] = []
    for trial in trials:
        changed = places(crate, trial)
        if not changed:
            continue
        for batch, others in found:
            if len(batch) < MOST and not others & changed:
                batch.append(trial)
                others |= changed
                break
        else:
            found.append(([trial], changed))
    return [batch for batch, _ in found]


def edited(crate: str, batch: Iterable[Trial]) -> dict[str, str]:
    """The files of a crate that these edits change, as they would be, by their names there."""
    found: dict[str, list[str]] = {}
    for trial in batch:
        for file, lines in changes(crate, trial).items():
            text = found.setdefault(file, read_text(os.path.join(crate, file)).splitlines(keepends=True))
            for number, line in lines.items():
                text[number - 1] = line
    return {file: "".join(lines) for file, lines in found.items()}


def answered(crate: str, answers: str) -> list[Place]:
    """The functions that the answers of a proof may be of. Their folder is that of the function's file, none for the root, or of its type's, with the
    type's name."""
    found = ANSWERS.match(answers)
    if not found:
        return []
    of = found[1] or ("main" if os.path.isfile(os.path.join(crate, "src", "main.rt")) else "lib")
    last = of.split("/")[-1]
    in_type = not os.path.isfile(os.path.join(crate, "src", f"{of}.rt"))
    files = [os.path.join(at, file) for at, _, names in os.walk(os.path.join(crate, "src")) for file in names]
    its = [(os.path.relpath(file, crate), it) for file in files for it in functions(read_text(file)) if it.name == found[2]]
    if in_type:
        return [Place(file, it.first) for file, it in its if any(last.startswith(word) for word in re.findall(r"[A-Z]\w*", it.impl))]
    return [Place(file, it.first) for file, it in its if not it.impl and file == f"src/{of}.rt"]


def blamed(crate: str, lines: Iterable[str]) -> dict[Place, str] | None:
    """The functions that the prover refuses by these lines, each with the first of them; None where a line is of nothing that is one function."""
    found: dict[Place, str] = {}
    for line in lines:
        error = ERROR.match(line)
        if NO_VERDICT.match(line):
            return None
        if not error:
            continue
        file, text = error[1] or error[4], error[3] or error[6]
        if file.startswith("src/"):
            function = around(functions(read_text(os.path.join(crate, file))), int(error[2] or error[5]))
            its = [Place(file, function.first)] if function and (error[6] or OF_GOAL.match(text)) else []
        elif NAMED.search(text):
            continue
        else:
            its = answered(crate, file)
        if len(its) != 1:
            return None
        found.setdefault(its[0], line)
    return found


def does_not_read(line: str, changed: Iterable[str]) -> bool:
    """Whether by this line the prover could not read a source, a definition or an edited file, where an edit that only makes a statement false reads well."""
    at = AT.match(line)
    if not at or at[1] not in changed and not at[1].startswith(("src/", "specs/")):
        return False
    return not at[2] or bool(re.search(UNREAD, re.sub(r"`[^`]*`", "", at[3])))


def told_alone(changed: Iterable[str], status: int, lines: Sequence[str]) -> str:
    """What is said of one edit that changes these files, by the status and the lines of its check, in the words of `rt must-fail`."""
    unread = next((it for it in lines if does_not_read(it, changed)), "")
    if unread:
        return f"BAD EDIT: the prover cannot read the edited text, so no contract was tried: {unread[:200]}"
    if status == 0:
        return "NOT REFUSED: the crate is still proved with this edit"
    if status != 1 or not lines or not lines[-1].startswith("logic=not-proved"):
        return f"BAD EDIT: it did not reach the prover: {' '.join(lines[:3])[:300]}"
    told = [it for it in lines if ERROR.match(it) and not NO_VERDICT.match(it)] or [it for it in lines if NOTE.match(it) and not NO_VERDICT.match(it)]
    first = next((it for it in told if not (it.startswith(("proofs/", "./proofs/")) and NAMED.search(it))), "")
    limit = next((it for it in lines if NO_VERDICT.match(it)), "")
    if first:
        return f"{REFUSED}: {first[:160]}"
    if limit or not told:
        return f"{LIMITED} of the prover, which gave no verdict): {(limit or next((it for it in lines if ': no proof: ' in it), ''))[:160]}"
    return f"{REFUSED} (only because a proof file names what the edit took away): {told[0][:160]}"


class Checker:
    """Checks copies of a crate, over what `rt check` kept in its folder, which it changes in nothing."""

    def __init__(self, top: str, crate: str) -> None:
        self.folder = os.path.join(top, "crates", crate)
        self.rt: Any = rtlib()
        self.words = [*self.rt.guarded(), self.rt.RATTLE, "check", *self.rt.Crate(self.folder, top, {}).words(["--jobs", "1"], keeps=False)]

    def checked(self, texts: dict[str, str], with_kept: bool = True) -> tuple[int, list[str]]:
        """The status and the lines of a check of the crate with these texts in place of its own; without what is kept, from nothing."""

        def taken(one: str, other: str) -> None:
            if one.endswith(".oantt"):
                os.link(one, other)
            else:
                shutil.copy2(one, other)

        with tempfile.TemporaryDirectory(prefix="batch-") as room:
            for part in self.rt.PARTS:
                if os.path.isdir(os.path.join(self.folder, part)):
                    shutil.copytree(os.path.join(self.folder, part), os.path.join(room, part))
            for file, text in texts.items():
                write(os.path.join(room, file), text)
            words = list(self.words)
            if with_kept:
                kept: str = shutil.copytree(os.path.join(self.folder, "out", "incremental"), os.path.join(room, "kept"), copy_function=taken)
                words += ["--incremental", kept]
            for _ in range(2):
                ran = subprocess.run(words, cwd=room, stdin=subprocess.DEVNULL, stdout=subprocess.PIPE, stderr=subprocess.STDOUT, text=True, errors="replace")
                # One that the kernel ended, most likely for memory, is tried once more.
                if ran.returncode != -signal.SIGKILL:
                    break
        return ran.returncode, ran.stdout.splitlines()

    def lines(self, texts: dict[str, str]) -> list[str]:
        """What the prover says of the crate with these texts in place of its own, where it refuses that."""
        status, lines = self.checked(texts)
        return lines if status == 1 and lines and lines[-1].startswith("logic=not-proved") else []

    def alone(self, trial: Trial) -> str:
        """What is said of this edit by itself; where it is not refused over what is kept, it is tried again from nothing."""
        was, now, fault = replaced(self.folder, trial.pairs)
        if fault or was == now:
            return f"BAD EDIT: {fault or 'it changes nothing'}"
        texts = {os.path.relpath(path, self.folder): text for path, text in now.items()}
        said = told_alone(texts, *self.checked(texts))
        return said if said.startswith(REFUSED) and not said.startswith(LIMITED) else told_alone(texts, *self.checked(texts, with_kept=False))

    def refused(self, batch: Sequence[Trial]) -> dict[str, str]:
        """Of these edits, by their names, those that the prover refuses for sure, each with what it says of it."""
        changed = {trial.name: places(self.folder, trial) for trial in batch}
        blames = blamed(self.folder, self.lines(edited(self.folder, batch)))
        if blames is None or not blames.keys() <= set().union(*changed.values()):
            return {}
        return {name: blames[at] for name, its in changed.items() for at in sorted(its) if at in blames}
