"""The list of tests, made of the code."""

from __future__ import annotations

import math
from typing import Sequence

from .bench import HOOK_SECONDS, SOON
from .edition import edition
from .model import CAVEAT, Test
from .pdus import number_of
from .runner import MEETS

HEADS = "| test | clause | carried by | purpose | steps | passes if | tolerance |"


def marks(it: Test) -> str:
    """What a test wants, in brackets."""
    wants = [f"{it.links} links"] if it.links > 1 else []
    wants += [f"hook {' '.join(it.hooks)}"] if it.hooks else []
    wants += ["long"] if it.is_long else []
    return f" [{', '.join(wants)}]" if wants else ""


def as_text(tests: Sequence[Test], titles: dict[str, str], repeat: int = 1) -> str:
    """Tests as lines, by their groups, and how long they take where each is run so often."""
    out: list[str] = []
    for group in dict.fromkeys(it.group for it in tests):
        out += ["", f"{group}  {titles[group]}"]
        out += [f"  {it.id:7} {it.clause:34} {it.title}{marks(it)}" for it in tests if it.group == group]
    return "\n".join([*out[1:], "", number_of(len(tests), "test"), *times(tests, repeat), spoken_of()])


def spoken_of() -> str:
    """The editions of the standard and of the tests, as a line."""
    return "; ".join(f"{name}: {text}" for name, text in edition().items())


# So long a device is waited for before the first test, at most: the hook, the first LACPDUs, and what it tells in them.
BEFORE = HOOK_SECONDS + MEETS + SOON


def most(tests: Sequence[Test], repeat: int = 1) -> int:
    """After so many minutes a run of these tests ends."""
    return math.ceil((BEFORE + repeat * sum(it.most for it in tests)) / 60)


def times(tests: Sequence[Test], repeat: int = 1) -> list[str]:
    """How long a run of these tests takes by its links."""
    out = []
    for links, name in enumerate(("one link", "two links", "three or four links"), 1):
        for more in (False, True):
            own = [it for it in tests if it.links <= links and (more or not it.is_long)]
            minutes = max(1, round(repeat * sum(it.takes for it in own) / 60))
            told = f"{number_of(len(own), 'test')}{f', each {repeat} times' if repeat > 1 else ''}"
            out.append(f"{name}{', --long' if more else ''}: {told}, some {minutes} min, at most {most(own, repeat)} min")
    return out


def as_markdown(tests: Sequence[Test], titles: dict[str, str]) -> str:
    """Tests as tables of Markdown."""
    out = [f"# lagconform: {number_of(len(tests), 'test')}", "", f"Made by `lagconform --list --markdown`; {spoken_of()}. {CAVEAT}"]
    for group in dict.fromkeys(it.group for it in tests):
        out += ["", f"## {group}: {titles[group]}", "", HEADS, "|---|---|---|---|---|---|---|"]
        for it in tests:
            if it.group == group:
                cells = (f"{it.id}{marks(it)}", it.clause, it.basis, f"{it.title}. {it.purpose}", "; ".join(it.steps), it.rule, it.tolerance)
                out.append("| " + " | ".join(cell.replace("|", "\\|") for cell in cells) + " |")
    return "\n".join(out)
