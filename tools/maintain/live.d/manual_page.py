"""What each option of the daemon does: its help text has what pages have of the tables in C, and so has the man page that is made of it."""

from __future__ import annotations

import os
import sys

from checking import check, command
from repository import TOP

sys.path[:0] = [os.path.join(TOP, "tools", "dist.d"), os.path.join(TOP, "tools", "maintain")]

import completion
import page_parts
import manual


def check_page(program: str) -> None:
    told = command(program, "--help").stdout
    options = {tuple(names) for names, _ in completion.options(told)}
    keys = {(f"-{it.letter}", f"--{it.name}"): it.means for it in page_parts.keys() if it.letter}
    lost = [name for (letter, name), means in keys.items() if (letter, name) not in options or means and means not in told]
    check(len(options) > 15 and len(keys) > 10 and not lost, f"the {len(options)} options of --help are those of its tables", lost)
    page = manual.of_help("lagd", 8, "daemon", "0", told)
    lost = [name for names in options for name in names if manual.escaped(name) not in page]
    check(not lost, "the man page has each of them", lost)
