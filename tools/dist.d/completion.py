"""Makes the files by which bash completes the words of the programs, from what they say of themselves."""

from __future__ import annotations

import re
from typing import Callable, Sequence

# An option in a help text: its letter, its name, and the word that it takes.
OPTION = re.compile(r"(?:(-\w), )?(--[\w-]+)(?: (\S+))?")


def options(told: str) -> list[tuple[list[str], str | None]]:
    """The options that a help text has: of each its names, and the word that it takes, or None."""
    lines = [it.strip() for it in told.split("\n") if it.startswith("  -")]
    found = [OPTION.fullmatch(it) for line in lines for it in re.split(" {2,}", line)]
    return [([name for name in it.group(1, 2) if name], it[3]) for it in found if it]


def names(told: str) -> list[str]:
    """The names of the options that a help text has."""
    return [name for each, _ in options(told) for name in each]


def commands(told: str) -> list[str]:
    """The subcommands that a help text lists."""
    return re.findall(r"^  (\w+)", told.partition("\nCommands:\n")[2].partition("\n\n")[0], re.M)


def case(word: str, rules: Sequence[tuple[Sequence[str], Sequence[str]]]) -> list[str]:
    """The lines by which this word decides what may follow; none without rules."""
    rows = [f"{'|'.join(each)}) words='{' '.join(follow)}' ;;" for each, follow in rules]
    return [f"case {word} in", *rows, "esac"] if rules else []


def text(name: str, ask: Callable[..., str]) -> str:
    """The file for a program, which answers by `ask` what it is asked. Where it has no word to offer, bash offers files."""
    told = ask("--help")
    behind = case('"${COMP_WORDS[at]}"', [([it], names(ask(it, "--help"))) for it in commands(told)])
    loop = ["for ((at = 1; at < COMP_CWORD; at++)); do", *behind, "done"] if behind else []
    values = [(each, word.split("|") if "|" in word else []) for each, word in options(told) if word]
    body = [
        f"local at words='{' '.join([*commands(told), *names(told)])}'",
        *loop,
        *case('"${COMP_WORDS[COMP_CWORD - 1]}"', values),
        'COMPREPLY=($(compgen -W "$words" -- "${COMP_WORDS[COMP_CWORD]}"))',
    ]
    head = f"# By this bash completes the words of {name}. It is made from what {name} --help says."
    return "\n".join([head, f"_{name}() {{", *(f"    {it}" for it in body), "}", f"complete -o default -F _{name} {name}"]) + "\n"
