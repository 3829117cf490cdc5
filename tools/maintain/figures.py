"""Figures that sentences of pages copy: each row names a sentence, and what finds its figures in a table, a source or a stored report."""

from __future__ import annotations

import glob
import os
import re
from typing import Callable, NamedTuple, Sequence

from repository import TOP, Missing

README, LAGD, ASSURANCE, TROUBLE, CONFORM = "README.md", "docs/LAGD.md", "docs/ASSURANCE.md", "docs/TROUBLE.md", "docs/CONFORM.md"
CONTRIBUTING, EXAMPLES = "CONTRIBUTING.md", "examples/README.md"
HEADER = "crates/lagffi/include/lag.h"
ROUNDS, CUT_OFF = (f"crates/lagprogress/specs/{it}.antt" for it in ("Rounds", "CutOff"))
FEWER, FEWER_IF_PASSIVE, FORGETS = (
    f"examples/{it}-rounds.short" for it in ("no-agreement-after-319", "no-agreement-after-320", "an-end-forgets-after-599")
)
Matches = Sequence[re.Match[str]]


def same(found: Matches) -> list[str]:
    """The groups, which are the same wherever the pattern is found."""
    every = {it.groups() for it in found}
    if len(every) != 1:
        raise Missing(f"it finds {len(every)} texts, and is to find one")
    return list(every.pop())


def count(found: Matches) -> list[str]:
    """How often the pattern is found, which it is."""
    if not found:
        raise Missing("it finds none")
    return [str(len(found))]


def seconds(found: Matches) -> list[str]:
    """The sum of ticks of 100 ms."""
    if not found:
        raise Missing("it finds none")
    return [f"{sum(int(it[1]) for it in found) / 10:g}"]


def twice(found: Matches) -> list[str]:
    """The groups, which are the same wherever the pattern is found, two times."""
    return 2 * same(found)


def others_last(found: Matches) -> list[str]:
    """Four figures of lagd, Open vSwitch, bonding and teamd, with that of Open vSwitch last."""
    lagd, switch, *others = same(found)
    return [lagd, *others, switch]


class Copy(NamedTuple):
    """A sentence of a page, with `{}` in the place of each figure, and a pattern that finds them in its sources. White space fits any other."""

    page: str
    sentence: str
    sources: str
    pattern: str
    figures: Callable[[Matches], list[str]] = same


PRINTS = "tools/maintain/live.d/examples.py", r'^PRINTS = "both ends distribute after (\d+) ticks of (\d+) ms'
UNTIL_UP = ROUNDS, r"^up_if_both_active = (\d+)(\d)$[^=]*^up_if_one_is = (\d+)(\d)$"
ROUND = r'"round (\d+)"'
# The ways of lagd beside the driver: what stands before the speed of each in the table of its page, and behind it.
WAYS_RUN = "docs/measured/ways.tsv"
WAYS = {
    "lagd": ("by markers", "order counts, speed does not"), "offload": ("by markers", "the same, with few streams"), "fast": ("by markers", "order and speed count"),
    "plane=team": ("by a time", "speed counts"), "bonding": ("none", "the server is in use"),
}  # fmt: skip
TICK = r"^\d+ tick 1 (\d+) ->"
# How many tests lagconform has, in a table that its own tests compare.
CONFORMS = CONFORM, r"^\|three or four links, --long\|(\d+)\|"
# The verdicts of a run beside each peer.
VERDICTS = "docs/measured/conformance.tsv"


def rounds(what: str) -> tuple[str, str]:
    """The seconds of the rounds of a definition, before and behind their point."""
    return ROUNDS, rf"^{what}_if_both_active = (\d+)(\d)$[^=]*^{what}_if_one_is = (\d+)(\d)$"


COPIES: tuple[Copy, ...] = (
    Copy(ASSURANCE, "in {} to {} minutes on four processors", "docs/measured/tools.tsv", r"^tools/test\t(\d+)\t(\d+)$"),
    Copy(README, "prints: both ends distribute after {} ticks of {} ms", *PRINTS),
    Copy(README, "every sound link between them within {}.{} s ({}.{} s if one end is passive)", *UNTIL_UP),
    Copy(README, "The second line runs {} tests on a simulated device", *CONFORMS),
    Copy("docs/USING.md", "It prints `both ends distribute after {} ticks of {} ms`", *PRINTS),
    Copy("docs/USING.md", "{} octets, {} more for each port, {} for each conversation of each aggregator, and {} for each aggregator", HEADER,
         r"\(size_t\)(\d+) \+ \(size_t\)(\d+) \* \(ports\) \+ \(\(size_t\)(\d+) \* \(conversations\) \+ (\d+)\) \* \(aggregators\)"),
    *(Copy(LAGD, f"|{told}|{{}}|{chosen}|", WAYS_RUN, rf"^{way}\t([\d.]+)\t") for way, (told, chosen) in WAYS.items()),
    Copy(README, "relative to a bare link|{}; `fast` {}; `plane=team` {}|{}|{}|{}|", WAYS_RUN,
         "".join(rf"^{way}\t([\d.]+)\t[\s\S]*?" for way in ("lagd", "fast", "plane=team", "bonding", "teamd", "Open vSwitch"))),
    Copy(README, "tests failed, of 137|{}|{}|{}|{}|", VERDICTS, r"^fail\t(\d+)\t(\d+)\t(\d+)\t(\d+)$", others_last),
    Copy(CONTRIBUTING, "as there are processors and {} GB of memory for each", "tools/lanes.py", r"^EACH = (\d+)_000_000_000$"),
    Copy(ASSURANCE, "|the ends know each other|{}.{} s|{}.{} s|", *rounds("known")),
    Copy(ASSURANCE, "|each link distributes and agrees|{}.{} s|{}.{} s|", *UNTIL_UP),
    Copy(ASSURANCE, "until nothing is due|{}.{} s|{}.{} s|", *rounds("freed")),
    Copy(ASSURANCE, "each link agrees, or stands by|{}.{} s|{}.{} s|", *UNTIL_UP),
    Copy(ASSURANCE, "with as many aggregators as ports|{}.{} s|{}.{} s|", CUT_OFF, r"IsHealthyAt i l old → (\d+)(\d) ≤ n → Plays gives", twice),
    Copy(ASSURANCE, "of which the test command tries {};", "crates/*/must-fail/*.edit", r"\A", count),
    Copy(ASSURANCE, "The prover refuses {} wrong bodies", "tools/maintain/wrong-bodies.d/*.edits", "^edit:", count),
    Copy(ASSURANCE, "the prover refuse {} wrong definitions", "tools/maintain/wrong-definitions.d/*.edits", "^edit:", count),
    Copy(ASSURANCE, "cut at every length; {},{} random frames", "crates/tests_system/src/systems/hostile.rt", r"const FRAMES: u32 = (\d+)_(\d+);"),
    Copy("docs/internals/THEOREMS.md", "- *{} | {}* means: after", ROUNDS, r"^up_if_both_active = (\d+)$[^=]*^up_if_one_is = (\d+)$"),
    Copy("docs/internals/THEOREMS.md", "for knowing with one active end they are [more than {}](../../examples/an-end", FORGETS, ROUND),
    *(Copy(TROUBLE, "|both links come up, one end or both active|{} s|", f"examples/{it}.txt", TICK, seconds) for it in ("two-ports-come-up", "one-end-is-passive")),
    Copy(TROUBLE, "|a break that both ends noticed ends|{} s|", "examples/a-cable-is-cut-and-comes-back.txt", rf"{TICK}(?![\s\S]*^\d+ join 1 )", seconds),
    Copy(TROUBLE, "|a break that nobody noticed ends|more than {}.{} s: meanwhile", FEWER, r'"round (\d+)(\d)"'),
    Copy(TROUBLE, "|at most {}.{} s ({}.{} s if one end is passive): [a proved bound]", *UNTIL_UP),
    Copy("docs/COMMAND.md", '{"record":"counts","packets":{},"slow":{},"ends":{},"findings":{},"beyond":{}}', "examples/captures/marker-echo.json",
         r'^{"record":"counts","packets":(\d+),"slow":(\d+),"ends":(\d+),"findings":(\d+),"beyond":(\d+)}$'),
    Copy(CONFORM, "Open vSwitch 3.1 failed {}, bonding {} and teamd {} ([MEASURED]", VERDICTS, r"^fail\t0\t(\d+)\t(\d+)\t(\d+)$"),
    Copy("CHANGELOG.md", "with {} tests", *CONFORMS),
)


def place_of(copy: Copy, text: str) -> re.Match[str]:
    """Where the sentence stands, its figures as groups."""
    parts = [r"\s+".join(map(re.escape, re.split(r"\s+", part))) for part in copy.sentence.split("{}")]
    found = list(re.finditer(r"([^\s|()\[\]]+?)".join(parts), text))
    if len(found) != 1:
        raise Missing(f"{copy.page} has this {len(found)} times, and is to have it once: {copy.sentence}")
    return found[0]


def with_figures(copy: Copy, text: str, read: Callable[[str], str]) -> str:
    """The text of a page with the figures of this copy."""
    place = place_of(copy, text)
    files = [os.path.relpath(it, TOP) for it in glob.glob(os.path.join(TOP, copy.sources))] if "*" in copy.sources else [copy.sources]
    try:
        figures = copy.figures([it for path in files for it in re.finditer(copy.pattern, read(path), re.M)])
    except Missing as why:
        raise Missing(f"{copy.page} copies {copy.pattern} of {copy.sources}, and {why}") from None
    if len(figures) != copy.sentence.count("{}"):
        raise Missing(f"{copy.page} copies {copy.sentence.count('{}')} figures of {copy.sources}, which has {len(figures)}: {copy.sentence}")
    for group, figure in reversed(list(enumerate(figures, 1))):
        text = text[: place.start(group)] + figure + text[place.end(group) :]
    return text


def written(read: Callable[[str], str], faults: list[str], copies: Sequence[Copy] = COPIES) -> dict[str, str]:
    """The pages with the figures that they copy. What is missing is kept among the faults, and its sentence left as it is."""
    told: dict[str, str] = {}
    for copy in copies:
        text = told.get(copy.page) or read(copy.page)
        try:
            told[copy.page] = with_figures(copy, text, lambda path: told.get(path) or read(path))
        except Missing as why:
            faults.append(str(why))
    return told


def rules_found(page: str, stored: Callable[[str], str]) -> list[str]:
    """Where a row of examples/README.md that ends with rules of `lagtool capture` has others than the stored records and report of its capture."""
    wrong = []
    for name, told in re.findall(r"^\|[^|]*?([\w-]+)\.pcap(?:ng)?\b[^|]*\|[^|]*\|rules? ([^|;]*)[^|]*\|$", page, re.M):
        said = {int(it) for it in re.findall(r"\d+", told)}
        wanted = {int(it) for it in re.findall(r'(?:"record":"finding","rule":|^finding )(\d+)', stored(name), re.M)}
        if said != wanted:
            wrong.append(f"{EXAMPLES}: of {name} it has the rules {sorted(said)}, and what is stored of the capture {sorted(wanted)}")
    return wrong


def lines_to_read(page: str, read: Callable[[str], str]) -> list[str]:
    """Where a row of ASSURANCE that says what to read of specs/ has another number of lines that are not empty."""
    wrong = []
    for told, number in re.findall(r"^\|[^|]*\|(`\w+`: [^|]*)\|([\d,]+)\|$", page, re.M):
        files = [f"crates/{crate}/specs/{name}.antt" for crate, names in re.findall(r"`(\w+)`: ([^;]*)", told) for name in re.findall(r"`(\w+)`", names)]
        lines = sum(bool(line.strip()) for path in files for line in read(path).splitlines())
        if number != f"{lines:,}":
            wrong.append(f"{ASSURANCE}: {told[:60]}.. has {number} lines, and they are {lines:,}")
    return wrong
