"""What programs write into pages. A part stands between the lines `<!-- written by: COMMAND -->` and `<!-- end -->`; where COMMAND is
`tools/maintain/pages NAME`, it is one of PARTS, which are made of the sources alone, or a table of docs/measured.
"""

from __future__ import annotations

import importlib
import inspect
import os
import re
import subprocess
import sys
from types import ModuleType
from typing import Callable, Iterator, NamedTuple

from repository import TOP, Missing, read_text

PAGES, MEASURED = "tools/maintain/pages", "measured"
BEGIN, END = "<!-- written by: ", "<!-- end -->"
MARKED = re.compile(r"^<!-- written by: (.+?) -->\n\n(.*?)\n<!-- end -->$", re.M | re.S)
SETTINGS, OPTIONS, COUNTS, LINES = (f"lagd/{it}" for it in ("settings.c", "options.c", "counts.h", "lagd.h"))
RULES, HEADER = "crates/findings/src/rule.rt", "crates/lagffi/include/lag.h"
TEXT = r'"((?:[^"\\]|\\.)*)"'


class Key(NamedTuple):
    """A key of a bundle: its name, the letter of its option, its values, what holds if it is not given, what it means, and whether a reload changes it."""

    name: str
    letter: str
    values: str
    usual: str
    means: str
    is_reloaded: bool


def source(path: str) -> str:
    return read_text(os.path.join(TOP, path))


def table(head: list[str], rows: list[list[str]], right: int = 0) -> str:
    """A table of Markdown, whose last columns are numbers where `right` counts them."""
    line = "---|" * (len(head) - right) + "---:|" * right
    cells = ["|".join(["", *(it.replace("|", r"\|") for it in row), ""]) for row in rows]
    return "\n".join(["|".join(["", *head, ""]), "|" + line, *cells]) + "\n"


def rows_of(path: str, name: str) -> list[str]:
    """The rows of a table in C, each as one line."""
    found = re.search(rf"\b{name}\[\] = \{{\n(.*?)\n\}};", source(path), re.S)
    if not found:
        raise Missing(f"{path} has no table {name}")
    without = re.sub(r"/\*.*?\*/", "", found[1], flags=re.S)
    return [" ".join(it.split()) for it in re.findall(r"^    (\{[\"'].*?\}),$", without, re.M | re.S)]


def words_of(row: str, text: str) -> list[str]:
    """The words of which a value of a key is one; none where it is no word."""
    named = re.search(r"\.words = (\w+)", row)
    listed = re.search(rf"\b{named[1]}\[\] = \{{(.*?)\}};", text, re.S) if named else re.search(r"(?:SWITCH\(\w+, |ONE_OF\()(.*?)\)", row)
    return re.findall(TEXT, listed[1]) if listed else []


def key_of(row: str, text: str) -> Key:
    """A key, of its row in C."""
    head = re.match(rf"\{{{TEXT}, (?:'(\w)'|0), ", row)
    if not head:
        raise Missing(f"{SETTINGS} has a row that is not as this program reads it: {row}")
    words, span = words_of(row, text), re.search(r"(NUMBER|SECONDS|MILLISECONDS)\([\w.]+, (\d+), (\d+)\)", row)
    unit = {"SECONDS": " s", "MILLISECONDS": " ms"}.get(span[1], "") if span else ""
    value, given = re.search(rf"\.value = {TEXT}", row), re.search(r"\.usual = (\w+)", row)
    number = re.search(rf"#define {given[1]} (\d+)", text) if given else None
    usual = number[1] if number else given[1] if given else "0"
    if words:
        usual = words[0] if "SWITCH(" not in row or given else words[-1]
    told, expected = re.search(rf"\.help = {TEXT}", row), re.search(rf"\.expected = {TEXT}", row)
    means = re.sub(rf" \({re.escape(usual)}\)$", "", told[1]) if told else ""
    values = ", ".join(words) or (f"{span[2]} to {span[3]}{unit}" if span else (value[1] if value else expected[1] + "PRIORITY,MAC" if expected else ""))
    is_needed = not told
    return Key(head[1], head[2] or "", values, "needed" if is_needed else usual if words or span else "", means, ".restart" not in row)


def keys() -> list[Key]:
    """The keys of a bundle, in the order of the source."""
    text = source(SETTINGS)
    return [key_of(it, text) for it in rows_of(SETTINGS, "BUNDLE_KEYS")]


def of_keys() -> str:
    means = {"key": "the LACP key of the ports", "system": "what this machine is for its peers; no two machines have the same"}
    rows = [[f"`{it.name}`", f"`-{it.letter}`" if it.letter else "", it.values, it.usual, it.means or means.get(it.name, "")] for it in keys()]
    kept = ", ".join(f"`{it.name}`" for it in keys() if not it.is_reloaded)
    return table(["key", "option", "values", "if not given", "means"], rows) + f"\nThese want a restart: {kept}. A reload changes the others.\n"


def of_options() -> str:
    """The options of lagd that are no keys."""
    found = [re.match(rf"\{{'(\w)', {TEXT}, (?:{TEXT}|NULL), (?:{TEXT}|NULL), ", it) for it in rows_of(OPTIONS, "OPTIONS")]
    rows = [[f"`-{it[1]}`, `--{it[2]}{f' {it[3]}' if it[3] else ''}`", it[4]] for it in found if it and it[4]]
    return table(["option", "does"], rows)


def counts() -> Iterator[tuple[str, str, str]]:
    """Each count of lagd: its table, its name and what it counts."""
    for name, rows in re.findall(r"#define EACH_(\w+)_COUNT\(COUNT\) \\\n((?:    COUNT\(.*\n)+)", source(COUNTS)):
        for count, told in re.findall(rf"COUNT\([\w.]+, {TEXT}, {TEXT}\)", rows):
            yield name, count, told


def of_counts() -> str:
    of = {"LIBRARY": "port", "PORT": "port", "CARRY": "data", "MEMBER": "data of a member"}
    return table(["count", "of a", "counts"], [[f"`{count}`", of[name], told] for name, count, told in counts()])


def of_messages() -> str:
    """The message ids of lagd's lines in the journal."""
    rows = re.findall(r'^    KIND\(\w+, 0x\w+, "([0-9a-f]{32})"\) /\* (.*?) \*/', source(LINES), re.M)
    return table(["a line says that", "message id"], [[told, f"`{number}`"] for number, told in rows])


def of_rules() -> str:
    """The rules of findings."""
    rows = re.findall(rf"number: (\d+),(?:\s+kind: [^,]*,\s+rank: \d+,)?\s+name: {TEXT},\s+clause: {TEXT},\s+advice: {TEXT},", source(RULES))
    return table(["rule", "finding", "section", "advice"], [[*it[:3], it[3].replace('\\"', '"')] for it in rows])


def of_calls() -> str:
    """The functions of lag.h, each with the first sentence of its comment."""
    found = re.findall(r"/\* ((?:(?!\*/).)*?) \*/\nstatic inline [^;{]*?\b(niw_\w+)\(", source(HEADER), re.S)
    first = [(name, re.split(r"(?<=[.:;])\s", " ".join(told.replace("\n *", "\n").split()), maxsplit=1)[0].rstrip(":;")) for told, name in found]
    return table(["function", "does"], [[f"`{name}`", told] for name, told in first if not name.endswith("_text")])


def bench() -> ModuleType:
    """The package lagconform, of the repository."""
    sys.path.insert(0, os.path.join(TOP, "python"))
    found = importlib.import_module("lagconform")
    for name in "bench", "groups", "pics":
        importlib.import_module(f"lagconform.{name}")
    sys.path.pop(0)
    return found


def of_tests() -> str:
    return table(["test", "clause", "carried by", "about"], [[it.id, it.clause, it.basis, it.title] for it in bench().groups.TESTS])


def of_groups() -> str:
    return table(["group", "tests", "about"], [[it.name, str(len(it.tests)), it.title] for it in bench().groups.GROUPS])


def names_of(tests: list[str], groups: dict[str, list[str]]) -> str:
    """Tests by their names; a group of which all are there by its own."""
    found = []
    for group, its in groups.items():
        own = [it for it in its if it in tests]
        found += [f"all {group}"] if own == its else own
    return ", ".join(found) or "none"


def of_pics() -> str:
    """What a device may claim, and which tests an item without it leaves out."""
    package = bench()
    groups = {group.name: [it.id for it in group.tests] for group in package.groups.GROUPS}
    needs = {item: [it.id for it in package.groups.TESTS if item in it.needs and item not in package.pics.MANDATORY] for item in package.pics.ITEMS}
    return table(["item", "claims", "not applicable without it"], [[f"`{item}`", said, names_of(needs[item], groups)] for item, said in package.pics.ITEMS.items()])


def of_bench() -> str:
    """What a test calls of the bench, by the first sentence of each docstring."""
    kind = bench().bench.Bench
    calls = [(name, it) for name, it in vars(kind).items() if inspect.isfunction(it) and not name.startswith("_") and it.__doc__]
    rows = []
    for name, it in calls:
        words = [word for word, of in list(inspect.signature(it).parameters.items())[1:]]
        rows.append([f"`b.{name}({', '.join(words)})`", re.split(r"(?<=[.;:])\s", " ".join((it.__doc__ or "").split()), maxsplit=1)[0].rstrip(".;:")])
    return table(["call", "does"], rows)


def of_runs() -> str:
    """How many tests a run has, by its links, and how long it takes."""
    told = subprocess.run([sys.executable, os.path.join(TOP, "tools", "lagconform"), "--list"], capture_output=True, text=True, check=True).stdout
    found = re.findall(r"^(.*? links?(?:, --long)?): (\d+) tests, some (\d+) min, at most (\d+) min$", told, re.M)
    return table(["run", "tests", "minutes", "at most"], [list(it) for it in found], 3)


def of_lagtool() -> str:
    """The lines of lagtool and its options, as its help has them."""
    sys.path.insert(0, os.path.join(TOP, "tools", "lagtool.d"))
    told = importlib.import_module("usage").text("lagtool")
    sys.path.pop(0)
    rows = re.findall(r"^  (lagtool .*?)  (.*)$", told, re.M) + re.findall(r"^  (--[\w-]+) +(.*)$", told, re.M)
    return table(["line", "does"], [[f"`{line}`", does] for line, does in rows])


def of_measured(words: list[str]) -> str:
    """Columns of a table of docs/measured, as `FILE[:TABLE] COLUMN,.. [FIRST-LAST]`, all of which count from 1."""
    name, _, number = words[0].partition(":")
    tables = re.findall(r"(?:^[^#\n].*\n)+", source(f"docs/measured/{name}.tsv"), re.M)
    rows = [line.split("\t") for line in tables[int(number or 1) - 1].splitlines()]
    columns = [int(it) - 1 for it in words[1].split(",")]
    first, last = map(int, (words[2] if words[2:] else f"1-{len(rows) - 1}").split("-"))
    return table([rows[0][it] for it in columns], [[row[it] for it in columns] for row in rows[first : last + 1]])


def of_scripts() -> str:
    """The scripts of examples, each with its first line."""
    names = sorted(it for it in os.listdir(os.path.join(TOP, "examples")) if it.endswith(".toml"))
    return table(["script", "shows"], [[f"[{it[:-5]}]({it})", source(f"examples/{it}").partition("\n")[0].lstrip("# ")] for it in names])


def of_programs() -> str:
    """The programs of examples/c, each with the first sentence of its comment."""
    names = sorted(it for it in os.listdir(os.path.join(TOP, "examples", "c")) if it.endswith((".c", ".h")))
    first = [(it, re.match(r"/\* (.*?)(?:[.:] |[.:]?\n \*\n| \*/)", source(f"examples/c/{it}"), re.S)) for it in names]
    return table(["program", "is"], [[f"[{it}](c/{it})", " ".join(told[1].replace("\n *", " ").split()).rstrip(".:")] for it, told in first if told])


PARTS: dict[str, Callable[[], str]] = {
    "lagd-keys": of_keys, "lagd-options": of_options, "lagd-counts": of_counts, "lagd-messages": of_messages, "rules": of_rules, "calls": of_calls,
    "tests": of_tests, "groups": of_groups, "pics": of_pics, "bench": of_bench, "runs": of_runs, "lagtool": of_lagtool,
    "scripts": of_scripts, "programs": of_programs,
}  # fmt: skip


def part_of(words: list[str]) -> str:
    """A part by the words behind tools/maintain/pages."""
    return of_measured(words[1:]) if words[0] == MEASURED else PARTS[words[0]]()


def with_parts(path: str, text: str, faults: list[str]) -> str:
    """A page whose parts are made anew. What is not marked as it has to be is kept among the faults."""
    if text.count(BEGIN) != len(MARKED.findall(text)) or text.count(BEGIN) != text.count(END):
        faults.append(f"{path}: each part begins with {BEGIN}COMMAND --> and ends with {END}, with an empty line behind and before")

    def part(found: re.Match[str]) -> str:
        tool, *words = found[1].split(" ")
        made = found[2]
        if not os.path.exists(os.path.join(TOP, tool)) or tool == PAGES and words and words[0] not in (MEASURED, *PARTS):
            faults.append(f"{path}: nothing writes a part by the command {found[1]}")
        elif tool == PAGES and words:
            made = part_of(words)
        return f"{BEGIN}{found[1]} -->\n\n{made}\n{END}"

    return MARKED.sub(part, text)
