"""The interface of the C library as its sources have it: the exports of crates/lagffi/src with what stands beside them, the structs that they
pass, and the enums whose variants C knows by numbers.

Beside an export stand `///` lines: what lag.h says of it, and behind `Refuses:` the refusals that it answers, in the order in which they are
looked at. NIW_NULL is not named: the functions of the header answer it for each null pointer.
"""

from __future__ import annotations

import functools
import os
import re
from typing import Iterator, NamedTuple

from repository import CRATES, Missing, read_text

SOURCES = os.path.join(CRATES, "lagffi", "src")
# Types of C, and their sizes on x86-64, which are their alignments too.
TYPES = {"u8": "uint8_t", "u16": "uint16_t", "u32": "uint32_t", "u64": "uint64_t", "usize": "size_t", "bool": "bool", "*mut u8": "void *"}
SIZES = {"uint8_t": 1, "uint16_t": 2, "uint32_t": 4, "uint64_t": 8, "size_t": 8, "bool": 1, "void *": 8}
# What has a name of its own in C: a handle, its block, and a buffer for port numbers.
NAMES = {"lag": "handle", "held": "at", "buffer": "numbers"}
# Structs that have another name in C: the handle, three that would have the name of a function, and three of another crate.
STRUCTS = {"Lag": "niw_system", "LagParty": "niw_actor", "LagGroup": "niw_group_id", "LagQueueCounts": "niw_counts", "Carried": "niw_carried",
           "SavedPort": "niw_saved", "Counters": "niw_counters"}
# A slice is a pointer and a length, which has no name in the sources.
LENGTHS = {"keys": "key_count", "ports": "port_count", "response": "room", "numbers": "room", "views": "room",
           "changed": "changed_count", "busy": "busy_count", "freed": "freed_count", "carried": "carried_count", "saved": "saved_count"}
EXPORT = re.compile(r'((?:^///[^\n]*\n)*)#\[unsafe\(no_mangle\)\]\npub extern "C" fn lagffi_(\w+)\(([^)]*)\) -> (\w+)(.*?)^\}', re.M | re.S)
# What lagffi refuses by itself, and the word by which a contract says so.
CONTRACTS = {"NIW_NO_SYSTEM": r"\bno_system\b", "NIW_HAS_SYSTEM": "holds_system_already", "NIW_NO_QUEUE": r"\bno_queue\b",
             "NIW_HAS_QUEUE": "holds_queue_already", "NIW_BUFFER": "wrong_buffer_length|TellsRowsIf", "NIW_NO_PDU": r"\bno_pdu\b"}


def plain(text: str) -> str:
    """A text in Rattle or C without its comments."""
    return re.sub(r"/\*.*?\*/|//[^\n]*", "", text, flags=re.S)


def one_line(text: str) -> str:
    return " ".join(text.split())


def snake(name: str) -> str:
    """SystemFault is system_fault."""
    return re.sub(r"(?<=[a-z])(?=[A-Z])", "_", name).lower()


def files(folder: str) -> list[str]:
    """The sources of a folder, in the order of their paths."""
    return sorted(os.path.join(place, it) for place, _, names in os.walk(folder) for it in names if it.endswith(".rt"))


@functools.cache
def library() -> dict[str, str]:
    """The texts of all crates whose types C sees: each but the tests, examples and programs."""
    found = {}
    for crate in sorted(os.listdir(CRATES)):
        if not crate.startswith(("tests_", "example_", "lagtool", "lagffi")):
            found.update({path: read_text(path) for path in files(os.path.join(CRATES, crate, "src"))})
    return found


def owner(pattern: str) -> str:
    """The text of the one source that has this pattern, wherever it stands."""
    found = [text for text in library().values() if re.search(pattern, text, re.M)]
    if len(found) != 1:
        raise Missing(f"{len(found)} sources, and not one, have {pattern}")
    return found[0]


def text_of_lagffi() -> str:
    """The sources of lagffi."""
    return "\n".join(map(read_text, files(SOURCES)))


class Field(NamedTuple):
    """A field or a parameter in C: its type, its name and how many of them stand there, or 0 for one alone."""

    kind: str
    name: str
    many: int = 0

    def declared(self) -> str:
        return f"{self.kind}{'' if self.kind.endswith('*') else ' '}{self.name}{f'[{self.many}]' if self.many else ''}"


class Export(NamedTuple):
    """A function of the library: its name in C without a prefix, the lines of its comment, what it refuses, answers and takes."""

    name: str
    said: list[str]
    refuses: list[str]
    answer: str
    given: list[Field]

    def parameters(self) -> str:
        return ", ".join(it.declared() for it in self.given)


class Structs:
    """The structs of the sources, each a list of names and types, and what they are in C, each a list of fields."""

    def __init__(self, text: str) -> None:
        bodies = dict(re.findall(r"#\[repr\(C\)\]\s*(?:#\[[^\n]*\]\s*)*pub struct (\w+) \{(.*?)\n\}", text, re.S))
        self.rattle = {name: self.fields(body) for name, body in bodies.items()}
        told = {name: body for name, body in self.rattle.items() if name.startswith("Lag") or name in STRUCTS}
        self.all = {self.name(it): [self.in_c(*field) for field in body] for it, body in told.items()}

    @staticmethod
    def name(of: str) -> str:
        """The name in C of a struct of the sources."""
        return STRUCTS.get(of, f"niw_{snake(of)[4:]}")

    @staticmethod
    def fields(body: str) -> list[tuple[str, str]]:
        """The fields that take room: neither ghost ones nor an allocator."""
        lines = re.findall(r"^ +(?:pub(?:\(\w+\))? )?((?:ghost )?\w+): (.*),$", body, re.M)
        return [(name, kind) for name, kind in lines if not name.startswith("ghost ") and kind != "Global"]

    def in_c(self, name: str, kind: str) -> Field:
        """A field in C. A struct that C does not see has one field, which stands in its place."""
        many = re.fullmatch(r"\[(\w+); (\d+)\]", kind)
        if many:
            return Field(self.in_c(name, many[1]).kind, name, int(many[2]))
        if kind in self.rattle and not (kind.startswith("Lag") or kind in STRUCTS):
            if len(self.rattle[kind]) != 1:
                raise Missing(f"{kind} has not one field")
            [(_, kind)] = self.rattle[kind]
        return Field(self.kind(kind), NAMES.get(name, name))

    def kind(self, kind: str) -> str:
        if kind in TYPES:
            return TYPES[kind]
        if kind in self.rattle:
            return f"struct {self.name(kind)}"
        raise Missing(f"no type of C for {kind}")

    def layout(self, name: str) -> tuple[int, int, dict[str, int]]:
        """The size of a struct, its alignment and the offsets of its fields, by the rules of C."""
        end, most = 0, 1
        offsets: dict[str, int] = {}
        for kind, field, many in self.all[name]:
            size, aligned = self.layout(kind[7:])[:2] if kind.startswith("struct ") else (SIZES[kind],) * 2
            offsets[field] = end = -(-end // aligned) * aligned
            end, most = end + size * (many or 1), max(most, aligned)
        return -(-end // most) * most, most, offsets

    def parameters(self, text: str) -> Iterator[Field]:
        """The parameters of an export, as C has them."""
        for name, kind in re.findall(r"(\w+): ([^,]+)", one_line(text)):
            name, to = NAMES.get(name, name), re.fullmatch(r"&(mut )?(\[)?(\w+)\]?", kind)
            if kind != "Global":
                yield Field(f"{'' if to[1] else 'const '}{self.kind(to[3])} *" if to else self.kind(kind), name)
            if to and to[2]:
                yield Field("size_t", LENGTHS.get(name, "room" if to[1] else "length"))

    def assertions(self) -> str:
        """A program that does not compile where a size or an offset is another one."""
        lines = ['#include "lag.h"']
        for name in self.all:
            size, _, offsets = self.layout(name)
            lines.append(f'_Static_assert(sizeof(struct {name}) == {size}, "size of {name}");')
            lines += [f'_Static_assert(offsetof(struct {name}, {it}) == {at}, "offset of {name}.{it}");' for it, at in offsets.items()]
        return "\n".join(lines) + "\n"


def known_structs() -> Structs:
    return Structs(plain(text_of_lagffi() + "".join(owner(rf"^pub struct {it} \{{") for it in ("Carried", "SavedPort", "Counters"))))


def read_export(found: re.Match[str], known: Structs) -> Export:
    """An export by its text. What its contract says of lagffi's own refusals has to be what it refuses."""
    said, name, given, answer, rest = found.groups()
    lines = [line[4:] for line in said.splitlines()]
    places = [at for at, line in enumerate(lines) if line.startswith("Refuses: ")]
    if len(places) != 1 or places[0] == 0:
        raise Missing(f"lagffi_{name} has not its sentence and then one line `/// Refuses: ..` beside it")
    refuses = re.findall(r"NIW_\w+", " ".join(lines[places[0] :]))
    unlike = [it for it, word in CONTRACTS.items() if (it in refuses) != bool(re.search(word, rest.partition("\n{")[0]))]
    if unlike:
        raise Missing(f"lagffi_{name} refuses {unlike[0]} by its contract alone, or by its line `Refuses:` alone")
    return Export(name, lines[: places[0]], refuses, known.kind(answer), list(known.parameters(given)))


def exports(text: str, known: Structs) -> list[Export]:
    """The exports of a text, in its order."""
    found = [read_export(it, known) for it in EXPORT.finditer(text)]
    if len(found) != text.count("#[unsafe(no_mangle)]"):
        raise Missing("an export of lagffi is not written as this program reads it")
    return found


def nulls(exports: list[Export]) -> str:
    """A program that hands each function each of its pointers as a null pointer, and prints those that it does not refuse."""
    rows = []
    for it in exports:
        status = "" if it.answer == "uint32_t" else ".status"
        for null in (field for field in it.given if "*" in field.kind):
            words = ", ".join("0" if field is null else "room" if "*" in field.kind else "1" for field in it.given)
            rows.append(f'    wrong += niw_{it.name}({words}){status} != NIW_NULL && puts("niw_{it.name}: {null.name}") >= 0;')
    head = '#include <stdio.h>\n#include "lag.h"\n\nint main(void) {\n    static uint64_t space[512];\n    void *room = space;\n    int wrong = 0;\n'
    return head + "\n".join(rows) + "\n    return wrong > 0;\n}\n"
