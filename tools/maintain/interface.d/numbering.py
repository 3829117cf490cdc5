"""Numbers with names: the variants of enums, and the constants of lagffi, by the names that they have in lag.h."""

from __future__ import annotations

import re
from typing import Iterator, Mapping, NamedTuple

import sources
from bindings import enumerators
from repository import Missing

# The enums whose variants have a name and a text of their own: what these begin with in lag.h, where they stand there.
ENUMS: dict[str, str | None] = {"SystemFault": "NIW_", "BadConfig": "NIW_REASON_", "PortStatus": "NIW_PORT_STATUS_", "WireFault": "NIW_FAULT_",
                                "DistFault": None}
# The enums whose variants get their numbers where they are told, and what stands before a variant's name.
TOLD = {"Received": "RECEIVED_", "ReceiveState": "RECEIVE_", "MuxState": "MUX_", "Assignment": "CONVERSATION_", "MarkerNote": "ANSWERS_",
        "ChurnState": "CHURN_"}
# The numbers of the header alone: what it refuses itself, the subtypes of PDUs, and what the sources say in words.
OWN = {"NIW_NULL": 16, "NIW_SENT_NOTHING": 0, "NIW_SENT_LACPDU": 1, "NIW_SENT_MARKER": 2, "NIW_SHORTEST_FRAME": 14,
       "NIW_TICK_MILLISECONDS": 100, "NIW_ONE_CONVERSATION": 1, "NIW_FEW_CONVERSATIONS": 256, "NIW_MANY_CONVERSATIONS": 4096, "NIW_BY_NUMBER": 0, "NIW_BY_SUM": 1,
       "NIW_STATE_TEXT_ROOM": 87}
# Variants and constants that have a name of their own in C.
VARIANTS = {"Received::Up": "HANDED_UP"}
CONSTANTS = {"HOLDS_SYSTEM_ALREADY": "NIW_HAS_SYSTEM", "HOLDS_QUEUE_ALREADY": "NIW_HAS_QUEUE", "WRONG_BUFFER_LENGTH": "NIW_BUFFER",
             "FRAME_LENGTH_REFUSED": "NIW_FRAME_LENGTH", "NO_CONVERSATION": "NIW_NOT_ASSIGNED", "PORT_LIST_LENGTH": "NIW_MOST_PORTS",
             "CONTROL_FRAME_LENGTH": "NIW_FRAME", "LAST_ALGORITHM": "NIW_BY_FIRST", "BAD_CONFIGURATION": "NIW_BAD_CONFIG",
             "BAD_PORT_NUMBER": "NIW_REASON_PORT_NUMBER", "BAD_ALGORITHM": "NIW_REASON_ALGORITHM"}


class Variant(NamedTuple):
    """A variant of an enum: its `///` line without the number, and what Display writes, if that is a text alone."""

    name: str
    number: int
    said: str
    text: str | None


def variants(source: str, enum: str) -> list[Variant]:
    """The variants of an enum, in the order of their numbers."""
    numbers = {name: int(number) for name, number in re.findall(rf"\b{enum}::(\w+)(?:\([^)]*\)| \{{[^}}]*\}})? => (\d+),", source)}
    body = re.search(rf"^pub enum {enum} \{{\n(.*?)^\}}", source, re.M | re.S)
    said = dict((name, line) for line, name in re.findall(r"^    /// (?:\d+: )?([^\n]*)\n(?:    ///[^\n]*\n)*    (\w+)", body[1] if body else "", re.M))
    texts = dict(re.findall(rf'\b{enum}::(\w+)(?:\([^)]*\))? => \{{?\s*f\.write_str\(\s*"([^"]*)"', source))
    if not numbers or numbers.keys() != said.keys() or len(set(numbers.values())) != len(numbers):
        raise Missing(f"the variants of {enum}, their numbers and their lines are not read alike")
    return [Variant(name, number, said[name], texts.get(name)) for name, number in sorted(numbers.items(), key=lambda it: it[1])]


def known() -> dict[str, list[Variant]]:
    """The variants of each enum of ENUMS."""
    return {enum: variants(sources.owner(rf"^pub enum {enum} \{{"), enum) for enum in ENUMS}


def in_c(enum: str, name: str) -> str:
    """The name of a variant in lag.h."""
    return f"{ENUMS[enum]}{sources.snake(name).upper()}"


def of_header(text: str) -> dict[str, int]:
    """The enumerators and the numbers that the header defines, but for its version, which stands there alone."""
    text = sources.plain(text)
    found = {name: int(number) for name, number in re.findall(r"^#define (NIW_\w+) (\d+)$", text, re.M) if name != "NIW_VERSION"}
    for body in re.findall(r"^enum \{(.*?)\};", text, re.M | re.S):
        for name, number in enumerators(body):
            if name in found:
                raise Missing(f"{name} stands twice in the header")
            found[name] = number
    return found


def told(text: str) -> Iterator[tuple[str, int]]:
    """The variants of TOLD that are matched on, and the number that stands first behind the arrow, if there is one."""
    arms = text.split("=>")
    for before, after in zip(arms, arms[1:]):
        matched = re.search(rf"\b({'|'.join(TOLD)})::(\w+)(?:\([^=]*\)| \{{[^}}]*\}})?\)*\s*$", before)
        number = re.search(r"\b\d+\b", after)
        if matched and number:
            name = VARIANTS.get(f"{matched[1]}::{matched[2]}", sources.snake(matched[2]).upper())
            yield f"NIW_{TOLD[matched[1]]}{name}", int(number[0])


def of_sources(text: str, enums: Mapping[str, list[Variant]]) -> dict[str, int]:
    """What lag.h has to define: the variants of enums, the bits of a state octet, the constants of lagffi, and its own."""
    note = re.search(r"impl MarkerNote \{(.*?)\n\}", sources.owner(r"^impl MarkerNote \{"), re.S)
    found = [(in_c(enum, it.name), it.number) for enum, rows in enums.items() if ENUMS[enum] for it in rows]
    found += [*told(sources.plain(text + (note[1] if note else ""))), *OWN.items()]
    bits = re.findall(r"const (\w+) = (\d+);", sources.owner(r"\bconst SYNCHRONIZATION = "))
    found += [(f"NIW_STATE_{bit}", int(number)) for bit, number in bits]
    text = sources.plain(text + sources.owner(r"\bconst LONGEST_FRAME: "))
    found += [(CONSTANTS.get(name, f"NIW_{name}"), int(number)) for name, number in re.findall(r"\bconst (\w+): (?:u8|u16|u32|usize) = ([\d_]+);", text)]
    numbers: dict[str, int] = {}
    for name, number in found:
        if numbers.setdefault(name, number) != number:
            raise Missing(f"{name} has two numbers in the sources")
    return numbers
