"""lag.h: its enums and texts, prototypes and wrappers, by the sources. What is said beside an enumerator, structs, and all between, is by hand."""

from __future__ import annotations

import re
from typing import Iterator, Mapping

import numbering
import sources
from numbering import Variant, in_c
from repository import Missing
from sources import Export, Structs

# Of each enum, what lagffi has besides the variants: its numbers stand in lag.h, and are compared with lagffi.
MORE: dict[str, list[str]] = {
    "SystemFault": ["NIW_OK", "NIW_NO_SYSTEM", "NIW_HAS_SYSTEM", "NIW_BUFFER", "NIW_NULL", "NIW_BAD_PAYLOAD", "NIW_NO_PDU",
                    "NIW_NO_QUEUE", "NIW_HAS_QUEUE", "NIW_CONVERSATION_FULL", "NIW_ALL_FULL", "NIW_STALE", "NIW_MANY_TICKS"],
    "BadConfig": ["NIW_REASON_ALGORITHM"],
    "PortStatus": [],
    "WireFault": [],
}
# The functions that answer texts, and the enum of each.
TEXTS = {"niw_status_text": "SystemFault", "niw_reason_text": "BadConfig", "niw_port_status_text": "PortStatus"}
# The texts of what the sources do not have, or say with a value or for another limit than C has.
OWN_TEXTS = {
    "NIW_OK": "done",
    "NIW_BAD_CONFIG": "the configuration is refused",
    "NIW_NO_SYSTEM": "the handle holds no system",
    "NIW_HAS_SYSTEM": "the handle holds a system already",
    "NIW_BUFFER": "a buffer has less room than the function asks",
    "NIW_NULL": "a pointer is null",
    "NIW_BAD_PAYLOAD": "the payload is refused",
    "NIW_NO_PDU": "it is neither an LACPDU nor a Marker PDU",
    "NIW_NO_QUEUE": "the handle holds no queues",
    "NIW_HAS_QUEUE": "the handle holds queues already",
    "NIW_CONVERSATION_FULL": "as many frames of the conversation wait as may",
    "NIW_ALL_FULL": "as many frames wait as may in all",
    "NIW_STALE": "the LACPDU that was saved of a port is as old as its timeout",
    "NIW_MANY_TICKS": "more than 65535 ticks in one call",
    "NIW_REASON_PORT_NUMBER": "a port has the number 0 or one that is not above the number before it",
    "NIW_REASON_MAX_LINKS": "the limit of links of an aggregator is above 64",
    "NIW_REASON_ALGORITHM": "the distribution algorithm is not 0 to 2",
}
# A line that is longer than this is broken.
WIDE = 132
PROTOTYPE = re.compile(r"^(?:struct )?\w+ lagffi_(\w+)\([^;]*\);\n", re.M)
WRAPPER = re.compile(r"/\* (?:(?!\*/)[\s\S])*? \*/\nstatic inline (?:struct )?\w+ niw_(\w+)\([^)]*\) \{\n[\s\S]*?^\}\n", re.M)


def replaced(text: str, pattern: str, what: str, make: str) -> str:
    """The text with what stands between the groups of a pattern made anew; it has to stand there once."""
    if len(re.findall(pattern, text, re.S)) != 1:
        raise Missing(f"{what} is not found once")
    return re.sub(pattern, lambda it: it[1] + make + it[3], text, flags=re.S)


def enumerators(enum: str, found: list[Variant], body: str) -> dict[str, int]:
    """The enumerators of an enum of lag.h, by their numbers: the variants, and what it has more."""
    given = {name: int(number) for name, number in re.findall(r"(\w+) = (\d+)", body)}
    missing = [name for name in MORE[enum] if name not in given]
    if missing:
        raise Missing(f"{', '.join(missing)} does not stand beside {enum} in lag.h")
    named = {**{in_c(enum, it.name): it.number for it in found}, **{name: given[name] for name in MORE[enum]}}
    if len(set(named.values())) != len(named):
        raise Missing(f"two names of {enum} have one number in lag.h: {named}")
    return dict(sorted(named.items(), key=lambda it: it[1]))


def written_enum(body: str, named: dict[str, int], said: dict[str, str]) -> str:
    """The lines of an enum. The comment behind a name stays with it; a name without one gets what its variant says."""
    comments = {name: comment for name, comment in re.findall(r"(\w+) = \d+,? */\* (.*?) \*/", body, re.S)}
    last, wide = list(named)[-1], max(len(f"{name} = {number},") for name, number in named.items())
    rows = []
    for name, number in named.items():
        comment = re.sub(r"\n +", "\n" + " " * (wide + 8), comments.get(name, said.get(name, "")))
        rows.append(f"    {f'{name} = {number}' + ('' if name == last else ','):{wide}}" + (f" /* {comment} */" if comment else ""))
    return "\n".join(it.rstrip() for it in rows) + "\n"


def written_texts(named: dict[str, int], texts: Mapping[str, str]) -> str:
    """The elements of an array of texts, from number 0 on."""
    by_number = {number: texts.get(name, "") for name, number in named.items()}
    missing = [name for name in named if not texts.get(name)]
    if missing:
        raise Missing(f"lag.h has no text of {', '.join(missing)}: OWN_TEXTS of interface.d/lag_h.py may have it")
    return ",\n".join(f'        "{by_number.get(number, "unknown")}"' for number in range(max(by_number) + 1))


def with_enums(text: str, known: dict[str, list[Variant]]) -> str:
    """lag.h with the enums and texts of the sources."""
    named = {}
    for enum in MORE:
        pattern = rf"(\nenum \{{\n)([^}}]*?\b{in_c(enum, known[enum][0].name)} = [^}}]*)(\}};\n)"
        was = re.search(pattern, text)
        body = was[2] if was else ""
        named[enum] = enumerators(enum, known[enum], body)
        said = {in_c(enum, it.name): it.said.rstrip(".") for it in known[enum]}
        text = replaced(text, pattern, f"the enum of {enum} in lag.h", written_enum(body, named[enum], said))
    for function, enum in TEXTS.items():
        texts = {**{in_c(enum, it.name): it.text or "" for it in known[enum]}, **OWN_TEXTS}
        pattern = rf"(\b{function}\(\w+ \w+\) \{{\n    static const char \*const texts\[\] = \{{\n)([^}}]*)(\}};\n)"
        text = replaced(text, pattern, f"{function} in lag.h", written_texts(named[enum], texts))
    return text


def head(it: Export) -> str:
    """The first line of a wrapper, with a break behind a parameter where it is too long."""
    line = f"static inline {it.answer} niw_{it.name}("
    for place, field in enumerate(it.given):
        part = field.declared() + (") {" if place + 1 == len(it.given) else ", ")
        line += part if len(line.splitlines()[-1] + part.rstrip()) <= WIDE else f"\n    {part}"
    return line.replace(" \n", "\n")


def prototype(it: Export) -> str:
    """What the library exports: the same line, broken where that of the wrapper is."""
    line = head(it).removeprefix("static inline ").removesuffix(" {")
    return f"{line.replace(f' niw_{it.name}(', f' lagffi_{it.name}(', 1)};\n"


def wrapper(it: Export, nulls: list[str]) -> str:
    """The function of the header: it refuses a null pointer, by a function of these if one answers its struct, and else passes on."""
    pointers = [field.name for field in it.given if field.kind.endswith("*")]
    call, asked = f"lagffi_{it.name}({', '.join(field.name for field in it.given)})", " && ".join(pointers)
    null = "niw_null_status" if it.answer == "uint32_t" else f"niw_null_{it.answer.removeprefix('struct niw_')}"
    few = f"    return {f'({asked})' if len(pointers) > 1 else asked} ? {call} : {null}();"
    if null not in nulls:
        rest = [f"    {it.answer} refused = NIW_ZEROS;", f"    if ({asked}) return {call};", "    refused.status = NIW_NULL;", "    return refused;"]
    else:
        rest = [few] if len(pointers) < 3 else [f"    if ({asked}) return {call};", f"    return {null}();"]
    said = "\n * ".join(it.said)
    return "\n".join([f"/* {said} */", head(it), *rest, "}\n"])


def in_places(text: str, pattern: re.Pattern[str], made: Mapping[str, str], parted: str) -> str:
    """The text with each of its functions made anew. A new one stands behind the one before it in the sources, and one that is gone is left out."""
    stands = {it[1] for it in pattern.finditer(text)}
    behind: dict[str, str] = {}
    last = ""
    for name in made:
        if name in stands:
            last = name
        elif last:
            behind[last] = behind.get(last, "") + parted + made[name]
        else:
            raise Missing(f"no function of lag.h stands before {name} in the sources")
    return pattern.sub(lambda it: made[it[1]] + behind.get(it[1], "") if it[1] in made else "", text)


def with_functions(text: str, exports: list[Export]) -> str:
    """lag.h with the prototypes and wrappers of the exports."""
    nulls = re.findall(r"\b(niw_null_\w+)\(void\) \{", text)
    text = in_places(text, PROTOTYPE, {it.name: prototype(it) for it in exports}, "")
    wrappers = re.compile(WRAPPER.pattern.replace(r"niw_(\w+)", r"niw_((?!state_text\b)\w+)"), re.M)
    return in_places(text, wrappers, {it.name: wrapper(it, nulls) for it in exports}, "\n")


def unlike(what: str, wanted: Mapping[str, object], found: Mapping[str, object]) -> Iterator[str]:
    """What differs between the sources and the header, a line each."""
    for name in sorted(wanted.keys() | found.keys()):
        here, there = wanted.get(name, "nothing"), found.get(name, "nothing")
        if here != there:
            yield f"{what} {name}: the sources have {here}; the header has {there}"


def differences(text: str, structs: Structs, defined: Mapping[str, int]) -> Iterator[str]:
    """How structs and numbers of the header, which stand there by hand, differ from the sources."""
    bodies = re.findall(r"^struct (\w+) \{(.*?)\};", sources.plain(text), re.M | re.S)
    wanted = {name: " ".join(f"{it.declared()};" for it in body) for name, body in structs.all.items()}
    yield from unlike("struct", wanted, {name: sources.one_line(body) for name, body in bodies})
    yield from unlike("number", defined, numbering.of_header(text))
