"""Which functions of c/lag.c come to memory: those whose calls lead to rattle_alloc or rattle_realloc, or to the lists that are made anew where the
high octet of a number comes first. They are those that lag.h names beside NIW_NO_MEMORY."""

from __future__ import annotations

import re
from typing import Iterator

# A function of c/lag.c, with its name and its body; a call in it, and one by a pointer.
FUNCTION = re.compile(r"^(?!#)[\w *]*?\b(\w+)\([^;{}]*\) \{\n(.*?)^\}", re.M | re.S)
CALL = re.compile(r"\b(\w+)\(")
BY_POINTER = re.compile(r"\(\s*\*+\s*\w+\s*\)\s*\(")
# What lag.h says beside the refusal, up to the next one, and the names in it.
TOLD = re.compile(r"NIW_NO_MEMORY = \d+,\s*/\*(.*?)\*/", re.S)
EXPORT = "lagffi_"


def leading_to(code: str, *ends: str) -> set[str]:
    """The exports of the code whose calls lead to one of these functions, as C names them."""
    calls = {name: set(CALL.findall(body)) for name, body in FUNCTION.findall(code)}
    found = set(ends)
    while more := {name for name, called in calls.items() if name not in found and called & found}:
        found |= more
    return {"niw_" + name[len(EXPORT) :] for name in found if name.startswith(EXPORT)}


def differences(code: str, header: str) -> Iterator[str]:
    """How what lag.h says of refused memory differs from the calls of c/lag.c; a line for each difference."""
    if BY_POINTER.search(code):
        yield "c/lag.c calls a function by a pointer, which this tool does not follow"
    found = TOLD.search(header)
    anywhere, _, with_lists = (found[1] if found else "").partition("; of lag.c")
    told = set(re.findall(r"\bniw_\w+", anywhere))
    for name in sorted(told ^ leading_to(code, "rattle_alloc", "rattle_realloc")):
        yield f"{name}: lag.h and c/lag.c differ on whether it takes memory"
    for name in sorted((told | set(re.findall(r"\bniw_\w+", with_lists))) ^ leading_to(code, "rattle_alloc", "rattle_realloc", "list_of")):
        yield f"{name}: lag.h and c/lag.c differ on whether it takes memory for a list"
