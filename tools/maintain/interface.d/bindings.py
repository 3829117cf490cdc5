"""python/niwhopera/_numbers.py: the numbers, texts and structs of lag.h, and the exports with their types."""

from __future__ import annotations

import keyword
import re

import sources
from repository import Missing
from sources import Export

# Each enum of the header, by its first enumerator: its name in Python, what its enumerators begin with, and what it is.
ENUMS = {
    "NIW_OK": ("Status", "NIW_", "Whether a call was done, or why it was refused."),
    "NIW_REASON_PORTS": ("Reason", "NIW_REASON_", "Why a configuration is refused."),
    "NIW_FAULT_SHORT": ("WireFault", "NIW_FAULT_", "What is wrong with the payload of a control frame."),
    "NIW_STATE_ACTIVITY": ("State", "NIW_STATE_", "The bits of a state octet (IEEE 802.1AX-2014, 6.4.2.3)."),
    "NIW_BY_NUMBER": ("Algorithm", "NIW_", "How a conversation picks its port among those that distribute."),
    "NIW_RECEIVED_DISABLED": ("ReceivedKind", "NIW_RECEIVED_", "What became of a frame that came."),
    "NIW_SENT_NOTHING": ("SentKind", "NIW_SENT_", "Which frame was due: the subtype of its PDU."),
    "NIW_RECEIVE_INITIALIZE": ("ReceiveState", "NIW_RECEIVE_", "The states of the receive machine (6.4.12)."),
    "NIW_MUX_DETACHED": ("MuxState", "NIW_MUX_", "The states of the mux machine, coupled control (6.4.15)."),
    "NIW_PORT_STATUS_DISTRIBUTING": ("PortStatus", "NIW_PORT_STATUS_", "Whether a port distributes, and else the first reason why not."),
    "NIW_SUBTYPE_LACPDU": ("Subtype", "NIW_SUBTYPE_", "The subtypes of PDUs (6.4.2.3, 6.5.3.3)."),
    "NIW_MARKER_INFORMATION": ("MarkerKind", "NIW_MARKER_", "The kinds of Marker PDU, by their TLV type (6.5.3.3)."),
    "NIW_ANSWERS_NEVER_ASKED": ("Answers", "NIW_ANSWERS_", "Whether the peer of a port answers markers."),
    "NIW_CHURN_MONITOR": ("ChurnState", "NIW_CHURN_", "The states of a churn detection machine (6.4.17)."),
    "NIW_CONVERSATION_FREE": ("ConversationState", "NIW_CONVERSATION_", "What a conversation is doing."),
}
FLAGS = {"State"}
NUMBERS = {"uint8_t": "c_uint8", "uint16_t": "c_uint16", "uint32_t": "c_uint32", "uint64_t": "c_uint64", "size_t": "c_size_t"}
HEAD = '''"""The numbers, texts, structs and functions of lag.h.

tools/maintain/interface writes this file; it is not changed by hand.
"""

from __future__ import annotations

import ctypes
from enum import IntEnum, IntFlag
from typing import Any, Callable, Final
'''


def class_name(struct: str) -> str:
    """niw_group_id is NiwGroupId."""
    return "".join(word.capitalize() for word in struct.split("_"))


def in_ctypes(kind: str) -> str:
    """A type of C, as ctypes has it. Octets that are read are given as bytes."""
    if kind == "const uint8_t *":
        return "ctypes.c_char_p"
    if kind == "void *":
        return "ctypes.c_void_p"
    if kind.endswith("*"):
        return f"ctypes.POINTER({in_ctypes(kind[:-1].replace('const', '').strip())})"
    if kind.startswith("struct "):
        return class_name(kind[7:])
    if kind == "bool":
        return "ctypes.c_bool"
    if kind not in NUMBERS:
        raise Missing(f"lag.h: there is no type of ctypes for {kind!r}")
    return f"ctypes.{NUMBERS[kind]}"


def in_python(kind: str, many: str) -> str:
    """What the field of a struct is in Python."""
    if many:
        return "ctypes.Array[ctypes.c_uint8]"
    if kind.startswith("struct "):
        return class_name(kind[7:])
    return "bool" if kind == "bool" else "int | None" if kind == "void *" else "int"


def defines(text: str) -> list[str]:
    """The macros that are numbers or texts, in their order."""
    rows = re.findall(r"^#define NIW_(\w+) (\d+|\"[^\"]*\")$", text, re.M)
    return [f"{name}: Final = {value}" for name, value in rows]


def enumerators(body: str) -> list[tuple[str, int]]:
    """The names and numbers of an enum."""
    found: list[tuple[str, int]] = []
    for name, given in re.findall(r"(\w+)(?:\s*=\s*(\d+))?", body):
        found.append((name, int(given) if given else found[-1][1] + 1 if found else 0))
    return found


def enum_class(body: str) -> list[str]:
    """An enum as a class of Python."""
    rows = enumerators(body)
    if rows[0][0] not in ENUMS:
        raise Missing(f"lag.h: the enum that begins with {rows[0][0]} has no name in ENUMS of interface.d/bindings.py")
    name, begins, what = ENUMS[rows[0][0]]
    base = "IntFlag" if name in FLAGS else "IntEnum"
    return [f"class {name}({base}):", f'    """{what}"""', "", *(f"    {it.removeprefix(begins)} = {number}" for it, number in rows)]


def struct_class(name: str, body: str) -> list[str]:
    """A struct as a class of ctypes."""
    read = re.findall(r"([\w ]+?[ *]+)(\w+)(?:\[(\d+)\])?;", " ".join(body.split()))
    fields = [(kind, f"{field}_" if keyword.iskeyword(field) else field, many) for kind, field, many in read]
    said = [f"    {field}: {in_python(kind.strip(), many)}" for kind, field, many in fields]
    rows = [f'        ("{field}", {in_ctypes(kind.strip())}{f" * {many}" if many else ""}),' for kind, field, many in fields]
    return [f"class {class_name(name)}(ctypes.Structure):", f'    """struct {name}."""', "", *said, "    _fields_ = [", *rows, "    ]"]


def functions(exports: list[Export]) -> list[str]:
    """The exports as attributes of a class, each with the types of its prototype."""
    rows = ["class Functions:", '    """What the library exports, with the types of the header."""', ""]
    rows.append("    def __init__(self, library: ctypes.CDLL) -> None:")
    for it in exports:
        told = class_name(it.answer[7:]) if it.answer.startswith("struct ") else "int"
        rows.append(f"        self.{it.name}: Callable[..., {told}] = _bound(")
        rows.append(f'            library, "lagffi_{it.name}", {in_ctypes(it.answer)}, [{", ".join(in_ctypes(field.kind) for field in it.given)}]')
        rows.append("        )")
    return rows


BOUND = '''def _bound(library: ctypes.CDLL, name: str, answer: Any, given: list[Any]) -> Callable[..., Any]:
    """A function of the library; AttributeError where it has none of this name."""
    function = getattr(library, name)
    function.restype, function.argtypes = answer, given
    return function  # type: ignore[no-any-return]'''


def texts(text: str) -> list[list[str]]:
    """The texts of the header, a tuple for each function that has them."""
    found = []
    for name, body in re.findall(r"^static inline const char \*niw_(\w+)\(\w+ \w+\) \{\n    static const char \*const \w+\[\] = \{(.*?)\};", text, re.M | re.S):
        rows = re.findall(r'"([^"]*)"', body)
        found.append([f"{name.upper()}S: Final = (", *(f'    "{row}",' for row in rows), ")"])
    return found


def module(text: str, exports: list[Export]) -> str:
    """The whole file, by the text of lag.h and its exports."""
    text = sources.plain(text)
    enums = [enum_class(body) for body in re.findall(r"^enum \{(.*?)\};", text, re.M | re.S)]
    structs = [struct_class(name, body) for name, body in re.findall(r"^struct (\w+) \{(.*?)^\};", text, re.M | re.S)]
    if not (enums and structs and texts(text)):
        raise Missing("lag.h has no enums, structs or texts as this program reads them")
    parts = ["\n".join(it) for it in [*enums, *structs]]
    ends = ["\n".join(it) for it in texts(text)]
    return "\n\n\n".join([HEAD + "\n" + "\n".join(defines(text)), *parts, BOUND, "\n".join(functions(exports)), "\n".join(ends)]) + "\n"
