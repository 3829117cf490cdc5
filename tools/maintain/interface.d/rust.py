"""examples/rust/src/raw.rs: the numbers, structs and exports of lag.h, as Rust declares them."""

from __future__ import annotations

import re

import bindings
import sources
from repository import Missing
from sources import Export

TYPES = {"uint8_t": "u8", "uint16_t": "u16", "uint32_t": "u32", "uint64_t": "u64", "size_t": "usize", "bool": "bool", "void": "c_void"}
KEYWORDS = {"as", "in", "match", "mod", "move", "ref", "type", "use", "where"}
# The longest array that Default has a value of.
MOST_DEFAULT = 32
HEAD = """//! The numbers, structs and functions of `lag.h`. The library exports each `niw_X` as `lagffi_X`, which does not check for null pointers.
//!
//! tools/maintain/interface writes this file; it is not changed by hand.
#![allow(dead_code)]
#![cfg_attr(rustfmt, rustfmt_skip)]

use std::ffi::c_void;
"""


def struct_name(name: str) -> str:
    """niw_group_id is GroupId."""
    return bindings.class_name(name.removeprefix("niw_"))


def in_rust(kind: str) -> str:
    """A type of C, as Rust has it."""
    kind = kind.strip()
    if kind.endswith("*"):
        to = kind[:-1].strip()
        return f"*const {in_rust(to.removeprefix('const '))}" if to.startswith("const ") else f"*mut {in_rust(to)}"
    if kind.startswith("struct "):
        return struct_name(kind[7:])
    if kind not in TYPES:
        raise Missing(f"lag.h: there is no type of Rust for {kind!r}")
    return TYPES[kind]


def word(name: str) -> str:
    return f"r#{name}" if name in KEYWORDS else name


def struct(name: str, body: str) -> list[str]:
    """A struct. A handle is not to be copied."""
    fields = re.findall(r"([\w ]+?[ *]+)(\w+)(?:\[(\d+)\])?;", " ".join(body.split()))
    has_pointer = any("*" in kind for kind, _, _ in fields)
    is_long = any(int(many or 0) > MOST_DEFAULT for _, _, many in fields)
    derives = [] if has_pointer else [f"#[derive(Clone, Copy, Debug{'' if is_long else ', Default'})]"]
    rows = [f"    pub {word(field)}: {f'[{in_rust(kind)}; {many}]' if many else in_rust(kind)}," for kind, field, many in fields]
    return [f"/// `struct {name}`.", "#[repr(C)]", *derives, f"pub struct {struct_name(name)} {{", *rows, "}"]


def numbers(text: str) -> list[str]:
    """The macros that are numbers, and the enumerators."""
    rows = [(name, int(number)) for name, number in re.findall(r"^#define (NIW_\w+) (\d+)$", text, re.M)]
    for body in re.findall(r"^enum \{(.*?)\};", text, re.M | re.S):
        rows += bindings.enumerators(body)
    return [f"pub const {name}: u32 = {number};" for name, number in rows]


def function(it: Export) -> str:
    given = ", ".join(f"{word(field.name)}: {in_rust(field.kind)}" for field in it.given)
    return f"    pub fn lagffi_{it.name}({given}) -> {in_rust(it.answer)};"


def module(text: str, exports: list[Export]) -> str:
    """The whole file, by the text of lag.h and its exports."""
    text = sources.plain(text)
    structs = [struct(name, body) for name, body in re.findall(r"^struct (\w+) \{(.*?)^\};", text, re.M | re.S)]
    parts = [numbers(text), *structs, ['extern "C" {', *map(function, exports), "}"]]
    return HEAD + "".join("\n" + "\n".join(it) + "\n" for it in parts)
