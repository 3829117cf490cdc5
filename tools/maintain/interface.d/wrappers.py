"""facade/lagc/exports.rs: the functions that C calls, each with a pointer and a length in the place of a slice.

With them nothing rests on how rustc passes a slice, or the allocator, which has no octets.
"""

from __future__ import annotations

import os
import re
from typing import Iterator, NamedTuple

import rust
import sources
from library import RUST_SHOWS
from repository import CRATES, Missing, read_text
from sources import EXPORT, LENGTHS, NAMES, one_line

HEAD = """//! The functions of `lag.h`, as C calls them: what a caller owes stands there.
//!
//! tools/maintain/interface writes this file; it is not changed by hand.
#![allow(clippy::missing_safety_doc, reason = "lag.h says what a caller owes")]

"""


class Given(NamedTuple):
    """A parameter of an export: its name in C, what the wrapper takes for it, and what it hands over."""

    name: str
    takes: str
    hands: str


def given(text: str) -> Iterator[Given]:
    """The parameters of an export by its text."""
    for name, kind in re.findall(r"(\w+): ([^,]+)", one_line(text)):
        name, to = rust.word(NAMES.get(name, name)), re.fullmatch(r"&(mut )?(\[)?(\w+)\]?", kind)
        if kind == "Global":
            yield Given(name, "", "Global")
        elif not to:
            yield Given(name, f"{name}: {kind}", name)
        elif to[2]:
            length = LENGTHS.get(name, "room" if to[1] else "length")
            yield Given(name, f"{name}: *{'mut' if to[1] else 'const'} {to[3]}, {length}: usize", f"{'slice_mut' if to[1] else 'slice'}({name}, {length})")
        else:
            yield Given(name, f"{name}: *{'mut' if to[1] else 'const'} {to[3]}", f"&{to[1] or ''}*{name}")


def wrapper(module: str, name: str, text: str, answer: str) -> list[str]:
    parameters = list(given(text))
    takes, hands = (", ".join(filter(None, (it[at] for it in parameters))) for at in (1, 2))
    return [
        "",
        f"/// `lagffi_{name}` of lag.h.",
        "#[unsafe(no_mangle)]",
        f'pub unsafe extern "C" fn lagffi_{name}({takes}) -> {answer} {{',
        f"    unsafe {{ {module}::lagffi_{name}({hands}) }}",
        "}",
    ]


def module_of(path: str) -> str:
    """The module at the root of lagffi in which a source stands."""
    return os.path.relpath(path, sources.SOURCES).split(os.sep)[0].removesuffix(".rt")


def owner(kind: str, texts: dict[str, str]) -> str:
    """The path by which a type is imported: from a module of lagffi, or the crate that has it."""
    pattern = re.compile(rf"^pub struct {kind}\b", re.M)
    for path, text in texts.items():
        if pattern.search(text):
            return f"crate::{module_of(path)}"
    for path, text in sources.library().items():
        if pattern.search(text):
            return os.path.relpath(path, CRATES).split(os.sep)[0]
    raise Missing(f"no crate has {kind}")


def shown(release: str) -> list[str]:
    """The text by which a program that loads the library tells which one it is."""
    text = f"Rust {release}\\0"
    return [
        "",
        "/// Which library a program runs: the native one has no such text.",
        "#[unsafe(no_mangle)]",
        "#[allow(non_upper_case_globals, reason = \"C has it by this name\")]",
        f'pub static {RUST_SHOWS}: [u8; {len(text) - 1}] = *b"{text}";',
    ]


def exports(release: str) -> str:
    """The whole file of the wrappers."""
    texts = {path: read_text(path) for path in sources.files(sources.SOURCES)}
    kinds, modules, rows = set(), set(), []
    for path, text in texts.items():
        for found in EXPORT.finditer(text):
            _, name, parameters, answer, _ = found.groups()
            kinds |= set(re.findall(r"\b[A-Z]\w+", f"{parameters} {answer}")) - {"Global"}
            modules.add(module_of(path))
            rows += wrapper(module_of(path), name, parameters, answer)
    uses = [f"use crate::{{{', '.join(sorted(modules))}}};", "use super::slices::{slice, slice_mut};", "use std::alloc::Global;"]
    uses += [f"use {owner(it, texts)}::{it};" for it in kinds]
    return HEAD + "\n".join([*sorted(uses), *shown(release), *rows]) + "\n"
