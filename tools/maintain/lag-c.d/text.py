"""The whole of c/lag.c: what it is, memory and numbers by hand, the data and functions of the module, and the functions of lag.h."""

from __future__ import annotations

import os

import functions
from repository import TOP
from shim import Shim
from sources import Export, Structs
from wasm import Module

ROW = 48  # octets of a line
HEAD = os.path.join(TOP, "c", "head.c")
ABOUT = """/* liblag {release} for any compiler of C11: cc -O2 -c lag.c

   The functions of lag.h, as one file that wants nothing but lag.h and a C library; by -ffreestanding no C library, but malloc, realloc, free, memcpy,
   memmove and memset of the program's.

   This is the proved code of the library, compiled by a way that no verdict names: the toolchain proves crates/lagffi and lowers it for x86-64, its
   clang compiles that for WebAssembly, and tools/maintain/lag-c, which writes this file, makes C of each instruction. tools/maintain/portable compares its
   answers with those of the native library. It is not changed by hand.

   -DNIW_POOL            takes memory from what the program gives by niw_give_memory, and calls no malloc, realloc or free
   -DNIW_BIG_ENDIAN=0|1  whether the highest octet of a number comes first, for compilers that do not tell

   The functions f0, f1 .. and its_.. are the module's, the data too. Each address in them is one of the program; the layout of structs, the width of an
   address and the order of octets in memory are those of x86-64 on every processor, and the functions at the end bring what the program has into
   that. Nothing here is written but what the caller gives and what malloc gave. */
"""


def data(octets: bytes) -> str:
    """The constants of the module."""
    rows = [",".join(str(it) for it in octets[at : at + ROW]) for at in range(0, len(octets), ROW)]
    return f"static const ARRAY(data, {max(1, len(octets))}) = {{\n" + ",\n".join(rows or ["0"]) + "\n};\n"


def whole(module: Module, structs: Structs, exports: list[Export], release: str) -> str:
    with open(HEAD, encoding="utf-8") as it:
        head = it.read()
    shim = Shim(structs, module)
    named = f'/* Which library a program runs: the native one has no such text. */\nconst char niw_lag_c[] = "lag.c {release}";\n'
    return "\n".join([ABOUT.format(release=release), head, data(bytes(module.data)), *functions.written(module), shim.text(exports), named])
