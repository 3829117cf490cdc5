"""Makes the module of which C is made: crates/lagffi for WebAssembly, whose data may stand anywhere."""

from __future__ import annotations

import os

import module
from library import exports
from processors import done
from repository import TOP, read_bytes

# As for the page, but the place of the data is a number that the module is told, and the code is short.
WORDS = [*(it for it in module.WORDS if it != "-O3"), "-O2", "-fPIC"]
LINK = ["wasm-ld", "-mwasm64", "--experimental-pic", "-shared", "--no-entry", "--gc-sections", "--import-undefined", "--strip-all"]


def made(folder: str) -> bytes:
    """The octets of the module."""
    at = {name: os.path.join(folder, name) for name in ("lagffi.o", "builtins.o", "lag.wasm")}
    module.compiled(module.retargeted(module.lowered(folder, "lagffi")), at["lagffi.o"], WORDS)
    builtins = os.path.join(TOP, "page", "builtins.c")
    done(["clang", *WORDS, "-ffreestanding", "-fno-builtin", "-fvisibility=hidden", "-c", builtins, "-o", at["builtins.o"]], module.clang())
    done([*LINK, *(f"--export={name}" for name in exports()), "-o", at["lag.wasm"], at["lagffi.o"], at["builtins.o"]], module.clang())
    return read_bytes(at["lag.wasm"])
