"""Makes the module of the page, of crates/lagpage: by clang, from what rattle lowers for x86-64. tools/maintain/lag-c makes that of crates/lagffi."""

from __future__ import annotations

import os
import re

from processors import FOR_EACH_X86, compile_crate, done
from repository import TOP, Missing, kit, read_bytes, read_text, want, write_text

EXPORTS = [*(f"lagpage_{job}" for job in ("open", "feed", "end", "decode", "replay", "respond", "vectors")), "page_alloc"]
TARGET = "wasm64-unknown-unknown"
LAYOUT = "e-m:e-p:64:64-p10:8:8-p20:8:8-i64:64-i128:128-n32:64-S128-ni:1:10:20"
# How clang compiles for WebAssembly: the words that rattle itself has for that target.
WORDS = (
    f"--target={TARGET} -mcpu=lime1 -mllvm -expand-div-rem-bits=64 -mllvm -expand-fp-convert-bits=64 -ffunction-sections -fdata-sections"
    " -mllvm -trap-unreachable -mllvm -disable-machine-licm -mllvm -disable-postra-machine-licm -mllvm -sink-common-insts=false"
    " --no-default-config -no-canonical-prefixes -fintegrated-cc1 -fno-crash-diagnostics -Werror -O3"
).split()
STACK = 1 << 20
# What lowers memory to 32 bits, and which instructions the module has.
LOWER = (
    "--enable-memory64 --enable-bulk-memory --enable-mutable-globals --enable-nontrapping-float-to-int --enable-sign-ext --enable-multivalue"
    " --memory64-lowering"
).split()


def keeping(folder: str) -> str:
    """A folder of tools as rattle wants one: the toolchain's, but its clang keeps each module that it is given, before any pass."""
    made, real = os.path.join(folder, "keeping"), os.path.join(kit(), "toolchain")
    os.makedirs(os.path.join(made, "bin"))
    os.symlink(os.path.join(real, "lib"), os.path.join(made, "lib"))
    for name in os.listdir(os.path.join(real, "bin")):
        if name != "clang":
            os.symlink(os.path.join(real, "bin", name), os.path.join(made, "bin", name))
    clang = os.path.join(made, "bin", "clang")
    with open(clang, "w", encoding="utf-8") as it:
        it.write(f'#!/bin/bash\nfor it in "$@"; do case "$it" in *.bc) /bin/cp "$it" {folder}/module.bc;; esac; done\n')
        it.write(f'exec -a clang {real}/bin/clang "$@"\n')
    os.chmod(clang, 0o755)
    return made


def lowered(folder: str, crate: str) -> str:
    """The text of the module as rattle lowers a crate for x86-64, once that is proved."""
    compile_crate(crate, os.path.join(folder, f"{crate}.a"), [FOR_EACH_X86], keeping(folder))
    kept, made = os.path.join(folder, "module.bc"), os.path.join(folder, "from.ll")
    if not os.path.exists(kept):
        raise Missing("rattle called clang with no module: this toolchain lowers in another way")
    show = ["-S", "-emit-llvm", "-Xclang", "-disable-llvm-passes", "-Wno-unused-command-line-argument"]
    done(["clang", "--target=x86_64-unknown-linux-gnu", "-x", "ir", kept, *show, "-o", made], clang())
    return read_text(made)


def clang() -> str:
    """The toolchain's clang, which is its linker of modules, too."""
    return os.path.join(kit(), "toolchain", "bin", "clang")


def compiled(text: str, made: str, words: list[str]) -> None:
    """Compiles a module in LLVM's text to an object for WebAssembly."""
    write_text(f"{made}.ll", text)
    done(["clang", *words, "-c", "-x", "ir", f"{made}.ll", "-o", made], clang())


def retargeted(text: str) -> str:
    """A module in LLVM's text, for WebAssembly in place of x86-64."""
    left = sorted(set(re.findall(r"@llvm\.x86[\w.]*", text)))
    if left:
        raise Missing(f"the module has instructions of x86-64 alone: {', '.join(left)}")
    text = re.sub(r"^target datalayout = .*$", f'target datalayout = "{LAYOUT}"', text, flags=re.M)
    text = re.sub(r"^target triple = .*$", f'target triple = "{TARGET}"', text, flags=re.M)
    # No C library is there, so none of its functions may be called in place of a loop.
    no_calls = '"no-builtin-bcmp" "no-builtin-memcmp" "no-builtin-strlen"'
    return text.replace('"frame-pointer"="non-leaf" ', "").replace('"target-cpu"="x86-64"', f'{no_calls} "target-cpu"="lime1"')


def made(folder: str) -> bytes:
    """The octets of the module."""
    want("wasm-opt")
    names = ("lagpage.o", "heap.o", "builtins.o", "wide.wasm", "page.wasm")
    at = {name: os.path.join(folder, name) for name in names}
    compiled(retargeted(lowered(folder, "lagpage")), at["lagpage.o"], WORDS)
    for name in ("heap", "builtins"):
        source = os.path.join(TOP, "page", f"{name}.c")
        done(["clang", *WORDS, "-ffreestanding", "-fno-builtin", "-c", source, "-o", at[f"{name}.o"]], clang())
    link = ["wasm-ld", "-mwasm64", "--no-entry", "--stack-first", "-z", f"stack-size={STACK}", "--gc-sections", "--strip-all"]
    objects = [at[it] for it in ("lagpage.o", "heap.o", "builtins.o")]
    done([*link, *(f"--export={name}" for name in EXPORTS), "-o", at["wide.wasm"], *objects], clang())
    done(["wasm-opt", *LOWER, at["wide.wasm"], "-o", at["page.wasm"]])
    return read_bytes(at["page.wasm"])
