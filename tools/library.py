"""Links the C library: one object for programs that are linked with it, and one for programs that load it.

Both come from liblagffi.a, which `rt lib` makes, and the C part of the toolchain; of another processor than x86-64 from what rattle
compiles for it, and dist.d/runtime, since the toolchain has no C there. Where there is no toolchain they come from the same sources by cargo, or from
c/lag.c. They show the functions of lag.h and nothing else, so a program may have functions of any other name; what comes from cargo or c/lag.c shows
one text more, which says so.
tools/library makes both in a folder, tools/dist packs them, and tools/maintain/python-tests loads the second one.
"""

from __future__ import annotations

import os
import re
import subprocess
from typing import Sequence

import stock
from processors import AMD64, Processor, compile_crate, take_libraries
from repository import COMPILER, CRATES, RT, TOOLS, TOP, Missing, read_text, runtime, want, write_text

HEADER = os.path.join(CRATES, "lagffi", "include", "lag.h")
ARCHIVE = os.path.join(CRATES, "lagffi", "out", "liblagffi.a")
# The C of another processor, in the place of that of the toolchain.
RUNTIME = os.path.join(TOOLS, "dist.d", "runtime")
# The name by which programs load the library: its number rises where it no longer fits what was built for it (docs/USING.md).
SONAME = "liblag.so.0"
# The version that each function has in the library that is loaded, with the release that had it first.
SYMBOLS = os.path.join(TOOLS, "dist.d", "debian", "liblag0.symbols")
# The library as one file of C, and the text that it alone shows.
PORTABLE = os.path.join(TOP, "c", "lag.c")
PORTABLE_SHOWS = "niw_lag_c"
# What the library by cargo alone shows, and where cargo has it.
RUST_SHOWS = "niw_lag_rust"
# What Debian builds programs with, beside -O2.
HARDENING = ["-fstack-protector-strong", "-D_FORTIFY_SOURCE=2", "-Wl,-z,relro,-z,now,-z,noexecstack"]


def printed(*words: str, given: str | None = None, cwd: str | None = None, env: dict[str, str] | None = None) -> str:
    """What a command prints; stops the tool where it fails, or is not here."""
    try:
        ended = subprocess.run(words, input=given or "", capture_output=True, text=True, cwd=cwd, env=env)
    except FileNotFoundError:
        want(words[0])
        raise
    if ended.returncode:
        raise Missing(f"{' '.join(words)[:300]} failed: {(ended.stderr or ended.stdout).strip()[-400:]}")
    return ended.stdout


def exports() -> list[str]:
    """The functions that lag.h declares, in the order of their names."""
    found = re.findall(r"^[\w ]+ (lagffi_\w+)\(", read_text(HEADER), re.M)
    if not found:
        raise Missing(f"{HEADER} declares no function")
    return sorted(found)


def compiler(processor: Processor) -> list[str]:
    """What a command line of its C compiler begins with."""
    return [processor.compiler] if processor.prefix else COMPILER


def runtime_part(name: str, folder: str, processor: Processor) -> str:
    """An object of dist.d/runtime."""
    made = os.path.join(folder, f"{name}.o")
    printed(*compiler(processor), "-std=gnu11", "-O2", "-fPIC", "-c", "-o", made, os.path.join(RUNTIME, f"{name}.c"))
    return made


def proved(folder: str, processor: Processor = AMD64) -> list[str]:
    """The library of the exports, proved and built, and the C that it wants. LIBRARY names one of this processor that is there already; a liblag.a links
    alone."""
    given = os.environ.get("LIBRARY")
    if processor.prefix:
        made = given or os.path.join(folder, "liblagffi.a")
        if not given:
            compile_crate("lagffi", made, processor.words)
        return [made, runtime_part("memory", folder, processor)]
    if not given:
        want(RT)
        take_libraries()
        printed(RT, "lib", "--jobs", os.environ.get("RT_JOBS", "4"), *processor.words, cwd=os.path.join(CRATES, "lagffi"))
    return [given] if given and os.path.basename(given) == "liblag.a" else [given or ARCHIVE, runtime()]


def one_object(folder: str, parts: list[str], processor: Processor = AMD64) -> str:
    """All that the archives and objects hold as one object, lag.o, of which only the functions of lag.h are seen from outside."""
    want(processor.tool("ld"), processor.tool("objcopy"))
    made, kept = os.path.join(folder, "lag.o"), os.path.join(folder, "exports")
    write_text(kept, "\n".join(exports()) + "\n")
    printed(processor.tool("ld"), "-r", "-o", made, "--whole-archive", *parts)
    printed(processor.tool("objcopy"), f"--keep-global-symbols={kept}", "--strip-debug", made)
    return made


def portable(folder: str, *words: str, processor: Processor = AMD64) -> str:
    """The same object, lag.o, of c/lag.c: it wants a C compiler alone."""
    made = os.path.join(folder, "lag.o")
    # As the native one it imports what docs/USING.md lists, and no more; a section for each function, so that a linker drops what nobody calls.
    words = ("-O2", "-fPIC", "-fno-stack-protector", "-U_FORTIFY_SOURCE", "-ffunction-sections", "-fdata-sections", *words)
    printed(*compiler(processor), *words, f"-I{os.path.dirname(HEADER)}", "-c", "-o", made, PORTABLE)
    return made


def by_cargo(folder: str, *words: str, profile: str = "release", shows: Sequence[str] = ()) -> str:
    """The same object, lag.o, of the sources by stock Rust: it wants cargo, ld and objcopy."""
    why = stock.missing()
    if why:
        raise Missing(why)
    want("ld", "objcopy")
    stock.make_ready()
    printed(stock.CARGO, "build", "--quiet", stock.OFFLINE, "--package", "lagffi", "--profile", profile, *words, cwd=TOP)
    made, kept, names = os.path.join(folder, "lag.o"), os.path.join(folder, "exports"), [*exports(), RUST_SHOWS, *shows]
    write_text(kept, "\n".join(names) + "\n")
    # What the exports reach, and no more.
    printed("ld", "-r", "--gc-sections", "--gc-keep-exported", *(f"--undefined={it}" for it in names), "-o", made, os.path.join(stock.target(), profile, "liblag.a"))
    printed("objcopy", f"--keep-global-symbols={kept}", "--strip-debug", made)
    return made


def archive(folder: str, lag: str) -> str:
    """liblag.a, which links alone. Equal objects give equal octets."""
    made = os.path.join(folder, "liblag.a")
    if os.path.exists(made):
        os.remove(made)
    printed("ar", "rcsD", made, lag)
    return made


def version_script(folder: str, *more: str) -> str:
    """The file that tells the linker what the library shows, and in which version; a version has those before it in it. The first has these
    names, too."""
    made, text, before = os.path.join(folder, "liblag.map"), "", ""
    rows = re.findall(r"^ (lagffi_\w+)@LAG_(\d+) ", read_text(SYMBOLS), re.M)
    for number in sorted({int(number) for _, number in rows}):
        names = "".join(f"    {name};\n" for name in [*(name for name, its in rows if int(its) == number), *([] if before else more)])
        text += f"LAG_{number} {{\nglobal:\n{names}" + ("" if before else "local:\n    *;\n") + f"}}{before};\n"
        before = f" LAG_{number}"
    write_text(made, text)
    return made


def shared(folder: str, lag: str, processor: Processor = AMD64, shows: str = "") -> str:
    """The library for programs that load it, which shows this name, too, if it is one."""
    made = os.path.join(folder, SONAME)
    script = version_script(folder, *([shows] if shows else []))
    words = [f"-Wl,-soname,{SONAME}", "-Wl,--build-id=sha1", f"-Wl,--version-script={script}", "-Wl,--no-undefined", "-Wl,-z,text"]
    printed(*compiler(processor), "-shared", "-O2", *HARDENING, *words, "-o", made, lag)
    return made
