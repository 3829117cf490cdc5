"""Tries an archive as someone would who has no toolchain."""

from __future__ import annotations

import os
import re
import shutil
import sys
import tarfile
import tempfile
from typing import Iterable, Mapping, Sequence

import documents
import emulating
import imported
from counting import Count, ran
from processors import AMD64, EMULATED, PROCESSORS, Processor, emulator
from repository import WARNINGS, Missing, read_text, want, write_text

# A program over the library: one port whose link comes up, and the LACPDU that it sends within a second.
PROGRAM = r"""
#include <lag.h>
#include <stdio.h>

/* The library keeps its own function of this name, whatever a program has. */
void *rattle_alloc(size_t size, size_t aligned);
void *rattle_alloc(size_t size, size_t aligned)
{
    (void)size;
    (void)aligned;
    return NULL;
}

int main(void)
{
    const uint16_t keys[1] = {7};
    struct niw_system handle = NIW_EMPTY;
    struct niw_config config;
    struct niw_port port;
    uint8_t frame[NIW_FRAME];
    memset(&config, 0, sizeof config);
    memset(&port, 0, sizeof port);
    config.conversations = 256;
    config.mac[0] = port.mac[0] = 2;
    port.number = 3;
    port.key = 7;
    port.active = true;
    if (niw_new(&handle, &config, keys, 1, &port, 1).status != NIW_OK || niw_set_link(&handle, 3, true) != NIW_OK)
        return 3;
    for (int tick = 0; tick < 10; tick++)
        if (niw_tick(&handle) != NIW_OK)
            return 4;
    if (!niw_transmit(&handle, 3, frame, sizeof frame).is)
        return 5;
    for (int at = 0; at < 16; at++)
        printf("%02x", frame[at]);
    printf("\n");
    return niw_free(&handle) == NIW_OK ? 0 : 6;
}
"""
# Destination, source, EtherType, subtype and version of that LACPDU (IEEE 802.1AX-2014, 6.4.2).
PRINTS = "0180c200000202000000000088090101\n"
# Runs of the programs: words, standard input, status, and what standard output begins with; VERSION is that of the archive.
LACPDU = "0101011480000200000000010001008000013d00000002148000020000000002000100800001" + "3d" + "00" * 3 + "03100000" + "00" * 64
RUNS = [
    (["bin/lagtool", "--version"], "", 0, "lagtool VERSION\n"),
    (["bin/lagtool", "decode", LACPDU], "", 0, "lacpdu\n"),
    (["bin/lagtool", "check", "-"], "02:00\n", 1, "1 not hex\n"),
    (["bin/lagtool", "vectors"], "", 0, "V1 ok\n"),
    (["sbin/lagd", "--version"], "", 0, "lagd VERSION\n"),
    (["bin/lagframes", "share/doc/niwhopera/examples/captures/bonding.pcap"], "", 0, "0180c2000002"),
    (["bin/lagconform", "--version"], "", 0, "lagconform VERSION\n"),
    (["bin/lagdraw"], "1 tick 1 10 -> ticked\n", 0, "<svg "),
]
# A processor without what x86-64-v2 adds to x86-64, as qemu has it.
OLDEST = "qemu64,-ssse3,-sse4.1,-sse4.2,-popcnt,-cx16,-sse3"
# What a program on such a processor may say where it cannot run there.
REFUSES = 127


# The words of a line so far, and what bash makes of the last one.
COMPLETED = [
    (["lagtool", "rep"], "replay"),
    (["lagtool", "--ex"], "--explain"),
    (["lagtool", "--p"], "--progress"),
    (["lagtool", "--explain", "che"], "check"),
    (["lagtool", "check", "--"], "--help"),
    (["lagd", "--json", "--fol"], "--folder"),
    (["lagd", "--timeout", "l"], "long"),
    (["lagd", "--folder", "--"], ""),
]
# Completes the last word as bash does, by the file that stands first.
COMPLETE = """
. "$1"; shift
[[ $(complete -p "$1") == *" -F _$1 $1" ]] || exit 1
COMP_WORDS=("$@") COMP_CWORD=$(($# - 1))
"_$1"; echo "${COMPREPLY[@]}"
"""


def unpacked(file: str, folder: str) -> str:
    """Unpacks an archive; answers its one folder."""
    try:
        with tarfile.open(file) as tar:
            tar.extractall(folder)
    except (OSError, tarfile.TarError) as why:
        raise Missing(f"{file} cannot be unpacked: {why}") from None
    found = os.listdir(folder)
    if len(found) != 1 or not os.path.isdir(os.path.join(folder, found[0])):
        raise Missing(f"{file} has not one folder that holds all: {', '.join(sorted(found)[:5]) or 'it is empty'}")
    return os.path.join(folder, found[0])


def processor_of(root: str) -> Processor:
    """For which processor an archive is, by the name of its folder."""
    machine = os.path.basename(root).split("-")[-2]
    found = [it for it in PROCESSORS.values() if it.machine == machine]
    if not found:
        raise Missing(f"{os.path.basename(root)} names no processor")
    return found[0]


def try_programs(count: Count, root: str, processor: Processor) -> None:
    """Runs the programs of the archive."""
    version = os.path.basename(root).split("-")[1]
    for words, given, status, begins in RUNS:
        # lagtool and lagd are of the processor, the others scripts.
        by = processor.runs if os.path.basename(words[0]) in ("lagtool", "lagd") else []
        ended = ran([*by, os.path.join(root, words[0]), *words[1:]], given, cwd=root)
        right = ended.returncode == status and ended.stdout.startswith(begins.replace("VERSION", version))
        count.add(" ".join(words)[:60], "" if right else f"status {ended.returncode}, {ended.stdout[:60]!r}, {ended.stderr[:200]!r}")


def try_module(count: Count, root: str, python: Sequence[str] = (sys.executable,)) -> None:
    """The Python module prints what its own text has."""
    program = (
        "import niwhopera as n; m = n.Mac('020000000001'); "
        "s = n.System(n.Config(n.SystemId(32768, m), (n.PortConfig(3, 7, m),), (7,))); s.set_link(3, True); s.tick(10); "
        "print([sent.frame[:16].hex() for _, sent in s.transmissions()]); s.close()"
    )
    more = {"PYTHONPATH": os.path.join(root, "lib", "python3"), "NIWHOPERA_LIBRARY": os.path.join(root, "lib", "liblag.so.0")}
    ended = ran([*python, "-W", "error", "-c", program], **more)
    right = ended.stdout == "['0180c200000202000000000188090101']\n" and not ended.stderr
    count.add("the Python module sends an LACPDU", "" if right else f"{ended.stdout!r}, {ended.stderr[-300:]!r}")


def libraries(root: str, words: Sequence[str]) -> Iterable[tuple[str, list[str]]]:
    """What a program is linked with, in two kinds."""
    yield "the library to load", [*words]
    yield "the archive", [it.replace("-llag", "-l:liblag.a") for it in words]


def try_library(count: Count, root: str, pkg_config: str, given: Mapping[str, str], load: str, processor: Processor = AMD64) -> None:
    """Builds by pkg-config alone, as C and as C++, with the library to load, in the folder `load`, and with the archive."""
    told = ran(["pkg-config", "--cflags", "--libs", pkg_config], **given)
    if told.returncode:
        count.add("pkg-config reads lag.pc", told.stderr[:200] or "it fails")
        return
    with tempfile.TemporaryDirectory() as folder:
        both = ("cc", "c", "-std=c11"), ("c++", "cc", "-std=c++20")
        for compiler, ending, standard in ((processor.compiler, "c", "-std=c11"),) if processor.prefix else both:
            source, made = os.path.join(folder, f"try.{ending}"), os.path.join(folder, f"try-{ending}")
            write_text(source, f'extern "C" {{\n{PROGRAM}\n}}\n' if ending == "cc" else PROGRAM)
            for kind, words in libraries(root, told.stdout.split()):
                built = ran([compiler, standard, *WARNINGS, "-o", made, source, *words])
                ended = built if built.returncode else ran([*processor.runs, made], LD_LIBRARY_PATH=load)
                count.add(f"{compiler} with {kind}", "" if ended.stdout == PRINTS else ended.stderr[:400] or f"status {ended.returncode}, {ended.stdout!r}")
                if not built.returncode and processor.is_here:
                    try_on_oldest(count, f"a program by {compiler} with {kind}", [made], {"LD_LIBRARY_PATH": load}, PRINTS)


def has_library(compiler: str, folder: str) -> bool:
    """Whether a compiler has its C library: those of other processors are installed without, where recommended packages are left out."""
    source = os.path.join(folder, "none.c")
    write_text(source, "#include <stdio.h>\nint main(void) { return 0; }\n")
    return not ran([compiler, "-static", "-o", os.path.join(folder, "none"), source]).returncode


def try_source(count: Count, root: str) -> None:
    """Builds the program of the library as one file of C, and runs it on each processor whose compiler and emulator are here."""
    folder = os.path.join(root, "share", "liblag")
    here: dict[str, tuple[str, list[str]]] = {"this processor": ("cc", [])}
    elsewhere = {name: (f"{prefix}-gcc", [emulator(emulated) or ""]) for name, (prefix, emulated) in EMULATED.items()}
    with tempfile.TemporaryDirectory() as made:
        source, program = os.path.join(made, "try.c"), os.path.join(made, "try")
        write_text(source, PROGRAM)
        for name, (compiler, runs) in {**here, **elsewhere}.items():
            if not shutil.which(compiler) or not all(runs) or not has_library(compiler, made):
                print(f"skipped: lag.c on {name}: there is no {compiler}, no emulator of it, or no C library")
                continue
            built = ran([compiler, "-O2", "-static", f"-I{folder}", "-o", program, source, os.path.join(folder, "lag.c")])
            ended = built if built.returncode else ran([*runs, program])
            count.add(f"lag.c on {name}", "" if ended.stdout == PRINTS else ended.stderr[:400] or f"status {ended.returncode}, {ended.stdout!r}")


def try_on_oldest(count: Count, what: str, words: list[str], more: Mapping[str, str], prints: str) -> None:
    """A program runs on the oldest processor of x86-64, or says why not."""
    if not shutil.which("qemu-x86_64"):
        return
    ended = ran(["qemu-x86_64", "-cpu", OLDEST, *words], **more)
    right = ended.stdout.startswith(prints) and ended.returncode == 0 or ended.returncode == REFUSES and ended.stderr
    count.add(f"{what} on the oldest x86-64", "" if right else f"status {ended.returncode}, {ended.stderr[:200]!r}")


def try_programs_on_oldest(count: Count, root: str) -> None:
    """The programs on the oldest processor of x86-64."""
    if not shutil.which("qemu-x86_64"):
        print("skipped: the oldest processor: there is no command qemu-x86_64 (Debian: qemu-user)")
    for name in ("sbin/lagd", "bin/lagtool"):
        try_on_oldest(count, name, [os.path.join(root, name), "--version"], {}, os.path.basename(name))


def try_exports(count: Count, root: str) -> None:
    """Both libraries show the functions of lag.h alone, and the one to load and the programs are hardened."""
    functions = set(re.findall(r"^[\w ]+ (lagffi_\w+)\(", read_text(os.path.join(root, "include", "lag.h")), re.M))
    for file, words, wanted in ("liblag.so.0", ["-D"], functions), ("liblag.a", ["-g"], functions):
        told = ran(["nm", *words, "--defined-only", "--format=posix", os.path.join(root, "lib", file)]).stdout
        found = {line.split("@")[0].split(" ")[0] for line in told.split("\n") if " T " in line or " D " in line}
        count.add(f"{file} shows the {len(functions)} functions of lag.h", f"and also or not: {sorted(found ^ wanted)}" if found != wanted else "")
    for file in ("lib/liblag.so.0", "sbin/lagd"):
        told = ran(["readelf", "-dlW", os.path.join(root, file)]).stdout
        missing = [it for it in ("NOW", "GNU_RELRO", "Elf file type is DYN") if it not in told]
        missing += ["a stack that runs no code"] * ("GNU_STACK" not in told or re.search(r"GNU_STACK.* RWE ", told) is not None)
        count.add(f"{file} is hardened", ", ".join(missing))


def try_glibc(count: Count, root: str) -> None:
    """The library needs the glibc that docs/INSTALL.md says."""
    needs = imported.newest_glibc(ran(["readelf", "--version-info", "--wide", os.path.join(root, "lib", "liblag.so.0")]).stdout)
    says = re.findall(r"needs\s+GLIBC\s+([0-9.]+)\s+or\s+later", read_text(os.path.join(root, documents.FOLDER, "docs", "INSTALL.md")))
    count.add(f"docs/INSTALL.md says that the library needs GLIBC {needs}", "" if says == [needs] else f"it says {says}")


def try_manuals(count: Count, root: str) -> None:
    """groff reads each man page; it has a synopsis, and builds nothing."""
    if not shutil.which("groff"):
        print("skipped: man pages: there is no command groff (Debian: groff-base)")
        return
    for at, _, files in sorted(os.walk(os.path.join(root, "share", "man"))):
        for name in sorted(files):
            ended = ran(["groff", "-t", "-man", "-Tutf8", "-ww", "-P-cbou", os.path.join(at, name)])
            lacks = [it for it in ("NAME\n", "SYNOPSIS\n", "DESCRIPTION\n") if it not in ended.stdout]
            has = [it for it in ("make -C", "tools/") if it in ended.stdout]
            why = ended.stderr[:400] or "".join(f"it has no {it}" for it in lacks) or "".join(f"it has {it!r}" for it in has)
            count.add(f"groff reads {name}", why or ("it fails" if ended.returncode else ""))


def try_documents(count: Count, root: str, folder: str) -> None:
    """Each link of a document leads to a file, or to a heading."""
    top, pages, there = os.path.join(root, folder), {}, set()
    for at, folders, files in os.walk(top):
        for name in [*files, *folders]:
            path = os.path.relpath(os.path.join(at, name), top)
            there.add(path)
            if name.endswith(".md"):
                pages[path] = read_text(os.path.join(at, name))
    count.add(f"the links of {len(pages)} documents lead somewhere", "; ".join(documents.dangling(pages, there)[:9]) or ("" if pages else "there is none"))


def try_completions(count: Count, root: str) -> None:
    """bash completes words by the files of the archive."""
    if not shutil.which("bash"):
        print("skipped: completion: there is no command bash")
        return
    for words, becomes in COMPLETED:
        file = os.path.join(root, "share", "bash-completion", "completions", words[0])
        ended = ran(["bash", "--norc", "-c", COMPLETE, "bash", file, *words])
        right = not ended.returncode and not ended.stderr and ended.stdout == f"{becomes}\n"
        why = f"status {ended.returncode}, {ended.stdout[:60]!r}, {ended.stderr[:200]!r}"
        count.add(f"bash completes {' '.join(words)}", "" if right else why)


def tried(count: Count, file: str) -> None:
    """Tries an archive."""
    want("cc", "c++", "pkg-config", "nm", "readelf")
    with tempfile.TemporaryDirectory() as folder:
        root = unpacked(file, folder)
        processor = processor_of(root)
        want(processor.compiler, *processor.runs)
        try_programs(count, root, processor)
        python = emulating.python() if processor.prefix else [sys.executable]
        if python:
            try_module(count, root, python)
        library = os.path.join(root, "lib")
        try_library(count, root, os.path.join(library, "pkgconfig", "lag.pc"), {}, library, processor)
        if processor.is_here:
            try_programs_on_oldest(count, root)
            try_glibc(count, root)
        try_source(count, root)
        try_exports(count, root)
        imported.tried(count, os.path.join(library, "liblag.a"), processor.name)
        try_manuals(count, root)
        try_completions(count, root)
        try_documents(count, root, documents.FOLDER)
        if processor.prefix:
            emulating.tried(count, root, processor)
