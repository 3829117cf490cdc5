"""Compares the binary interface of the C library with those that are kept, of each release: functions, structs and their fields.

The library has no types in it. So a stand-in is built from lag.h: each function that the header declares, with an empty body. abidw of
libabigail writes its interface down, and abidiff compares. What tools/maintain/live compares with the sources is the header, so this speaks of
the library. docs/USING.md says what may change.
"""

from __future__ import annotations

import glob
import os
import re
import shutil
import subprocess
import sys

import library
from counting import Count
from library import printed
from repository import COMPILER, MAINTAIN, Missing, read_text, write_text

sys.path.append(os.path.join(MAINTAIN, "interface.d"))

import numbering

# The interface of this release; beside it, as liblag-VERSION.abi, those of the releases before it that load as SONAME.
KEPT = os.path.join(os.path.dirname(os.path.abspath(__file__)), "liblag.abi")
# The numbers of each header, a name and its number a line.
KEPT_NUMBERS = os.path.join(os.path.dirname(os.path.abspath(__file__)), "liblag.numbers")
# What abidiff answers where something is gone or differs: bits of its status.
CHANGED, INCOMPATIBLE = 4, 8


def stand_in() -> str:
    """A program text with each function that the library shows, which answers zeros."""
    text = re.sub(r"/\*.*?\*/", "", read_text(library.HEADER), flags=re.S)
    found = re.findall(r"^((?:struct )?\w+) (lagffi_\w+)\((.*?)\);", text, re.M | re.S)
    bodies = []
    for answer, name, given in found:
        names = re.findall(r"(\w+)(?:,|$)", " ".join(given.split()))
        used = " ".join(f"(void){it};" for it in names)
        bodies.append(f"{answer} {name}({given}) {{ {answer} zeros; memset(&zeros, 0, sizeof zeros); {used} return zeros; }}")
    return '#include "lag.h"\n' + "\n".join(bodies) + "\n"


def described(folder: str) -> str:
    """The interface of the header as it is now, as a file for abidiff."""
    source, made, told = (os.path.join(folder, it) for it in ("lag.c", library.SONAME, "liblag.abi"))
    write_text(source, stand_in())
    include = os.path.dirname(library.HEADER)
    script = library.version_script(folder)
    words = ["-g", "-gdwarf-4", "-shared", "-fPIC", f"-Wl,-soname,{library.SONAME}", f"-Wl,--version-script={script}"]
    # Neither the folder nor the lines of the header are part of the interface.
    printed(*COMPILER, *words, f"-I{include}", f"-ffile-prefix-map={folder}=.", f"-ffile-prefix-map={include}=.", "-o", made, source)
    printed("abidw", "--no-show-locs", "--no-corpus-path", "--no-comp-dir-path", "--out-file", told, made)
    return told


def numbers() -> dict[str, int]:
    """The numbers of the header, but for that of the header itself, which rises with each change."""
    return numbering.of_header(read_text(library.HEADER))


def keep(folder: str) -> None:
    """Keeps the interface of the header as it is now."""
    shutil.copy(described(folder), KEPT)
    write_text(KEPT_NUMBERS, "".join(f"{name} {number}\n" for name, number in sorted(numbers().items())))


def kept(file: str) -> list[tuple[str, str]]:
    """The kept files of one kind, each with what it is of."""
    begins, ending = os.path.splitext(file)
    return [(os.path.basename(it).removesuffix(ending), it) for it in sorted(glob.glob(f"{begins}*{ending}"))]


def check_numbers(count: Count) -> None:
    """Each number that is kept is the header's."""
    found = numbers()
    for of, file in kept(KEPT_NUMBERS):
        was = {name: int(number) for name, number in (line.split() for line in read_text(file).splitlines())}
        differs = [f"{name} was {number} and is {found.get(name, 'gone')}" for name, number in was.items() if found.get(name) != number]
        count.add(f"lag.h has the {len(was)} numbers of {of}", "; ".join(differs))


def tried(count: Count, folder: str) -> None:
    """The interface has all that each kept one has."""
    check_numbers(count)
    missing = [it for it in ("abidw", "abidiff") if not shutil.which(it)]
    if missing:
        print(f"skipped: the binary interface: there is no command {missing[0]} (Debian: abigail-tools)")
        return
    now = described(folder)
    for of, file in kept(KEPT):
        ended = subprocess.run(["abidiff", "--no-added-syms", "--no-unreferenced-symbols", file, now], capture_output=True, text=True)
        if ended.returncode & ~(CHANGED | INCOMPATIBLE):
            raise Missing(f"abidiff fails: {ended.stderr.strip()[-400:]}")
        count.add(f"{library.SONAME} has the binary interface of {of}", ended.stdout.strip()[:2000] if ended.returncode else "")
