"""Boards with a Cortex-M, which qemu emulates: a program runs there without a system below it, and newlib prints through the emulator."""

from __future__ import annotations

import os
import shutil
import subprocess
from typing import NamedTuple, Sequence

PREFIX = "arm-none-eabi"
VECTORS = os.path.join(os.path.dirname(os.path.abspath(__file__)), "vectors.c")
# What the processor is called here for which programs are compiled, its compiler and words, and what it wants of Debian.
NAME, COMPILER = "Cortex-M3 (Thumb-2)", [f"{PREFIX}-gcc", "-mcpu=cortex-m3", "-mthumb"]
EMULATOR, PACKAGES = "qemu-system-arm", f"gcc-{PREFIX}, libnewlib-{PREFIX}, qemu-system-arm"
LAST = "-kernel"


class Board(NamedTuple):
    """A board by its name in qemu, where its memory for data begins, and how many octets that has; code stands from 0."""

    name: str
    data: int
    octets: int

    @property
    def title(self) -> str:
        """What a row says of it."""
        size = f"{self.octets >> 20} MB" if self.octets >> 20 else f"{self.octets >> 10} kB"
        return f"{self.name} with {size} of memory"

    @property
    def linked(self) -> list[str]:
        """What its programs are linked with."""
        places = f"--section-start=.vectors=0,-Tdata={self.data:#x},--defsym=stack_end={self.data + self.octets:#x},--undefined=vectors"
        return ["--specs=rdimon.specs", VECTORS, f"-Wl,{places}"]

    @property
    def runs(self) -> list[str]:
        """What runs its programs."""
        return [EMULATOR, "-M", self.name, "-display", "none", "-serial", "none", "-monitor", "none", "-semihosting", LAST]


# A Cortex-M4, which runs what is compiled for Cortex-M0 and M3, too; and a Cortex-M3.
LARGE = Board("mps2-an386", 0x21000000, 16 << 20)
SMALL = Board("lm3s6965evb", 0x20000000, 64 << 10)


def command(runs: Sequence[str], program: str, *words: str) -> list[str]:
    """A program with its words, and what runs it before them. A board takes the words as one."""
    return [*runs, program, *(["-append", " ".join(words)] if words and LAST in runs else words)]


def links(*words: str) -> bool:
    """Whether a compiler is here with the C library of its processor, which is a package of its own."""
    if not shutil.which(words[0]):
        return False
    program = b"#include <stdlib.h>\nint main(void) { return 0; }\n"
    return not subprocess.run([*words, "-x", "c", "-o", os.devnull, "-"], input=program, capture_output=True).returncode
