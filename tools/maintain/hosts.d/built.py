"""The hosts as tools/host builds them, once a run."""

from __future__ import annotations

import glob
import os
import pathlib
import subprocess
import time

from building import archives
from checking import Failed
from fetched import Sources
from repository import COMPILER, MAINTAIN, TOOLS, TOP, WARNINGS

DAY = 24 * 3600
HOSTS = os.path.join(TOP, "hosts")
# What refuses a host what it asks for.
REFUSE = os.path.join(HOSTS, "shared", "tests", "refuse.c")
# No function of the library is longer, in octets.
LAST_FUNCTION = 0x1000
UNDEFINED = "-O1 -g -fno-omit-frame-pointer -fsanitize=undefined -fno-sanitize-recover=undefined"


def functions(path: str) -> list[tuple[int, str]]:
    """The functions of a program or an archive, with their places."""
    rows = [line.split() for line in subprocess.run(["nm", path], capture_output=True, text=True).stdout.splitlines()]
    return [(int(at, 16), name) for at, kind, name in (row for row in rows if len(row) == 3) if kind in "tT" and "." not in name]


class Built:
    """What is built, and where."""

    def __init__(self, sources: Sources, folder: str, beside: bool, teamd: str = "") -> None:
        self.sources, self.folder, self.beside, self.teamd = sources, folder, beside, teamd
        self.trees: dict[str, str] = {}

    def cache(self) -> list[str]:
        return ["--cache", self.sources.cache, "--jobs", str(os.cpu_count() or 2), *([] if self.sources.may_fetch else ["--no-fetch"])]

    def tool(self, *words: str, **environment: str) -> str:
        """What tools/host prints."""
        ended = subprocess.run([os.path.join(TOOLS, "host"), *words, *self.cache()], capture_output=True, text=True, env={**os.environ, **environment})
        if ended.returncode:
            raise Failed(f"tools/host {' '.join(words)}", ended.stderr)
        return ended.stdout.strip()

    def tree(self, name: str, own: bool = False) -> str:
        """The folder of the build of a host."""
        key = f"{name} {own}"
        if key not in self.trees:
            self.trees[key] = self.tool(name, *(["--own"] if own else ["--program"])).splitlines()[-1]
        return self.trees[key]

    def archives(self) -> list[str]:
        return archives(f"{self.sources.cache}/library")

    def shared(self) -> str:
        """The library for Python."""
        made = f"{self.folder}/liblag.so.0"
        if not os.path.exists(made):
            self.compile("-shared", "-o", made, "-Wl,--whole-archive", *self.archives(), "-Wl,--no-whole-archive")
        return made

    def flows(self) -> str:
        made = f"{self.folder}/flows"
        if not os.path.exists(made):
            self.compile("-O2", "-o", made, os.path.join(MAINTAIN, "carry.d", "flows.c"))
        return made

    def loaded(self, name: str, source: str) -> str:
        """A library that is loaded before a program."""
        made = f"{self.folder}/{name}.so"
        if not os.path.exists(made):
            self.compile("-O1", *WARNINGS, "-Wno-pedantic", "-shared", "-fPIC", "-o", made, source)
        return made

    def library_at(self, program: str) -> str:
        """Where the library stands in a program, as refuse.c reads it."""
        names = {name for _, name in functions(self.archives()[0])}
        places = sorted(at for at, name in functions(program) if name in names)
        if not places:
            raise Failed(f"nm finds the library in {program}")
        return f"{os.path.basename(program)}:{places[0]:x}:{places[-1] + LAST_FUNCTION:x}"

    def compile(self, *words: str) -> None:
        ended = subprocess.run([*COMPILER, *words], capture_output=True, text=True)
        if ended.returncode:
            raise Failed(f"{COMPILER[0]} {' '.join(words)[:100]}", ended.stderr[-1500:])

    def unpacked(self, *names: str) -> str:
        """The folder in which packages of the machine are unpacked; they are fetched anew after a day."""
        place = f"{self.sources.cache}/unpacked/{names[0]}"
        done = pathlib.Path(f"{place}.done")
        if done.exists() and done.read_text(encoding="utf-8") == " ".join(names) and time.time() - done.stat().st_mtime < DAY:
            return place
        os.makedirs(place, exist_ok=True)
        for name in names:
            package = self.sources.package(name)
            if not package:
                raise Failed(f"apt has the package {name}")
            subprocess.run(["dpkg-deb", "-x", package, place], check=True)
        done.write_text(" ".join(names), encoding="utf-8")
        return place

    def found(self, pattern: str) -> str:
        at = glob.glob(pattern, recursive=True)
        if not at:
            raise Failed(f"there is {pattern}")
        return at[0]
