"""The kernel's bonding driver with the library, in guests whose kernel looks at what it does; its layout beside the kernel's own; and its package."""

from __future__ import annotations

import os
import re
import shutil
import subprocess
from typing import Callable

import bonding
import kernels
from built import HOSTS, Built
from checking import Failed, Skipped, check, command
from guests import boot, judge
from repository import TOP
from switches import words_of

TESTS = os.path.join(HOSTS, "bonding", "tests")
SCRIPTS = "trial", "partners", "stacked", "exchange", "many", "refused"
# How long a guest may take, in seconds.
LONGEST = {"many": 2400, "refused": 3600, "conform": 3600}
USUAL = 1200
MEMORY = {"many": 2048}
# What other modules of the kernel look into.
STRUCTS = "bonding", "slave", "bond_params", "bond_up_slave", "ad_bond_info"


def kernel(built: Built) -> bonding.Kernel:
    """The kernel of the guests."""
    return kernels.checked(built)


def place(built: Built) -> str:
    """The folder that a guest sees: busybox, both modules, and what tests run."""
    folder = f"{built.folder}/guest-bonding"
    if not os.path.exists(folder):
        of = kernel(built)
        os.makedirs(f"{folder}.part")
        for name, own in ("bonding", False), ("bonding-own", True):
            shutil.copy(bonding.module(of, f"{built.folder}/{name}", own, os.cpu_count() or 2), f"{folder}.part/{name}.ko")
        shutil.copy(built.found(f"{built.unpacked('busybox-static')}/**/bin/busybox"), f"{folder}.part/busybox")
        shutil.copy(built.flows(), f"{folder}.part")
        shutil.copy(built.shared(), f"{folder}.part")
        os.rename(f"{folder}.part", folder)
    return folder


def guest(built: Built, script: str, *more: str) -> str:
    """Runs a script in a guest; answers what it printed."""
    folder = place(built)
    words = [f"mem={MEMORY.get(script, 768)}M", f"SCRIPT={script}", f"PLACE={folder}", f"TESTS={TESTS}", f"PROJECT={TOP}", *more]
    return boot(f"{kernel(built).build}/linux", f"{TESTS}/init", built.folder, f"{built.folder}/{script}{''.join(more)}", LONGEST.get(script, USUAL), *words)


def part(script: str) -> Callable[[Built], None]:
    """A part that runs one script."""
    return lambda built: judge(script, guest(built, script))


def conform(built: Built) -> None:
    if built.beside:
        print(f"row: the kernel's bonding as it is | {words_of(guest(built, 'conform', 'MODULE=bonding-own'))}", flush=True)
    told = guest(built, "conform")
    print(f"row: the kernel's bonding with the library | {words_of(told)}")
    check(re.search(r"^\d+ pass, 0 fail", told, re.M), "lagconform finds nothing in the bonding driver", *re.findall(r"^fail .*$", told, re.M), told[-600:])
    judge("conform", told)


def beside(built: Built) -> None:
    """Frames lost with our module and with the kernel's own, in one guest: rows of a table."""
    judge("beside", guest(built, "beside"))


def layout(built: Built) -> None:
    """No struct that other modules look into is another one, as pahole tells both; and Debian's newest kernels have a module without a warning."""
    if not shutil.which("pahole"):
        raise Skipped("there is no pahole (Debian: pahole)")
    for release in releases(built):
        of = bonding.kernel_of(built.sources, release)
        made = {own: bonding.module(of, f"{built.folder}/{release}-{own}", own, os.cpu_count() or 2) for own in (True, False)}
        with open(f"{built.folder}/{release}-False.log", encoding="utf-8", errors="replace") as log:
            check("warning:" not in log.read(), f"{release}: the module is compiled without a warning")
        for name in STRUCTS:
            seen = {own: command("pahole", "-C", name, file).stdout for own, file in made.items()}
            check(seen[True] and seen[True] == seen[False], f"{release}: struct {name} is that of the kernel's own module", seen[True][:200], seen[False][:200])


def releases(built: Built) -> list[str]:
    """The newest kernel of each series that apt has and the module knows."""
    found = []
    for series in "6.1", "6.12":
        told = built.sources.apt("apt-cache", "pkgnames", f"linux-headers-{series}.", sources=False).stdout
        names = re.findall(r"^linux-headers-(\S+-amd64)$", told, re.M)
        names = [it for it in names if "-rt-" not in it and "-cloud-" not in it]
        found += sorted(names, key=lambda it: [int(n) for n in re.findall(r"\d+", it)])[-1:]
    if not found:
        raise Failed("apt has headers of a kernel that the module knows")
    return found
