"""teamd with the library, in guests of User-mode Linux, which has the team driver."""

from __future__ import annotations

import glob
import os
import re
import shutil
from typing import Callable

from built import HOSTS, REFUSE, UNDEFINED, Built
from checking import Skipped, check
from guests import boot, ended, judge
from repository import TOP, write_text
from switches import words_of

TESTS = os.path.join(HOSTS, "teamd", "tests")
# How long a guest may take, in seconds.
LONGEST = {"restarts": 2400, "conform": 2400, "speed": 5400, "many": 3600}
USUAL, UNDER_VALGRIND = 1200, 3600
NAMES = "restarts", "changes", "files"
# Those that --beside runs with teamd as it is, too.
BESIDE = "restarts", "network-manager"
# teamdctl, teamnl and ping, with their libraries.
UTILS = "libteam-utils", "libteam5", "libteamdctl0", "libdaemon0", "iputils-ping", "libcap2", "libidn2-0"
# NetworkManager, and of what it wants that which a small Debian has not.
MANAGER = ("network-manager", "libnm0", "libndp0", "libteamdctl0", "libmm-glib0", "libbluetooth3", "libcurl3-gnutls", "libjansson4", "libpsl5", "libreadline8", "libdaemon0",
           "libapparmor1", "libdbus-1-3", "dbus-bin", "dbus-daemon", "dbus-system-bus-common", "dbus-session-bus-common", "libteam-utils", "libteam5")  # fmt: skip

# A teamd under valgrind, whose log teamd does not close.
VALGRIND = """#!/bin/sh
exec env LD_PRELOAD=/mnt/kept.so valgrind --log-file=/run/valgrind.%p --leak-check=full --show-leak-kinds=definite /mnt/teamd-for-valgrind "$@"
"""
# How many times as slow it is, for the scripts.
SLOW = "SLOW=6"
# The files and functions of this project, in a stack.
OURS = re.compile(r"teamd_runner_lacp\.c|lacp_(team|groups|file|config|values)\.h|lag_(end|state)\.h|lagffi_|niw_")


def place(built: Built) -> str:
    """The folder that a guest sees: kmod, its modules, teamdctl, teamnl, ping and their libraries, and what tests run."""
    folder = f"{built.folder}/guest"
    if not os.path.exists(folder):
        os.makedirs(f"{folder}/lib")
        os.makedirs(f"{folder}/modules/lib")
        linux = built.unpacked("user-mode-linux")
        kmod = built.unpacked("kmod", "libkmod2")
        shutil.copytree(f"{linux}/usr/lib/uml/modules", f"{folder}/modules/lib/modules")
        shutil.copy(built.found(f"{kmod}/**/bin/kmod"), f"{folder}/modprobe")
        shutil.copy(built.found(f"{kmod}/**/libkmod.so.2.*"), f"{folder}/lib/libkmod.so.2")
        team = built.unpacked(*UTILS)
        os.makedirs(f"{folder}/bin")
        for name in "teamdctl", "teamnl", "ping":
            shutil.copy(built.found(f"{team}/**/bin/{name}"), f"{folder}/bin")
        for it in [*glob.glob(f"{team}/usr/lib/*/lib*.so.?"), *glob.glob(f"{team}/lib/*/lib*.so.?")]:
            shutil.copy(it, f"{folder}/lib")
        shutil.copy(built.flows(), folder)
        shutil.copy(built.shared(), folder)
        built.compile("-shared", "-fPIC", "-o", f"{folder}/kept.so", os.path.join(TESTS, "kept.c"))
    return folder


def guest(built: Built, script: str, program: str, name: str, *more: str) -> str:
    """Runs a script in a guest, of a teamd, with more words of its environment; answers what it printed."""
    folder, own = place(built), f"{built.folder}/{script}-{name}"
    if script == MANAGER[0] and not os.path.exists(f"{folder}/{script}"):
        shutil.copytree(built.unpacked(*MANAGER), f"{folder}/{script}", symlinks=True)
        # The /lib of the machine is a link to usr/lib, which a folder in an overlay would hide.
        shutil.copytree(f"{folder}/{script}/lib", f"{folder}/{script}/usr/lib", symlinks=True, dirs_exist_ok=True)
        shutil.rmtree(f"{folder}/{script}/lib")
    shutil.copy(program, f"{folder}/{name}")
    linux = f"{built.sources.cache}/unpacked/user-mode-linux/usr/bin/linux.uml"
    seconds = UNDER_VALGRIND if SLOW in more else LONGEST.get(script, USUAL)
    return boot(linux, f"{TESTS}/init", built.folder, own, seconds, "mem=1024M", f"SCRIPT={script}", f"TEAMD={name}", f"PLACE={folder}", f"TESTS={TESTS}", f"PROJECT={TOP}", *more)


def program(built: Built, own: bool = False, **environment: str) -> str:
    """The program, built once and copied: the next build takes the place of its tree; or the one that the command names."""
    if built.teamd and not own and not environment:
        return built.teamd
    kept = f"{built.folder}/teamd-{own}-{len(environment)}"
    if not os.path.exists(kept):
        told = built.tool("teamd", "--own" if own else "--program", **environment)
        shutil.copy(f"{told.splitlines()[-1]}/teamd/.libs/teamd", kept)
    return kept


def part(script: str) -> Callable[[Built], None]:
    """A part that runs one script."""
    def run_it(built: Built) -> None:
        if built.beside and script in BESIDE:
            print("beside: teamd as it is", *re.findall("^(?:row|passed|FAILED): .*$", guest(built, script, program(built, True), "own"), re.M), sep="\n  ", flush=True)
        judge(script, guest(built, script, program(built), "teamd"))
    return run_it


def sanitized(built: Built) -> None:
    """What teamd does that C leaves open ends it, so that the scripts fail."""
    made = program(built, CFLAGS=UNDEFINED)
    for script in NAMES:
        judge(f"{script}, sanitized", guest(built, script, made, "sanitized"))


def faults(built: Built) -> None:
    """teamd with what it asks for refused."""
    folder = place(built)
    made = f"{folder}/teamd-to-refuse"
    shutil.copy(program(built), made)
    shutil.copy(built.loaded("refuse", REFUSE), folder)
    wrapper = f"{built.folder}/refused-teamd"
    with open(wrapper, "w", encoding="utf-8") as it:
        it.write(f'#!/bin/sh\nexec env LD_PRELOAD=/mnt/refuse.so REFUSE=/run/refuse LIBRARY_AT={built.library_at(made)} /mnt/teamd-to-refuse "$@"\n')
    os.chmod(wrapper, 0o755)
    judge("faults", guest(built, "faults", wrapper, "refused-teamd"))


def findings(told: str) -> list[str]:
    """What valgrind told of its processes, each finding as one line: its words, and the functions of its stack."""
    text = "\n".join(re.sub(r"^valgrind: (==\d+== ?)?", "", line) for line in told.splitlines() if line.startswith("valgrind: "))
    blocks = re.findall(r"^(\S.*)\n((?:   (?:at|by) 0x.*\n)+)", text + "\n", re.M)
    return [f"{re.sub(r'0x[0-9A-F]+', 'ADDRESS', words)}: {' < '.join(re.findall(r'0x[0-9A-F]+: (.*)', stack))}" for words, stack in blocks]


def valgrind(built: Built) -> None:
    """teamd under valgrind. Its time is another one, so what the scripts judge does not count; what valgrind finds in our files does."""
    if not shutil.which("valgrind"):
        raise Skipped("there is no valgrind (Debian: valgrind)")
    folder = place(built)
    shutil.copy(program(built), f"{folder}/teamd-for-valgrind")
    wrapper = f"{built.folder}/valgrind-teamd"
    write_text(wrapper, VALGRIND)
    os.chmod(wrapper, 0o755)
    for script in NAMES:
        told = guest(built, script, wrapper, "valgrind-teamd", SLOW)
        print(f"{script} under valgrind: {len(re.findall('^passed: ', told, re.M))} checks passed; not passed, and not counted:", *re.findall("^FAILED: (.*)$", told, re.M), sep="\n  ")
        found = findings(told)
        print(f"valgrind finds, by {len(set(re.findall(r'^valgrind: ==([0-9]+)==', told, re.M)))} processes:", *(f"{found.count(it)} times {it}" for it in sorted(set(found))), sep="\n  ")
        check(not [it for it in found if OURS.search(it)], f"{script}: valgrind finds nothing in the runner and the library", *[it for it in found if OURS.search(it)][:5])
        check(ended(told) and "valgrind: " in told, f"{script}: the guest comes to its end", told[-800:])


def conform(built: Built) -> None:
    if built.beside:
        print(f"row: teamd as it is | {words_of(guest(built, 'conform', program(built, True), 'own'))}", flush=True)
    told = guest(built, "conform", program(built), "teamd")
    print(f"row: teamd | {words_of(told)}")
    check(re.search(r"^\d+ pass, 0 fail", told, re.M), "lagconform finds nothing in teamd", *re.findall(r"^fail .*$", told, re.M))
