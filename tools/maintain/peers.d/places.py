"""Where a peer that is part of the kernel runs: in our namespace, or in User-mode Linux on the far ends of the pairs."""

from __future__ import annotations

import os
import select
import shlex
import signal
import subprocess
import time

import usermode
from checking import Failed, Skipped, command
from fetching import Packages
from peer import pipes
from repository import write_text
from spaces import THEIRS, inside

STARTS, END = 60, "command-has-ended"
LINKS = ("b0", "b1")
# The guest has the files of this machine, read-only. A shell there reads its standard input. Its devices tell no speed, without
# which the drivers leave a link out: so its links are ends of veth pairs, whose other ends pass each frame on to the devices and
# back. What it sends comes back to its devices, too, and is dropped there by its source address.
INIT = """#!/bin/sh
PATH=/usr/sbin:/usr/bin:/sbin:/bin
export PATH LD_LIBRARY_PATH="{libraries}"
mount -t proc proc /proc
mount -t sysfs sys /sys
mount -t tmpfs tmp /run
stty -echo -onlcr
for driver in veth sch_ingress cls_matchall cls_flower act_mirred act_gact {drivers}; do {folder}/modprobe -d {folder} $driver; done
ip link set lo up
for number in 0 1; do
    ip link add b$number address 02:00:00:00:0b:0$number type veth peer name w$number
    ip link set w$number up
    ip link set vec$number up promisc on
    tc qdisc add dev w$number ingress
    tc qdisc add dev vec$number ingress
    tc filter add dev w$number ingress matchall action mirred egress redirect dev vec$number
    tc filter add dev vec$number ingress pref 1 flower src_mac 02:00:00:00:0b:00/ff:ff:ff:ff:ff:f0 action drop
    tc filter add dev vec$number ingress pref 2 matchall action mirred egress redirect dev w$number
done
PS1= PS2= exec sh
"""


class Here:
    """Our own kernel."""

    kernel = os.uname().release

    def __init__(self, environment: dict[str, str]) -> None:
        self.environment = environment

    def start(self) -> None:
        pass

    def run(self, *words: str) -> str:
        ended = inside(THEIRS, *words, env=self.environment, timeout=STARTS)
        return ended.stdout + ended.stderr

    def stop(self) -> None:
        pass


class Guest:
    """User-mode Linux. It sees both links through packet sockets, and nothing of their carrier."""

    def __init__(self, packages: Packages, folder: str, drivers: list[str]) -> None:
        self.packages, self.folder, self.drivers = packages, os.path.join(folder, "guest"), drivers
        self.process: subprocess.Popen[bytes] | None = None
        os.makedirs(f"{self.folder}/lib", exist_ok=True)
        program, kmod = packages.path("linux.uml"), packages.path("kmod")
        modules = next((it for it in (f"{packages.root}/usr/lib/uml/modules", "/usr/lib/uml/modules") if os.path.isdir(it)), None)
        if not program or not modules or not kmod:
            raise Skipped("no User-mode Linux with modules")
        self.program = program
        self.kernel = f"{os.listdir(modules)[0]} (User-mode Linux)"
        for link, target in ("lib/modules", modules), ("modprobe", kmod):
            if not os.path.islink(f"{self.folder}/{link}"):
                os.symlink(target, f"{self.folder}/{link}")

    def start(self) -> None:
        if self.process:
            return
        init = f"{self.folder}/init"
        libraries = self.packages.environment()["LD_LIBRARY_PATH"]
        write_text(init, INIT.format(libraries=libraries, drivers=" ".join(self.drivers), folder=self.folder))
        os.chmod(init, 0o755)
        words = ["ip", "netns", "exec", THEIRS, self.program, "mem=128M", "root=/dev/root", "rootfstype=hostfs", "rootflags=/"]
        words += ["ro", f"init={init}", f"uml_dir={self.folder}", "con0=fd:0,fd:1", "con=null", "panic=-1", "quiet"]
        words += [f"vec{place}:transport=raw,ifname={name},depth=64,gro=0" for place, name in enumerate(LINKS)]
        with open(f"{self.folder}/log", "w", encoding="utf-8") as log:
            pipe = subprocess.PIPE
            self.process = subprocess.Popen(words, start_new_session=True, stdin=pipe, stdout=pipe, stderr=log, env=usermode.environment(self.folder))
        self.run("true")

    def run(self, *words: str) -> str:
        """Runs a command in the guest; answers what it prints."""
        asked, printed = pipes(self.process)
        asked.write(f"{shlex.join(words)} 2>&1; echo; echo {END[:4]}''{END[4:]}\n".encode())
        asked.flush()
        told, until = b"", time.monotonic() + STARTS
        while f"\n{END}\n".encode() not in told:
            ready = select.select([printed], [], [], max(0, until - time.monotonic()))[0]
            part = os.read(printed.fileno(), 65536) if ready else b""
            if not part:
                raise Failed("User-mode Linux answers", told.decode(errors="replace")[-2000:])
            told += part.replace(b"\r", b"")
        return told.decode(errors="replace").partition(f"\n{END}\n")[0].strip() + "\n"

    def stop(self) -> None:
        """Without input its shell ends, and it with that; what is left is killed."""
        if not self.process:
            return
        asked, printed = pipes(self.process)
        asked.close()
        try:
            self.process.wait(10)
        except subprocess.TimeoutExpired:
            os.killpg(self.process.pid, signal.SIGKILL)
            self.process.wait()
        printed.close()
        self.process = None


def has_driver(kind: str) -> bool:
    """Whether this kernel makes devices of a kind."""
    space = f"lag-driver-{os.getpid()}"
    command("modprobe", "bonding" if kind == "bond" else kind)
    command("ip", "netns", "add", space)
    made = command("ip", "-n", space, "link", "add", "try0", "type", kind)
    command("ip", "netns", "del", space)
    return made.returncode == 0


def place_for(kind: str, drivers: list[str], packages: Packages, folder: str) -> Here | Guest:
    """Where a device of this kind can be made."""
    if has_driver(kind):
        return Here(packages.environment())
    if not packages.path("linux.uml") or not packages.path("kmod"):
        packages.fetch("user-mode-linux", alone=["kmod"])
    return Guest(packages, folder, drivers)
