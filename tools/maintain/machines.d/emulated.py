"""A guest by qemu without a processor of its own (TCG), with a kernel of Debian and emulated cards.

Its clock goes on with what it does: by a nanosecond, or 2 to the power of SHIFT, for each instruction, and by real time while it has nothing
to do. So it has as much time for its work on a machine that is slow or busy, and what it measures is of that clock."""

from __future__ import annotations

import json
import os
import shutil
import socket
import subprocess
from typing import Any

from checking import Failed, within
from fetched import Kernel
from filing import FILE, LINK, Entry, archive
from guest import ANSWERS, MACS, PLACES, Guest, Line

# What qemu calls a card, and what it is told of it. They are plugged in in the order of PLACES, each at the hub of its cable: the kernel calls
# the second and the third eth1 and eth2, so no name that udev gives is taken.
CARDS = {"virtio": "virtio-net-pci,speed=10000,duplex=full", "e1000e": "e1000e", "igb": "igb", "vmxnet3": "vmxnet3"}
# A card that has a queue for each processor gets two. Others get one: of more each waits for the others, for most of qemu's time.
CARD_PROCESSORS = {"vmxnet3": 2}
NAMED = "[Match]\nPermanentMACAddress={mac}\n[Link]\nName={name}\n"
# For how many seconds of this machine qemu may take to start.
STARTS = 120
APPEND = "console=ttyS0 clocksource=tsc tsc=reliable net.ifnames=0 mitigations=off quiet panic=-1 systemd.show_status=0"


def entry_of(path: str, text: str) -> Entry:
    """A file that is laid over the tree. One that begins as a script may be run; in a folder of what a unit wants it is a link, and the text says
    where it leads."""
    mode = LINK if ".wants/" in path else FILE | (0o755 if text.startswith("#!") else 0o644)
    return Entry(f"over/{path}", text.encode(), mode)


def connected(path: str) -> Line:
    """A connection to a socket of qemu."""
    opened = socket.socket(socket.AF_UNIX)
    if not within(STARTS, lambda: opened.connect_ex(path) == 0):
        raise Failed("qemu opens its sockets", path)
    return Line(opened)


class Emulated(Guest):
    """A guest of qemu. `over` has files that are laid over its tree, by their paths."""

    def __init__(self, qemu: list[str], kernel: Kernel, image: str, card: str, folder: str, over: dict[str, str], processors: int = 0) -> None:
        super().__init__(card, folder)
        self.processors = os.environ.get("PROCESSORS", str(processors or CARD_PROCESSORS.get(card, 1)))
        os.makedirs(folder)
        given = {**{f"etc/systemd/network/10-{name}.link": NAMED.format(name=name, mac=mac) for name, mac in MACS.items()}, **over}
        entries = [entry_of(path, text) for path, text in given.items()]
        with open(kernel.begins, "rb") as begins, open(f"{folder}/initramfs", "wb") as out:
            shutil.copyfileobj(begins, out)
            out.write(archive(entries))
        with open(f"{folder}/log", "w", encoding="utf-8") as log:
            self.process = subprocess.Popen([*qemu, *self.words(kernel, image)], stdin=subprocess.DEVNULL, stdout=log, stderr=log)
        try:
            self.shell, self.monitor = connected(f"{folder}/shell"), connected(f"{folder}/monitor")
            self.monitor.receive(STARTS)
            self.ask("qmp_capabilities")
        except BaseException:
            self.end()
            raise

    def words(self, kernel: Kernel, image: str) -> list[str]:
        """What qemu is called with."""
        memory = os.environ.get("MEMORY", "512")
        words = ["-M", "q35,accel=tcg", "-cpu", os.environ.get("CPU", "max"), "-smp", self.processors, "-m", memory]
        words += ["-icount", f"shift={os.environ.get('SHIFT', '0')},sleep=on", "-nodefaults", "-display", "none", "-no-reboot", "-kernel", kernel.image, "-initrd", f"{self.folder}/initramfs", "-append", APPEND]
        # Nobody writes these files. A guest of UML locks what it reads, so that qemu would not open it.
        for file in image, kernel.modules:
            words += ["-drive", f"file={file},file.locking=off,if=virtio,format=raw,snapshot=on"]
        words += ["-serial", f"file:{self.folder}/console", "-device", "virtio-rng-pci", "-device", "virtio-serial-pci"]
        for name, kind in ("shell", "chardev"), ("monitor", "mon"):
            words += ["-chardev", f"socket,path={self.folder}/{name},server=on,wait=off,id={name}"]
            words += ["-mon", f"{name},mode=control"] if kind == "mon" else ["-device", f"virtserialport,chardev={name},name={name}"]
        for number, (name, hub) in enumerate(PLACES):
            words += ["-netdev", f"hubport,hubid={hub},id=net-{name}", "-device", f"pcie-root-port,id=slot-{name},chassis={number},slot={number}"]
            words += ["-device", f"{CARDS[self.card]},id={name},netdev=net-{name},bus=slot-{name},mac={MACS[name]},romfile="]
        return words

    def ask(self, what: str, **arguments: Any) -> Any:
        """Asks qemu's monitor; fails where it refuses."""
        self.monitor.send(json.dumps({"execute": what, "arguments": arguments}))
        while True:
            told = json.loads(self.monitor.receive(ANSWERS))
            if "error" in told:
                raise Failed(f"qemu does {what}", told["error"])
            if "return" in told:
                return told["return"]

    def set_link(self, up: bool, *names: str) -> None:
        for name in names:
            self.ask("set_link", name=name, up=up)

    def remove(self, name: str) -> None:
        self.ask("device_del", id=name)

    def insert(self, name: str) -> None:
        driver, *more = CARDS[self.card].split(",")
        given: dict[str, Any] = dict(it.split("=") for it in more)
        self.ask("device_add", driver=driver, id=name, netdev=f"net-{name}", bus=f"slot-{name}", mac=MACS[name], romfile="",
                 **{key: int(text) if text.isdecimal() else text for key, text in given.items()})
