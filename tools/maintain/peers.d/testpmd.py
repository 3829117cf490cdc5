"""DPDK's testpmd: a bonded device of mode 4 (802.3ad) over two packet sockets.

Its LACPDUs go out only where a program sends something. So frames come to it on a third link, twenty each second, which it forwards
to the bonded device. What DPDK up to 23.07 calls a slave is a member from 23.11 on; what was run is 22.11.
"""

from __future__ import annotations

import contextlib
import os
import re
import select
import subprocess
import threading
import time

from checking import Failed, Skipped, found
from fetching import Packages
from peer import pipes
from spaces import THEIRS, ip, packet_socket

STARTS = 30
# The number of the drivers' folder in DPDK 23.11, pmds-24.0.
MEMBERS = 24
PROMPT = b"testpmd> "
# The bonded device is port 3, after the links and the port that frames come from. A data frame to all, of a type for experiments.
BONDED, EXPERIMENT = 3, 0x88B5
DATA = b"\xff" * 6 + bytes.fromhex("0200000000dd") + EXPERIMENT.to_bytes(2, "big") + bytes(46)
PAUSE = 0.05


class Pump:
    """Sends data frames, beside the run."""

    def __init__(self) -> None:
        ip(THEIRS, "link", "add", "d0", "type", "veth", "peer", "name", "d1")
        for name in "d0", "d1":
            ip(THEIRS, "link", "set", name, "up")
        self.socket, self.ends = packet_socket(THEIRS, "d0", EXPERIMENT), threading.Event()
        self.thread = threading.Thread(target=self.send, daemon=True)
        self.thread.start()

    def send(self) -> None:
        while not self.ends.wait(PAUSE):
            self.socket.send(DATA)

    def stop(self) -> None:
        self.ends.set()
        self.thread.join()
        self.socket.close()
        ip(THEIRS, "link", "del", "d0")


class Testpmd:
    name, package = "DPDK testpmd", "dpdk-dev"
    mixes_keys = True

    def __init__(self, packages: Packages, folder: str) -> None:
        self.packages, self.folder = packages, os.path.join(folder, "testpmd")
        self.process: subprocess.Popen[bytes] | None = None
        self.pump: Pump | None = None
        os.makedirs(self.folder, exist_ok=True)
        if not packages.path("dpdk-testpmd"):
            needs = [it for it in packages.needs(self.package) if it not in ("libdpdk-dev", "python3")]
            packages.fetch("dpdk", *packages.names("librte-net-af-packet"), *needs, alone=[self.package])
        if not packages.path("dpdk-testpmd"):
            raise Skipped("its package has no dpdk-testpmd")

    def drivers(self) -> str:
        """The folder of the drivers that it loads."""
        for base in f"{self.packages.root}/usr/lib", "/usr/lib":
            for folder, names, _ in os.walk(base):
                found = [it for it in names if it.startswith("pmds-")]
                if found and folder.endswith("/dpdk"):
                    return f"{folder}/{found[0]}"
        raise Skipped("no drivers of DPDK")

    def version(self) -> str:
        """It is told where it starts."""
        with open(f"{self.folder}/log", encoding="utf-8") as log:
            return found(r"RTE Version: 'DPDK (\d+\.\d[\d.]*)", log.read())

    def start(self) -> None:
        self.pump, drivers = Pump(), self.drivers()
        kind = "member" if int(found(r"pmds-(\d+)", drivers)) >= MEMBERS else "slave"
        words = ["ip", "netns", "exec", THEIRS, "nice", "stdbuf", "-oL", self.packages.program("dpdk-testpmd"), "-v", "-l", "0,1"]
        words += ["--no-huge", "-m", "256", "--no-pci", "--no-telemetry", "--no-shconf", "-d", drivers]
        words += [f"--vdev=net_af_packet{port},iface={name}" for port, name in enumerate(("b0", "b1", "d1"))]
        words += [f"--vdev=net_bonding0,mode=4,{kind}=net_af_packet0,{kind}=net_af_packet1"]
        words += ["--", "-i", "--no-lsc-interrupt", "--portmask=0xc", "--total-num-mbufs=4096"]
        with open(f"{self.folder}/log", "a", encoding="utf-8") as log:
            pipe, environment = subprocess.PIPE, self.packages.environment()
            self.process = subprocess.Popen(words, env=environment, stdin=pipe, stdout=pipe, stderr=log)
        self.answer()
        self.ask("start")

    def answer(self) -> str:
        """What it prints until it waits for the next line."""
        _, printed = pipes(self.process)
        told, until = b"", time.monotonic() + STARTS
        while not told.endswith(PROMPT):
            ready = select.select([printed], [], [], max(0, until - time.monotonic()))[0]
            part = os.read(printed.fileno(), 65536) if ready else b""
            if not part:
                raise Failed("testpmd answers", told.decode(errors="replace"))
            told += part
        return told.decode(errors="replace")

    def ask(self, line: str) -> str:
        asked, _ = pipes(self.process)
        asked.write(line.encode() + b"\n")
        asked.flush()
        return self.answer()

    def carrying(self) -> set[str]:
        """The links whose LACP collects and distributes, by what it says of its own side. It calls a link active before that."""
        states = re.findall(r"(?:Slave|Member) Port: (\d)\b.*?port state: ([ A-Z]*)", self.view(), re.S)
        return {f"b{port}" for port, state in states if "COLLECTING DISTRIBUTING" in state}

    def stop(self) -> None:
        if self.pump:
            self.pump.stop()
            self.pump = None
        if not self.process:
            return
        self.process.kill()
        self.process.wait()
        for pipe in pipes(self.process):
            with contextlib.suppress(BrokenPipeError):
                pipe.close()
        self.process = None

    def end(self) -> None:
        self.stop()

    def view(self) -> str:
        return self.ask(f"show bonding lacp info {BONDED}")
