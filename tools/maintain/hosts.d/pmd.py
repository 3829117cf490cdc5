"""DPDK's testpmd with a bonded device of mode 4, in network namespaces of its own, and what stands at the far ends of its links.

A bonded device sends an LACPDU with a burst alone, so frames come to testpmd on a third link, 100 a second, which it forwards to the bonded device: data of the
client, of one flow or of many.
"""

from __future__ import annotations

import itertools
import os
import re
import runpy
import select
import subprocess
import sys
import threading
import time
from typing import Callable, NamedTuple, Sequence

from checking import Failed
from repository import TOP
from spaces import inside, ip, packet_socket

STARTS, PROMPT, BONDED = 60, b"testpmd> ", 3
FLOWS = runpy.run_path(os.path.join(TOP, "examples", "conform", "flows.py"), run_name="flows")
# Of data of the client, in an IPv4 header; the number of a frame stands behind the UDP header.
CLIENT, OUTGOING = bytes([198, 18]), 4
NUMBER = slice(42, 46)


def frame(number: int, count: int) -> bytes:
    made = FLOWS["flow"](number % FLOWS["FLOWS"], count)
    assert isinstance(made, bytes)
    return made


class Spaces:
    """Two namespaces, with pairs a0 to b0 and a1 to b1 between them: testpmd is in the second one."""

    numbers = itertools.count()

    def __init__(self, pairs: int) -> None:
        mark = f"{os.getpid()}-{next(Spaces.numbers)}"
        self.far, self.near = f"pmd-far-{mark}", f"pmd-near-{mark}"
        for space in self.far, self.near:
            if subprocess.run(["ip", "netns", "add", space], capture_output=True).returncode:
                raise Failed("a network namespace is made")
            ip(space, "link", "set", "lo", "up")
        for n in range(pairs):
            ip(self.far, "link", "add", f"a{n}", "type", "veth", "peer", "name", f"b{n}", "netns", self.near)
            ip(self.far, "link", "set", f"a{n}", "up")
            ip(self.near, "link", "set", f"b{n}", "up")

    def end(self) -> None:
        for space in self.far, self.near:
            subprocess.run(["ip", "netns", "del", space], capture_output=True)


class Pump:
    """Data of the client, 100 frames a second on d0, whose other end testpmd has."""

    def __init__(self, space: str) -> None:
        self.space, self.many, self.ends, self.sent = space, False, threading.Event(), 0
        ip(space, "link", "add", "d0", "type", "veth", "peer", "name", "d1")
        for name in "d0", "d1":
            ip(space, "link", "set", name, "up")
        self.socket = packet_socket(space, "d0", 0x88B5)
        self.thread = threading.Thread(target=self.send, daemon=True)
        self.thread.start()

    def send(self) -> None:
        for count in itertools.count(1):
            if self.ends.wait(0.01):
                return
            self.socket.send(frame(count if self.many else 0, count))
            self.sent = count

    def stop(self) -> None:
        self.ends.set()
        self.thread.join()
        self.socket.close()
        ip(self.space, "link", "del", "d0")


class Testpmd:
    """`kind` is af_packet, over the pairs, or tap, whose own interfaces t0 and t1 are the far ends of the links. `more` are words of the bonded device."""

    name = "testpmd"

    def __init__(self, spaces: Spaces, program: Sequence[str], log: str, kind: str = "af_packet", more: str = "", environment: dict[str, str] | None = None) -> None:
        self.spaces, self.program, self.log, self.kind, self.more = spaces, program, log, kind, more
        self.environment = {**os.environ, **(environment or {})}
        self.process: subprocess.Popen[bytes] | None = None
        self.pump: Pump | None = None

    def words(self) -> list[str]:
        words = ["ip", "netns", "exec", self.spaces.near, "stdbuf", "-oL", *self.program, "-l", "0,1", "--no-huge", "-m", "256", "--no-pci"]
        words += ["--no-telemetry", "--no-shconf", f"--file-prefix={self.spaces.near}"]
        links = [f"--vdev=net_tap{n},iface=t{n}" if self.kind == "tap" else f"--vdev=net_af_packet{n},iface=b{n}" for n in (0, 1)]
        words += [*links, "--vdev=net_af_packet2,iface=d1", f"--vdev=net_bonding0,mode=4,slave=net_{self.kind}0,slave=net_{self.kind}1{self.more}"]
        return [*words, "--", "-i", "--no-lsc-interrupt", "--portmask=0xc", "--total-num-mbufs=8192"]

    def start(self) -> None:
        self.pump = Pump(self.spaces.near)
        with open(self.log, "a", encoding="utf-8") as log:
            self.process = subprocess.Popen(self.words(), stdin=subprocess.PIPE, stdout=subprocess.PIPE, stderr=log, env=self.environment)
        self.answer()
        self.ask("start")

    def data(self) -> Pump:
        assert self.pump
        return self.pump

    def answer(self) -> str:
        """What it prints until it waits for the next line."""
        assert self.process and self.process.stdout
        told, until = b"", time.monotonic() + STARTS
        while not told.endswith(PROMPT):
            ready = select.select([self.process.stdout], [], [], max(0.0, until - time.monotonic()))[0]
            part = os.read(self.process.stdout.fileno(), 65536) if ready else b""
            if not part:
                raise Failed("testpmd answers", told.decode(errors="replace")[-1500:], open(self.log, encoding="utf-8", errors="replace").read()[-1500:])
            told += part
        return told.decode(errors="replace")

    def ask(self, line: str) -> str:
        assert self.process and self.process.stdin
        self.process.stdin.write(line.encode() + b"\n")
        self.process.stdin.flush()
        return self.answer()

    def view(self) -> str:
        return self.ask(f"show bonding lacp info {BONDED}")

    def carrying(self) -> set[str]:
        """The members that carry, by what it tells of its own side."""
        parts = re.split(r"Slave Port: ", self.view())[1:]
        own = {it.split()[0]: re.search(r"port state: ([ A-Z]*)", it) for it in parts}
        return {port for port, state in own.items() if state and "COLLECTING DISTRIBUTING" in state[1] and "DEFAULTED" not in state[1]}

    def stop(self) -> None:
        if self.pump:
            self.pump.stop()
            self.pump = None
        if self.process:
            self.process.kill()
            self.process.wait()
            self.process = None

    end = stop

    def version(self) -> str:
        return "22.11"


class Lagd:
    """The daemon at the far ends, which carries data on lag0."""

    def __init__(self, program: str, space: str, names: Sequence[str], folder: str) -> None:
        self.space, self.names = space, names
        os.makedirs(folder, exist_ok=True)
        words = ["ip", "netns", "exec", space, program, "--folder", folder, "--carry", "lag0", "23", "32768,02:00:00:00:00:bb", *names]
        with open(f"{folder}/log", "a", encoding="utf-8") as log:
            self.process = subprocess.Popen(words, stdout=log, stderr=log)

    def is_up(self) -> bool:
        return inside(self.space, "ip", "link", "set", "lag0", "up").returncode == 0

    def end(self) -> None:
        self.process.terminate()
        self.process.wait(20)


class Went(NamedTuple):
    """Of data both ways: how many frames went and did not come, from testpmd and to it, and how many came from it by each link."""

    from_it: int
    to_it: int
    by_link: list[int]


class Traffic:
    """64 flows both ways between the client of testpmd and that of lagd, while something happens."""

    def __init__(self, device: Testpmd, peer: Lagd) -> None:
        self.device, self.peer = device, peer
        self.there, self.here = packet_socket(peer.space, "lag0", 3), packet_socket(device.spaces.near, "d0", 3)
        self.seen: tuple[set[int], set[int]] = (set(), set())
        self.first, self.back, self.ends = 0, 0, threading.Event()
        self.threads = [threading.Thread(target=it, daemon=True) for it in (self.send, self.take)]

    def received(self) -> list[int]:
        return [int(inside(self.peer.space, "cat", f"/sys/class/net/{name}/statistics/rx_packets").stdout or 0) for name in self.peer.names]

    def send(self) -> None:
        away = packet_socket(self.peer.space, "lag0", 0x88B5)
        while not self.ends.wait(0.01):
            self.back += 1
            away.send(frame(self.back, self.back))
        away.close()

    def take(self) -> None:
        while not self.ends.is_set():
            ready = select.select([self.there, self.here], [], [], 0.1)[0]
            for wire, seen in (self.there, self.seen[0]), (self.here, self.seen[1]):
                if wire in ready:
                    octets, address = wire.recvfrom(2048)
                    if address[2] != OUTGOING and octets[12:14] == b"\x08\x00" and octets[26:28] == CLIENT:
                        seen.add(int.from_bytes(octets[NUMBER], "big"))

    def during(self, seconds: float, act: Callable[[], object] = lambda: None) -> Went:
        """What is done begins a second after the data, which goes on for so many seconds behind it."""
        pump = self.device.data()
        pump.many = True
        for it in self.threads:
            it.start()
        time.sleep(0.2)
        self.first, before = pump.sent + 1, self.received()
        time.sleep(1)
        act()
        time.sleep(seconds)
        last, back, links = pump.sent, self.back, [now - was for now, was in zip(self.received(), before)]
        time.sleep(0.5)
        self.ends.set()
        for it in self.threads:
            it.join()
        for wire in self.there, self.here:
            wire.close()
        pump.many = False
        return Went(len(set(range(self.first, last + 1)) - self.seen[0]), len(set(range(1, back + 1)) - self.seen[1]), links)


class Partner:
    """A partner system of its own at the end of a link, which says each 0.3 s that it is in sync, until it is to leave. It notes when data of the client came."""

    def __init__(self, space: str, name: str, system: str) -> None:
        self.wire, self.system = packet_socket(space, name, 3), bytes.fromhex(system.replace(":", ""))
        self.leaves, self.ends = threading.Event(), threading.Event()
        self.came: list[float] = []
        self.heard = bytes(20)
        self.thread = threading.Thread(target=self.run, daemon=True)
        self.thread.start()

    def say(self, state: int) -> None:
        actor = b"\1\x14\x80\0" + self.system + b"\0\7\x80\0\0\1" + bytes([state]) + bytes(3)
        body = b"\1\1" + actor + b"\2\x14" + self.heard[2:17] + bytes(3) + b"\3\x10" + bytes(14) + bytes(52)
        self.wire.send(bytes.fromhex("0180c2000002") + self.system + b"\x88\x09" + body)

    def run(self) -> None:
        due = 0.0
        while not self.ends.is_set():
            if select.select([self.wire], [], [], 0.05)[0]:
                octets, address = self.wire.recvfrom(2048)
                if address[2] != OUTGOING and octets[12:15] == b"\x88\x09\x01":
                    self.heard = octets[16:36]
                elif address[2] != OUTGOING and octets[26:28] == CLIENT:
                    self.came.append(time.monotonic())
            if time.monotonic() > due:
                due = time.monotonic() + 0.3
                self.say(0x05 if self.leaves.is_set() else 0x3D)

    def end(self) -> None:
        self.ends.set()
        self.thread.join()
        self.wire.close()


PYTHON = sys.executable
