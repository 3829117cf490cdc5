"""Runs lagconform beside a peer, and makes the table of verdicts.

The peer stands in one network namespace, and lagconform in the other one. Its hook asks this trial, over a socket, to start, end, or send.
"""

from __future__ import annotations

import json
import os
import runpy
import shlex
import signal
import socket
import subprocess
import sys
import tempfile
import threading
from collections import Counter
from typing import Any, Callable, Sequence

import testpmd
from bonding import Bonding
from checking import Failed, check, command, within
from daemon import ENDS
from fetching import Packages
from openvswitch import OpenVSwitch
from repository import TOP
from spaces import OURS, THEIRS, drop_spaces, ip, make_spaces
from teamd import Teamd

PYTHON, HOOK = os.path.join(TOP, "python"), os.path.join(os.path.dirname(os.path.abspath(__file__)), "hook.py")
FLOWS = os.path.join(TOP, "examples", "conform", "flows.py")
# Fails of each peer that were looked at by hand, with their reasons.
KNOWN = os.path.join(os.path.dirname(HOOK), "known")
BOTH = {"b0", "b1"}
STARTS = 30
# The words behind a verdict in the table.
SIGNS = {"pass": "pass", "fail": "**fail**", "inconclusive": "inconclusive", "skipped": "-", "not applicable": "n/a"}
COUNTED = ("pass", "fail", "inconclusive", "skipped", "not applicable")


class Device:
    """A peer in our other namespace, and what a hook asks for of it."""

    # The interface of the client of its bond.
    client = ""

    def __init__(self, peer: Any) -> None:
        self.peer = peer
        self.sender: subprocess.Popen[bytes] | None = None

    def start(self) -> None:
        self.peer.start()

    def end(self) -> None:
        self.data("stop")
        self.peer.end()

    def link(self, number: int, way: str) -> None:
        ip(THEIRS, "link", "set", f"b{number - 1}", way)

    def data(self, what: str) -> None:
        if self.sender:
            self.sender.kill()
            self.sender.wait()
            self.sender = None
        if what == "start":
            self.sender = subprocess.Popen(["ip", "netns", "exec", THEIRS, sys.executable, FLOWS, self.client])

    def do(self, words: Sequence[str]) -> str:
        """Does what a hook asks for; answers what there is to say. What it does not know is a KeyError."""
        if words[0] == "stop":
            self.peer.stop()
        elif words[0] == "start":
            self.peer.start()
        elif words[0] in ("down", "up"):
            self.link(int(words[1]), words[0])
        elif words[0] == "data":
            self.data(words[1])
        elif words[0] != "reset":
            raise KeyError(words[0])
        return ""


class Ovs(Device):
    """Open vSwitch: its client is one more port of the bridge."""

    client = "d0"

    def __init__(self, packages: Packages, folder: str) -> None:
        super().__init__(OpenVSwitch(packages, folder))

    def start(self) -> None:
        ip(THEIRS, "link", "add", "d0", "type", "veth", "peer", "name", "d1")
        for name in "d0", "d1":
            ip(THEIRS, "link", "set", name, "up")
        self.peer.start()
        self.peer.ask("ovs-vsctl", f"--db=unix:{self.peer.folder}/db.sock", "--may-exist", "add-port", "br0", "d1")


class Pump(testpmd.Pump):
    """Frames of one flow for testpmd, or of many."""

    many = False

    def send(self) -> None:
        frames = frames_of_flows()
        number = 0
        while not self.ends.wait(0.01):
            number = (number + 1) % len(frames) if Pump.many else 0
            self.socket.send(frames[number])


def frames_of_flows() -> list[bytes]:
    """A frame of each flow, as examples/conform/flows.py makes them."""
    space = runpy.run_path(FLOWS, run_name="flows")
    return [space["flow"](number) for number in range(space["FLOWS"])]


class Pmd(Device):
    """testpmd, whose packet sockets don't see a carrier."""

    def __init__(self, packages: Packages, folder: str) -> None:
        testpmd.Pump = Pump  # type: ignore[misc]
        super().__init__(testpmd.Testpmd(packages, folder))

    def link(self, number: int, way: str) -> None:
        raise KeyError(way)

    def data(self, what: str) -> None:
        Pump.many = what == "start"


class InPlace(Device):
    """A peer in the kernel, of this machine or of a guest."""

    @property
    def is_guest(self) -> bool:
        return hasattr(self.peer.place, "process")

    def link(self, number: int, way: str) -> None:
        self.peer.place.run("ip", "link", "set", f"w{number - 1}" if self.is_guest else f"b{number - 1}", way)

    def data(self, what: str) -> None:
        if not self.is_guest:
            super().data(what)
        elif what == "start":
            self.peer.place.run("sh", "-c", f"{sys.executable} {FLOWS} {self.client} > /run/flows.log 2>&1 & echo $! > /run/flows")
        elif self.peer.place.process:
            self.peer.place.run("sh", "-c", "[ -f /run/flows ] && kill $(cat /run/flows); rm -f /run/flows")


class Bond(InPlace):
    """The bonding driver."""

    client = "bond0"

    def __init__(self, packages: Packages, folder: str) -> None:
        super().__init__(Bonding(packages, folder))
        if self.is_guest:
            self.peer.place.drivers.append("af_packet")


class Team(InPlace):
    """teamd."""

    client = "team0"

    def __init__(self, packages: Packages, folder: str) -> None:
        super().__init__(Teamd(packages, folder))
        if self.is_guest:
            self.peer.place.drivers.append("af_packet")


class OwnDaemon:
    """`lagd`, which carries data."""

    name = "lagd"

    def __init__(self, program: str, folder: str) -> None:
        self.program, self.folder = program, os.path.join(folder, "lagd.run")
        self.process: subprocess.Popen[bytes] | None = None
        os.makedirs(self.folder, exist_ok=True)

    def start(self) -> None:
        words = ["ip", "netns", "exec", THEIRS, self.program, "--folder", self.folder, "--carry", "lag0", "23", "32768,02:00:00:00:00:bb", "b0", "b1"]
        with open(f"{self.folder}/log", "a", encoding="utf-8") as log:
            self.process = subprocess.Popen(words, stdout=log, stderr=log)
        if not within(STARTS, lambda: command("ip", "-n", THEIRS, "link", "set", "lag0", "up").returncode == 0):
            raise Failed("the daemon makes its device")

    def stop(self) -> None:
        if self.process:
            self.process.terminate()
            self.process.wait(ENDS)
            self.process = None

    def end(self) -> None:
        self.stop()

    def version(self) -> str:
        return command(self.program, "--version").stdout.split()[-1]


class Lagd(Device):
    """The daemon in the place of a peer."""

    client = "lag0"


KINDS: dict[str, Callable[[Packages, str], Device]] = {"openvswitch": Ovs, "testpmd": Pmd, "teamd": Team, "bonding": Bond}


def serve(device: Device, path: str) -> None:
    """Answers the hook, one call at a time."""
    listening = socket.socket(socket.AF_UNIX)
    listening.bind(path)
    listening.listen()
    while True:
        call = listening.accept()[0]
        words = call.recv(1000).decode().split()
        try:
            call.sendall(b"0" + device.do(words).encode())
        except (KeyError, Failed, OSError, subprocess.SubprocessError) as why:
            call.sendall(f"1{type(why).__name__}: {why}".encode())
        call.close()


def beside(name: str, device: Device, shared: str, reports: str, words: Sequence[str]) -> str:
    """Runs lagconform beside a device; answers the file of its JSON."""
    report = os.path.join(reports, f"{name}.json")
    with tempfile.TemporaryDirectory() as folder:
        try:
            make_spaces()
            device.start()
            path = os.path.join(folder, "hook")
            threading.Thread(target=serve, args=(device, path), daemon=True).start()
            hook = shlex.join([sys.executable, HOOK, path])
            files = [f"--{kind}={reports}/{name}.{ending}" for kind, ending in (("json", "json"), ("junit", "xml"), ("report", "html"), ("pcap", "pcapng"))]
            known = os.path.join(KNOWN, name)
            files += [f"--known={known}"] if os.path.exists(known) else []
            line = ["ip", "netns", "exec", OURS, sys.executable, "-B", "-m", "lagconform", "a0", "a1", "--device", f"{name} {device.peer.version()}"]
            env = {**os.environ, "PYTHONPATH": PYTHON, "NIWHOPERA_LIBRARY": shared}
            with open(os.path.join(reports, f"{name}.txt"), "w", encoding="utf-8") as out:
                ran = subprocess.Popen([*line, "--hook", hook, "--shadow", *files, *words], env=env, stdout=out, stderr=subprocess.STDOUT)
                try:
                    status = ran.wait()
                except BaseException:
                    ran.send_signal(signal.SIGINT)
                    ran.wait(ENDS)
                    raise
        finally:
            device.end()
            drop_spaces()
    check(status in (0, 1), f"{name}: lagconform runs to its end", f"status {status}")
    new = [f"{it['id']}: {it['why']}" for it in loaded(report)["tests"] if it["verdict"] == "fail" and not it["known"]]
    check(not new, f"{name}: no test fails but those that are known", *new)
    return report


def loaded(path: str) -> Any:
    """The run of a file."""
    with open(path, encoding="utf-8") as it:
        return json.load(it)


def table(paths: Sequence[str]) -> str:
    """The table of verdicts of runs, from their JSON: the counts, and a row for the tests that have the same verdicts on each device."""
    runs = [loaded(path) for path in paths]
    verdicts = [{it["id"]: it["verdict"] for it in run["tests"]} for run in runs]
    names = [run["about"]["device"] for run in runs]
    lines = [["tests", *names], ["---"] * (len(names) + 1)]
    for kind in COUNTED:
        counts = [Counter(own.values())[kind] for own in verdicts]
        lines += [[f"*{kind}*", *map(str, counts)]] if any(counts) else []
    rows: dict[tuple[str, ...], list[str]] = {}
    for name in dict.fromkeys(it["id"] for run in runs for it in run["tests"]):
        rows.setdefault(tuple(own.get(name, "") for own in verdicts), []).append(name)
    for told, tests in rows.items():
        if any(it in ("fail", "inconclusive") for it in told):
            lines.append([", ".join(tests), *(SIGNS.get(it, "") for it in told)])
    return "\n".join(f"|{'|'.join(cells)}|" for cells in lines)
