"""Open vSwitch: a bond of two links in its userspace datapath."""

from __future__ import annotations

import os
import re
import subprocess
from typing import Sequence

from checking import Failed, Skipped, command, found, within
from fetching import Packages
from spaces import THEIRS

STARTS = 30


class OpenVSwitch:
    name, package = "Open vSwitch", "openvswitch-switch"
    mixes_keys = False

    def __init__(self, packages: Packages, folder: str, space: str = THEIRS, links: Sequence[str] = ("b0", "b1")) -> None:
        self.space, self.links = space, links
        self.packages, self.folder = packages, os.path.join(folder, f"openvswitch-{links[0]}")
        self.running: list[subprocess.Popen[bytes]] = []
        os.makedirs(self.folder, exist_ok=True)
        if not packages.path("ovs-vswitchd"):
            packages.fetch(self.package)
        if not os.path.exists("/dev/net/tun"):
            raise Skipped("no /dev/net/tun")
        self.environment = {**packages.environment(), **{f"OVS_{it}DIR": self.folder for it in ("RUN", "LOG", "DB", "SYSCONF")}}

    def words(self, name: str, *words: str) -> list[str]:
        return ["ip", "netns", "exec", self.space, self.packages.program(name), *words]

    def ask(self, name: str, *words: str) -> subprocess.CompletedProcess[str]:
        return command(*self.words(name, *words), env=self.environment, timeout=STARTS)

    def version(self) -> str:
        return found(r"(\d+\.\d[\d.]*)", command(self.packages.program("ovs-vswitchd"), "--version", env=self.environment).stdout)

    def launch(self, name: str, *words: str) -> None:
        with open(f"{self.folder}/{name}.log", "a", encoding="utf-8") as log:
            self.running.append(subprocess.Popen(self.words(name, *words), env=self.environment, stdout=log, stderr=log))

    def start(self) -> None:
        """A database, the switch, and a bridge with one bond."""
        base, at = f"{self.folder}/conf.db", f"unix:{self.folder}/db.sock"
        schema = "usr/share/openvswitch/vswitch.ovsschema"
        if not os.path.exists(base):
            here = next(it for it in (f"{self.packages.root}/{schema}", f"/{schema}") if os.path.exists(it))
            self.ask("ovsdb-tool", "create", base, here)
        self.launch("ovsdb-server", f"--remote=p{at}", f"--unixctl={self.folder}/db.ctl", base)
        within(STARTS, lambda: os.path.exists(f"{self.folder}/db.sock"))
        self.launch("ovs-vswitchd", f"--unixctl={self.folder}/switch.ctl", at)
        bond = ["add-bond", "br0", "bond0", *self.links, "lacp=active", "other_config:lacp-time=fast", "bond_mode=balance-tcp"]
        made = self.ask("ovs-vsctl", f"--db={at}", "--timeout=20", "--may-exist", "add-br", "br0", "--",
                        "set", "bridge", "br0", "datapath_type=netdev", "--", "--may-exist", *bond)
        if made.returncode:
            raise Failed("Open vSwitch makes a bond", made.stderr)

    def told(self, what: str) -> str:
        return self.ask("ovs-appctl", "-t", f"{self.folder}/switch.ctl", what, "bond0").stdout

    def carrying(self) -> set[str]:
        """The links that it says are enabled, and whose LACP collects and distributes."""
        enabled = re.findall(r"^member (\w+): enabled", self.told("bond/show"), re.M)
        states = re.findall(r"^member: (\w+):.*?actor state: ([ \w]*)", self.told("lacp/show"), re.M | re.S)
        return {name for name, state in states if name in enabled and "collecting distributing" in state}

    def stop(self) -> None:
        for it in reversed(self.running):
            it.terminate()
        for it in self.running:
            it.wait(STARTS)
        self.running.clear()
        for name in "db.sock", "db.ctl", "switch.ctl":
            if os.path.exists(f"{self.folder}/{name}"):
                os.unlink(f"{self.folder}/{name}")

    def end(self) -> None:
        self.stop()

    def view(self) -> str:
        return self.told("bond/show") + self.told("lacp/show")
