"""The bonding driver of the kernel, in mode 802.3ad."""

from __future__ import annotations

import re

from checking import Failed
from fetching import Packages
from places import LINKS, place_for

# Collecting and Distributing of a state octet.
CARRIES = 0x30


class Bonding:
    name, mixes_keys = "bonding", False

    def __init__(self, packages: Packages, folder: str) -> None:
        self.place = place_for("bond", ["bonding"], packages, folder)

    def version(self) -> str:
        return f"Linux {self.place.kernel}"

    def start(self) -> None:
        self.place.start()
        bond = ["bond0", "type", "bond", "mode", "802.3ad", "miimon", "100", "lacp_rate", "fast"]
        told = self.place.run("ip", "link", "add", *bond)
        for name in LINKS:
            told += self.place.run("ip", "link", "set", name, "down")
            told += self.place.run("ip", "link", "set", name, "master", "bond0")
        told += self.place.run("ip", "link", "set", "bond0", "up")
        if told.strip():
            raise Failed("the bonding driver has two links", told)

    def view(self) -> str:
        return self.place.run("cat", "/proc/net/bonding/bond0")

    def carrying(self) -> set[str]:
        """The links of its active aggregator whose actor collects and distributes."""
        head, *parts = re.split(r"^Slave Interface: ", self.view(), flags=re.M)
        active = re.search(r"Aggregator ID: (\d+)", head)
        return {part.split()[0] for part in parts if active and self.carries(part, active[1])}

    @staticmethod
    def carries(part: str, active: str) -> bool:
        own = re.search(r"Aggregator ID: (\d+)", part)
        state = re.search(r"details actor lacp pdu:.*?port state: (\d+)", part, re.S)
        return bool(own and state and own[1] == active and int(state[1]) & CARRIES == CARRIES and "MII Status: up" in part)

    def stop(self) -> None:
        self.place.run("ip", "link", "del", "bond0")

    def end(self) -> None:
        self.place.stop()
