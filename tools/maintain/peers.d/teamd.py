"""teamd, with its runner lacp over the team driver of the kernel."""

from __future__ import annotations

import json
from typing import Any

from checking import command, found, within
from fetching import Packages
from places import LINKS, place_for

# Collecting and Distributing of a state octet.
CARRIES = 0x30
STARTS = 20


class Teamd:
    name, mixes_keys = "teamd", False

    def __init__(self, packages: Packages, folder: str) -> None:
        if not packages.path("teamd"):
            packages.fetch("libteam-utils")
        self.packages = packages
        self.teamd, self.teamdctl = packages.program("teamd"), packages.program("teamdctl")
        self.place = place_for("team", ["team", "team_mode_loadbalance"], packages, folder)

    def version(self) -> str:
        told = command(self.teamd, "--version", env=self.packages.environment()).stdout
        return f"{found(r'([0-9]+[.][0-9]+)', told)}, Linux {self.place.kernel}"

    def start(self) -> None:
        runner = {"name": "lacp", "active": True, "fast_rate": True, "tx_hash": ["eth"]}
        config = {"device": "team0", "runner": runner, "link_watch": {"name": "ethtool"}, "ports": {name: {} for name in LINKS}}
        self.place.start()
        for name in LINKS:
            self.place.run("ip", "link", "set", name, "down")
        self.place.run("mkdir", "-p", "/run/teamd")
        self.place.run(self.teamd, "-U", "-d", "-t", "team0", "-c", json.dumps(config))
        within(STARTS, self.ports)
        self.place.run("ip", "link", "set", "team0", "up")

    def view(self) -> str:
        return self.place.run(self.teamdctl, "-U", "team0", "state", "dump")

    def ports(self) -> dict[str, Any]:
        """Its ports, as it tells of them; none while it does not answer."""
        try:
            told: dict[str, Any] = json.loads(self.view()).get("ports", {})
        except ValueError:
            return {}
        return told

    def carrying(self) -> set[str]:
        """The links that are selected, and whose actor collects and distributes."""
        runners = {name: port.get("runner", {}) for name, port in self.ports().items()}
        carries = lambda runner: runner.get("actor_lacpdu_info", {}).get("state", 0) & CARRIES == CARRIES
        return {name for name, runner in runners.items() if runner.get("selected") and carries(runner)}

    def stop(self) -> None:
        self.place.run(self.teamd, "-U", "-k", "-t", "team0")
        within(STARTS, lambda: not self.ports())

    def end(self) -> None:
        self.place.stop()
