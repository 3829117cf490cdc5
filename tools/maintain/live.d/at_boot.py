"""Boots with the files of lagd/boot: what configures the network of a machine gives the members and the device what they need, each time."""

from __future__ import annotations

import contextlib
import os
import shutil
from typing import Callable

from booted import ANSWERS, BOOTS, TARGET, Machine, put
from checking import Skipped, check, within
from daemon import Daemon, Part
from daemons import COMES_UP
from fetching import Packages
from repository import CACHE, TOP, read_text
from service import FILE
from spaces import THEIRS, inside, ip

PEERS = os.path.join(CACHE, "niwhopera-peers")
# The address of our end in those files, and that of the other one.
OURS_AT, THEIRS_AT = "192.0.2.1", "192.0.2.2"
BUNDLE = FILE.replace("partner=first\n", "carry=lag0\nhash=layer3+4\n")
# Where the files of each way go, the units that it has beside those of systemd, and the packages that it comes from.
FOLDER, UNIT = "etc/systemd/network", "etc/systemd/system/lagd@uplink.service.d"
CONNECTIONS = "etc/NetworkManager/system-connections"
WAYS: dict[str, tuple[dict[str, str], list[str], list[str]]] = {
    "systemd-networkd": ({"members.network": f"{FOLDER}/10-members.network", "lag0.network": f"{FOLDER}/20-lag0.network"},
                         ["systemd-networkd.service", "systemd-networkd-wait-online.service"], []),
    "ifupdown": ({"lag0.interfaces": "etc/network/interfaces.d/lag0", "ifupdown.conf": f"{UNIT}/ifupdown.conf"},
                 ["networking.service"], ["ifupdown"]),
    "NetworkManager": ({"networkmanager.conf": "etc/NetworkManager/conf.d/lag0.conf", "lag0.nmconnection": f"{CONNECTIONS}/lag0.nmconnection",
                        "eth1.nmconnection": f"{CONNECTIONS}/a0.nmconnection", "eth2.nmconnection": f"{CONNECTIONS}/a1.nmconnection"},
                       ["NetworkManager.service"], ["network-manager"]),
}


def text_of(file: str) -> str:
    """A file of lagd/boot, with the names of our members."""
    path = os.path.join(TOP, "lagd", "boot", file)
    text = read_text(path if os.path.exists(path) else path.replace("eth2", "eth1"))
    return text.replace("eth1", "a1" if file.startswith("eth2") else "a0").replace("eth2", "a1")


def lay_over(packages: Packages, name: str) -> Callable[[str], None]:
    """Lays what a way needs over the files of the machine."""
    files, units, needed = WAYS[name]

    def lay(over: str) -> None:
        if needed:
            packages.fetch(*needed)
            shutil.copytree(packages.root, over, symlinks=True, dirs_exist_ok=True)
        for folder in "lib", "sbin", "bin":  # links of the machine
            if os.path.isdir(place := os.path.join(over, folder)):
                shutil.copytree(place, os.path.join(over, "usr", folder), symlinks=True, dirs_exist_ok=True)
                shutil.rmtree(place)
        put(over, "etc/systemd/system/bundle.target", TARGET.replace("dbus.service", f"dbus.service {' '.join(units)}"))
        put(over, "etc/lagd/uplink.conf", BUNDLE)
        put(over, "etc/network/interfaces", "source /etc/network/interfaces.d/*\n")
        put(over, f"{UNIT}/carry.conf", read_text(os.path.join(TOP, "lagd", "carry.conf")))
        for file, place in files.items():
            put(over, place, text_of(file), 0o600 if place.startswith(CONNECTIONS) else 0o644)

    return lay


def pings() -> bool:
    return inside(THEIRS, "ping", "-qc", "1", "-W", "1", OURS_AT).returncode == 0


def settle(machine: Machine, theirs: Daemon, what: str) -> None:
    """The device has its address, and packets go."""
    both = lambda: machine.property("StatusText") == "up, 2 of 2 links carry" and theirs.distributes("b0", "b1")
    check(within(BOOTS + COMES_UP, both), f"{what}: both links carry", machine.told(), theirs.text())
    addressed = lambda: f"{OURS_AT}/24" in machine.tells("ip", "-br", "address", "show", "lag0")
    answers = within(ANSWERS, addressed) and within(ANSWERS, pings)
    check(answers, f"{what}: lag0 has its address, and answers", machine.tells("ip", "address"), machine.told())
    bare = not any("scope global" in machine.tells("ip", "address", "show", name) for name in ("a0", "a1"))
    check(bare, f"{what}: the members have no addresses", machine.tells("ip", "address"))


def boot_with(name: str) -> Callable[[Part], None]:
    def boot(part: Part) -> None:
        part.unhurried()
        if not os.path.exists("/dev/net/tun"):
            raise Skipped("there is no /dev/net/tun")
        if not shutil.which("ping"):
            raise Skipped("no command ping (Debian: iputils-ping)")
        with contextlib.closing(Machine(part, more=lay_over(Packages(PEERS, True), name))) as machine:
            theirs = part.theirs(options=["--carry", "lag0"])
            within(ANSWERS, lambda: inside(THEIRS, "ip", "link", "set", "lag0", "up").returncode == 0)
            ip(THEIRS, "address", "add", f"{THEIRS_AT}/24", "dev", "lag0")
            machine.comes_up()
            settle(machine, theirs, "at boot")
            failed = machine.tells("systemctl", "--failed", "--plain", "--no-legend", "--no-pager")
            check(failed == "", "no unit failed", failed, machine.told())
            check(machine.run("systemctl", "restart", "lagd@uplink").returncode == 0, "the bundle is restarted", machine.told())
            settle(machine, theirs, "after a restart")
            before = machine.main()
            machine.run("systemctl", "kill", "--kill-whom=main", "--signal=SIGKILL", "lagd@uplink")
            within(ANSWERS, lambda: machine.main() not in ("", "0", before))
            settle(machine, theirs, "after a crash")
            machine.run("systemctl", "stop", "lagd@uplink")
            if name == "ifupdown":  # as where the device goes only behind what stops the service
                machine.run("sh", "-c", "ip link add lag0 type dummy; ifup lag0; ip link delete lag0")
            check(machine.run("systemctl", "start", "lagd@uplink").returncode == 0, "the bundle is stopped, and started", machine.told())
            settle(machine, theirs, "after a stop")
            inside(THEIRS, "ip", "link", "set", "b0", "down")
            check(within(ANSWERS, pings), "with one link it answers", machine.told())
            inside(THEIRS, "ip", "link", "set", "b0", "up")
            settle(machine, theirs, "once the other one is back")

    return boot


PARTS = {f"a boot with {name}": boot_with(name) for name in WAYS}
