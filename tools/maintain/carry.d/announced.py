"""What is tried of announcements: which frames come to the peer once data goes another way, as tcpdump reads them."""

from __future__ import annotations

import contextlib
import shutil
import subprocess
import time
from typing import Callable, Iterator

from bonds import COMES_UP, DEVICE, Cables, End, Programs, cables, check_order, run_flows
from checking import Failed, Skipped, check, within
from spaces import OURS, THEIRS, inside, ip

# How long all announcements of a change take at most, in seconds.
ANNOUNCED = 8
# What tcpdump prints of each announcement.
LINES = {"an address of IPv4": ("who-has 192.0.2.1 ", "tell 192.0.2.1,"),
         "another one": ("who-has 198.51.100.1 ", "tell 198.51.100.1,"),
         "one above the device": ("ABOVE > ff:ff:ff:ff:ff:ff", "who-has 203.0.113.1 ", "tell 203.0.113.1,"),
         "one of a bridge above that": ("02:00:00:00:00:99 > ff:ff:ff:ff:ff:ff", "who-has 203.0.114.1 ", "tell 203.0.114.1,"),
         "one of IPv6": ("[icmp6 sum ok]", "neighbor advertisement", "tgt is 2001:db8::1,", "Flags [FLAGS]")}
# With that of the link; and how often each is announced, a second apart.
ADDRESSES, TIMES = 6, 3
HOST, ROUTER = "override", "router, override"


@contextlib.contextmanager
def seen(folder: str) -> Iterator[Callable[[], list[str]]]:
    """The frames that come out of the peer's device, each a line."""
    path = f"{folder}/announced"
    with open(path, "w", encoding="utf-8") as told:
        reader = subprocess.Popen(["ip", "netns", "exec", THEIRS, "tcpdump", "-lnevvi", DEVICE, "-Q", "in", "arp or icmp6"],
                                  stdout=told, stderr=subprocess.DEVNULL)
    try:
        time.sleep(1)

        def lines() -> list[str]:
            with open(path, encoding="utf-8") as text:
                return [" ".join(line.split()) for line in text.read().replace("\n\t", " ").replace("\n    ", " ").splitlines()]

        yield lines
    finally:
        reader.kill()
        reader.wait()


def address(space: str) -> None:
    """Gives our device its addresses, and what stands above it."""
    inside(space, "sysctl", "-qw", f"net/ipv6/conf/{DEVICE}/disable_ipv6=0")
    for it in "192.0.2.1/24", "198.51.100.1/24", "2001:db8::1/64":
        ip(space, "address", "add", it, "dev", DEVICE, *(("nodad",) if ":" in it else ()))
    kinds = [("vlan", "id", "10"), ("macvlan", "mode", "bridge")]  # a kernel may lack the first one
    if all(inside(space, "ip", "link", "add", "link", DEVICE, "name", "above0", "type", *kind).returncode for kind in kinds):
        raise Skipped("there is neither vlan nor macvlan")
    ip(space, "address", "add", "203.0.113.1/24", "dev", "above0")
    ip(space, "link", "add", "below", "address", "02:00:00:00:00:99", "type", "bridge")
    ip(space, "link", "add", "link", DEVICE, "name", "above1", "type", "macvlan", "mode", "bridge")
    ip(space, "link", "set", "above1", "master", "below")
    ip(space, "address", "add", "203.0.114.1/24", "dev", "below")
    for name in "above0", "above1", "below":
        ip(space, "link", "set", name, "up")


def announcements(lines: list[str]) -> list[str]:
    return [line for line in lines if "who-has" in line or "neighbor advertisement" in line]


def check_announced(lines: Callable[[], list[str]], what: str, flags: str) -> None:
    for of, parts in LINES.items():
        above = inside(OURS, "cat", "/sys/class/net/above0/address").stdout.strip()
        wanted = [part.replace("FLAGS", flags).replace("ABOVE", above) for part in parts]
        found = within(ANNOUNCED, lambda: any(all(part in line for part in wanted) for line in lines()))
        check(found, f"{what}: {of} is announced", "\n".join(lines()[-30:]))


def try_changes(programs: Programs, laid: Cables, ours: End) -> None:
    """A switch of aggregators; a carrier that goes and comes back; an address that is gone, and another name and MAC address."""
    folder, begun = programs.folder, ours.carry()["switches"]
    with seen(folder) as lines:
        outcome = run_flows(programs, 6, [(1, lambda: laid.tell("cut", 0))])
        check(ours.carry()["switches"] > begun, "it switched to another aggregator", ours.printed())
        check_announced(lines, "a switch of aggregators", HOST)
        check_order(outcome, "through a switch of aggregators", ours.text())
        time.sleep(3)
        count = len(announcements(lines()))
        time.sleep(3)
        holds = count == len(announcements(lines())) == TIMES * ADDRESSES
        check(holds, f"{count} frames announce {ADDRESSES} addresses, and none follows", "\n".join(lines()[-30:]))
    for number in range(4):
        laid.tell("cut", number)
    check(within(ANNOUNCED, lambda: not ours.carry()["carrier"]), "without links there is no carrier", ours.text())
    inside(OURS, "sysctl", "-qw", f"net/ipv6/conf/{DEVICE}/forwarding=1")
    with seen(folder) as lines:
        for number in range(4):
            laid.tell("join", number)
        check(within(COMES_UP, lambda: ours.links() == 2), "it comes back", ours.text())
        check_announced(lines, "a carrier of a router that comes back", ROUTER)
    ip(OURS, "address", "del", "198.51.100.1/24", "dev", DEVICE)
    ip(OURS, "link", "set", DEVICE, "name", "other0")
    ip(OURS, "link", "set", "other0", "address", "02:00:00:00:00:77")
    with seen(folder) as lines:
        laid.tell("cut", 0)
        gone = lambda: any("02:00:00:00:00:77 > ff:ff:ff:ff:ff:ff" in line and "who-has 192.0.2.1 " in line for line in lines())
        check(within(ANNOUNCED, gone), "with another name and MAC address, it announces that", "\n".join(lines()[-30:]))
        check(not any("198.51.100.1" in line for line in lines()), "and no address that is gone", "\n".join(lines()[-30:]))
    ip(OURS, "link", "set", "other0", "name", DEVICE)
    check("not announced" not in ours.printed(), "no line tells of a fault", ours.printed())


def announced(programs: Programs) -> None:
    """Addresses are announced to the peer once another aggregator carries, or the carrier comes back."""
    if not shutil.which("tcpdump"):
        raise Skipped("tcpdump is not here")
    ways: tuple[list[str], ...] = ([], ["--fast"])
    for options in ways:
        with cables(programs, (0, 0, 0, 0)) as laid:
            ends = [End(programs, OURS, links=4, options=options), End(programs, THEIRS, names=("b2:key=6", "b3:key=6", "b0", "b1"), options=options)]
            if not within(COMES_UP, lambda: ends[0].links() == ends[1].links() == 2):
                raise Failed("two of four links carry", ends[0].text())
            address(OURS)
            time.sleep(TIMES)  # of the carrier that came on
            try_changes(programs, laid, ends[0])
