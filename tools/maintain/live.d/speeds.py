"""Links of several speeds: TAP devices, whose speed and duplex may be set, and which this program joins."""

from __future__ import annotations

import contextlib
import ctypes
import fcntl
import os
import select
import signal
import socket
import struct
import threading
import time
from typing import Iterator

from checking import Skipped, check, within
from daemon import KEY, SYSTEM, Daemon, Part
from daemons import COMES_UP
from repository import write_text
from spaces import OURS, THEIRS, ip, within_space

TUNSETIFF, TUNSETCARRIER, TAP_WITHOUT_INFO = 0x400454CA, 0x400454E2, 0x1002
SIOCETHTOOL, GET_SETTINGS, SET_SETTINGS = 0x8946, 0x4C, 0x4D
# Where struct ethtool_link_settings of linux/ethtool.h has the speed, the duplex and the count of words; and how long it is at most.
SPEED, DUPLEX, WORDS, SETTINGS_ROOM = 4, 8, 15, 2048
HALF, FULL = 0, 1


def make_tap(space: str, name: str) -> int:
    """Makes a TAP device; answers the file of its frames."""
    try:
        with within_space(space):
            opened = os.open("/dev/net/tun", os.O_RDWR | os.O_NONBLOCK)
            fcntl.ioctl(opened, TUNSETIFF, struct.pack("16sH22x", name.encode(), TAP_WITHOUT_INFO))
    except OSError as why:
        raise Skipped(f"no TAP devices: {why}") from None
    ip(space, "link", "set", name, "up")
    return opened


class Settings:
    """What the kernel tells of the speed of an interface, and takes."""

    def __init__(self, space: str, name: str) -> None:
        with within_space(space):
            self.socket = socket.socket(socket.AF_UNIX, socket.SOCK_DGRAM)
        self.name, self.room = name, ctypes.create_string_buffer(SETTINGS_ROOM)

    def ask(self, what: int) -> None:
        struct.pack_into("=I", self.room, 0, what)
        fcntl.ioctl(self.socket, SIOCETHTOOL, struct.pack("16sQ16x", self.name.encode(), ctypes.addressof(self.room)))

    def speed(self) -> int:
        """The speed in Mb/s, or 0xffffffff where none is known."""
        ctypes.memset(self.room, 0, SETTINGS_ROOM)
        self.ask(GET_SETTINGS)
        words = struct.unpack_from("=b", self.room, WORDS)[0]
        struct.pack_into("=b", self.room, WORDS, -words)
        self.ask(GET_SETTINGS)
        return int(struct.unpack_from("=I", self.room, SPEED)[0])

    def set(self, speed: int, duplex: int) -> None:
        """Gives the interface a speed in Mb/s, and a duplex."""
        try:
            self.speed()
            struct.pack_into("=I", self.room, SPEED, speed)
            struct.pack_into("=B", self.room, DUPLEX, duplex)
            self.ask(SET_SETTINGS)
        except OSError as why:
            raise Skipped(f"the speed of a TAP device cannot be set: {why}") from None


class Cable(threading.Thread):
    """Carries frames between two TAP devices, both ways, until it is cut."""

    def __init__(self, *ends: int) -> None:
        super().__init__(daemon=True)
        self.ends, self.is_whole = ends, True
        self.start()

    def run(self) -> None:
        while self.is_whole:
            for end in select.select(self.ends, [], [], 0.2)[0]:
                other = self.ends[1 if end == self.ends[0] else 0]
                try:
                    os.write(other, os.read(end, 2048))
                except OSError:
                    time.sleep(0.05)  # one end is down

    def cut(self) -> None:
        self.is_whole = False
        self.join()
        for end in self.ends:
            os.close(end)


def renew(place: int | str, *speed: int) -> None:
    """A link gets another speed, as after another negotiation: it goes down for that."""
    ip(OURS, "link", "set", f"t{place}", "down")
    Settings(OURS, f"t{place}").set(*speed)
    time.sleep(0.5)
    ip(OURS, "link", "set", f"t{place}", "up")


def groups_of(daemon: Daemon, names: list[str]) -> list[list[str]]:
    """The ports by their aggregators, of those that distribute."""
    found: dict[int, list[str]] = {}
    for name in names:
        port = daemon.port(name)
        if port["status"] == "it distributes":
            found.setdefault(port["aggregator"], []).append(name)
    return sorted(found.values())


@contextlib.contextmanager
def joined(names: list[str]) -> Iterator[list[Cable]]:
    """A cable of a TAP device for each of ours, with speeds; of 1000 Mb/s but for one."""
    cables = [Cable(make_tap(OURS, name), make_tap(THEIRS, f"u{name[1:]}")) for name in names]
    try:
        for name in names[:-1]:
            renew(name[1:], 1000, FULL)
        renew(names[-1][1:], 100, FULL)
        yield cables
    finally:
        for cable in cables:
            cable.cut()


def unequal(part: Part) -> None:
    """Three links, of which one is slower: with key-by-speed it shares no group with the others."""
    names = ["t0", "t1", "t2"]
    with joined(names) as cables:
        theirs = part.theirs("u0", "u1", "u2")
        ours = part.ours(*names)
        check(within(COMES_UP, lambda: groups_of(ours, names) == [names]), "without key-by-speed unequal links share a group", ours.text())
        check("  speed: " not in ours.text() and ours.port("t0")["speed"] is None, "and no speed is told", ours.text())
        ours.ends("the daemon")
        ours = part.ours(*names, options=["--key-by-speed", "--delay-down", "3000"])
        apart = lambda: groups_of(ours, names) == [["t0", "t1"], ["t2"]]
        check(within(COMES_UP, apart), "with key-by-speed the slower one is in a group of its own", ours.text(), theirs.text())
        keys = [ours.port(name)["actor"]["key"] for name in names]
        check(keys == [int(KEY), int(KEY), int(KEY) + 1], "since it has another key", keys)
        check(ours.port("t2")["speed"] == "100 Mb/s, full duplex" and "  speed: 1000 Mb/s, full duplex\n" in ours.text(), "the status has the speeds", ours.text())
        check("status: degraded, 2 of 3 links carry" in ours.text(), "the bundle is the group of most links", ours.text())
        renew(2, 1000, FULL)
        check(within(COMES_UP, lambda: groups_of(ours, names) == [names]), "as fast as they are, it joins them", ours.text())
        renew(0, 1000, HALF)
        check(within(COMES_UP, lambda: groups_of(ours, names) == [["t0"], ["t1", "t2"]]), "of half duplex, one leaves", ours.text())
        time.sleep(3)  # until its carrier was steady
        fcntl.ioctl(cables[0].ends[0], TUNSETCARRIER, struct.pack("i", 0))
        check(within(1, lambda: ours.port("t0")["link"] == "away"), "its carrier is away for a moment", ours.text())
        Settings(OURS, "t0").set(1000, FULL)
        fcntl.ioctl(cables[0].ends[0], TUNSETCARRIER, struct.pack("i", 1))
        check(within(COMES_UP, lambda: groups_of(ours, names) == [names]), "back at the speed of the others, it joins them", ours.text())
        ours.ends("the daemon")
        theirs.ends("the other daemon")


def many_speeds(part: Part) -> None:
    """More speeds of one key than have aggregators: at most four do."""
    names = [f"t{place}" for place in range(5)]
    with joined(names):
        for place, speed in enumerate((10, 100, 1000, 2500, 10000)):
            renew(place, speed, FULL)
        theirs, ours = part.theirs(*(f"u{place}" for place in range(5))), part.ours(*names, options=["--key-by-speed"])
        none = "no aggregator has its key, or each that has it has ports of another group"
        four = lambda: len(groups_of(ours, names)) == 4 and [ours.port(name)["status"] for name in names].count(none) == 1
        check(within(COMES_UP, four), "of five speeds four have an aggregator", ours.text())
        keys = sorted(ours.port(name)["actor"]["key"] for name in names)
        check(keys == [int(KEY) + more for more in range(5)], "each has a key of its own", keys)
        ours.ends("the daemon")
        theirs.ends("the other daemon")


def fastest(part: Part) -> None:
    """Of two groups the faster one carries with select=bandwidth, whichever has more links; also after a reload, and when it goes."""
    names = ["t0", "t1", "t2"]
    with joined(names):
        renew(2, 10000, FULL)
        file = os.path.join(part.folder, "fastest.conf")

        def write(more: str) -> None:
            ports = "".join(f"[Port {name}]\n" for name in names)
            write_text(file, f"[Bundle]\nkey={KEY}\nsystem=32768,{SYSTEM}\nkey-by-speed=yes\n{more}{ports}")

        theirs = part.theirs("u0", "u1", "u2:key=6")
        write("")
        ours = part.ours(*names, file=file)
        apart = lambda: groups_of(ours, names) == [["t0", "t1"], ["t2"]] and "degraded, 2 of 3 links carry" in ours.text()
        check(within(COMES_UP, apart), "by count the group of most links carries", ours.text())
        write("select=bandwidth\n")
        ours.process.send_signal(signal.SIGHUP)
        fast = lambda: "degraded, 1 of 3 links carry" in ours.text()
        check(within(COMES_UP, fast), "by bandwidth the faster one does", ours.text())
        check("1 links of 10000 Mb/s" in ours.text() and "2 links of 2000 Mb/s" in ours.text(), "the status says why", ours.text())
        ip(OURS, "link", "set", "t2", "down")
        check(within(COMES_UP, lambda: "degraded, 2 of 3 links carry" in ours.text()), "the other one carries where that one goes", ours.text())
        ip(OURS, "link", "set", "t2", "up")
        check(within(COMES_UP, fast), "and not when it is back", ours.text())
        write("select=bandwidth\nmin-links=2\n")
        ours.process.send_signal(signal.SIGHUP)
        check(within(COMES_UP, lambda: "degraded, 2 of 3 links carry" in ours.text()), "a group of fewer than min-links comes last", ours.text())
        ours.ends("the daemon")
        theirs.ends("the other daemon")


PARTS = {"the fastest group": fastest, "links of two speeds": unequal, "links of five speeds": many_speeds}
