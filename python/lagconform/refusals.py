"""What keeps the bench from an interface, by name: each refusal says what to do."""

from __future__ import annotations

import os
import socket
import struct
import sys
from contextlib import suppress
from typing import Iterator, NamedTuple, Optional

from .pdus import SLOW

MOST_LINKS = 4
# Of rtnetlink(7) and if_link.h: messages, their heads, and attributes of an interface.
NEW_LINK, GET_LINK, REQUEST, HEAD, OF_LINK, ATTRIBUTE = 16, 18, 1, struct.Struct("=IHHII"), struct.Struct("=BxHiII"), struct.Struct("=HH")
MASTER, LINK_INFO, SLAVE_KIND, CARRIER = 10, 18, 4, 33
ETHERNET, IS_UP = 1, 1


class Refused(Exception):
    """The bench can't run; the text says why."""


def read_file(*path: str) -> str:
    """The text of a small file, without its last line break; nothing where it can't be read."""
    try:
        with open(os.path.join(*path), encoding="utf-8", errors="replace") as it:
            return it.read().strip()
    except OSError:
        return ""


def check_interfaces(names: list[str]) -> None:
    """Refuses interfaces that are no free cables."""
    if not 1 <= len(names) <= MOST_LINKS:
        raise Refused(f"one to {MOST_LINKS} interfaces: lagconform eth1 [eth2]")
    for name in names:
        if names.count(name) > 1:
            raise Refused(f"{name} is named twice")
    for name in names:
        check_interface(name)


class Interface(NamedTuple):
    """An interface of this network namespace; `master` names what it is in, and `kind` what that is, as bond."""

    is_ethernet: bool
    is_up: bool
    has_carrier: bool
    master: str
    kind: str


def attributes(octets: bytes) -> dict[int, bytes]:
    """The attributes of a message of rtnetlink, by their numbers."""
    found, at = {}, 0
    while at + ATTRIBUTE.size <= len(octets):
        size, number = ATTRIBUTE.unpack_from(octets, at)
        found[number & 0x3FFF] = octets[at + ATTRIBUTE.size : at + size]
        at += max(ATTRIBUTE.size, size + 3 & ~3)
    return found


def asked(name: str) -> Optional[Interface]:
    """What the kernel says of an interface; nothing where there is none. /sys may be that of another network namespace."""
    try:
        index = socket.if_nametoindex(name)
    except OSError:
        return None
    try:
        with socket.socket(socket.AF_NETLINK, socket.SOCK_RAW, 0) as it:
            it.settimeout(5)
            it.send(HEAD.pack(HEAD.size + OF_LINK.size, GET_LINK, REQUEST, 1, 0) + OF_LINK.pack(0, 0, index, 0, 0))
            answer = it.recv(1 << 16)
    except OSError as why:
        raise Refused(f"{name}: the kernel does not answer over rtnetlink: {why}") from why
    if HEAD.unpack_from(answer)[1] != NEW_LINK:
        return None
    _, kind, _, flags, _ = OF_LINK.unpack_from(answer, HEAD.size)
    told, master = attributes(answer[HEAD.size + OF_LINK.size :]), ""
    if MASTER in told:
        master = "another interface"
        with suppress(OSError):
            master = socket.if_indextoname(int.from_bytes(told[MASTER], sys.byteorder))
    inside = attributes(told.get(LINK_INFO, b"")).get(SLAVE_KIND, b"master").rstrip(b"\0").decode(errors="replace")
    return Interface(kind == ETHERNET, bool(flags & IS_UP), told.get(CARRIER, b"\1") != b"\0", master, inside)


def check_interface(name: str) -> None:
    """Refuses an interface that is not there, is down or without carrier, or that something else holds."""
    it = asked(name)
    if not it:
        raise Refused(f"there is no interface {name}: `ip link` lists them")
    if not it.is_ethernet:
        raise Refused(f"{name} is no Ethernet interface")
    if it.master:
        raise Refused(f"{name} is in the {it.kind} {it.master}: `ip link set {name} nomaster` takes it out")
    if not it.is_up:
        raise Refused(f"{name} is down: `ip link set {name} up`")
    if not it.has_carrier:
        raise Refused(f"{name} has no carrier: is the cable in, and the port of the device enabled?")
    if speaker := lacp_speaker(name):
        raise Refused(f"{name} is held by {speaker}, which speaks LACP there: end it first")


def lacp_speaker(name: str) -> Optional[str]:
    """A program that has a packet socket for Slow Protocols on an interface, with its process; the test is by /proc/net/packet."""
    try:
        index = socket.if_nametoindex(name)
    except OSError:
        return None
    inodes = set()
    for line in read_file("/proc/net/packet").splitlines()[1:]:
        words = line.split()
        if len(words) > 8 and words[3].lower() == SLOW.hex() and int(words[4]) == index:
            inodes.add(words[8])
    return next(holders(inodes), "a program of another user") if inodes else None


def holders(inodes: set[str]) -> Iterator[str]:
    """The processes that have one of these sockets."""
    wanted = {f"socket:[{it}]" for it in inodes}
    for process in filter(str.isdigit, os.listdir("/proc")):
        folder = f"/proc/{process}/fd"
        try:
            if any(os.readlink(f"{folder}/{it}") in wanted for it in os.listdir(folder)):
                yield f"{read_file('/proc', process, 'comm')} (process {process})"
        except OSError:
            continue
