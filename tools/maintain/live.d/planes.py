"""Hosts that carry data: those of tools/maintain/live.d/planes.c, which need no interface; and what the kernel does to a marker behind data."""

from __future__ import annotations

import array
import fcntl
import socket
import struct
import time

from checking import Skipped, check
from daemon import Part
from linking import build_planes, ran
from spaces import GROUP, OURS, SLOW_PROTOCOLS, THEIRS, inside, marker, octets, packet_socket, within_space

# Of SIOCETHTOOL: whether an interface cuts long frames of TCP itself, and whether it joins frames that come.
SIOCETHTOOL, SET_TSO, SET_GRO = 0x8946, 0x1F, 0x2C
ALL_PROTOCOLS, IPV4, SOURCE = 3, 0x0800, "02:00:00:00:00:77"
# How long the kernel may keep frames to join them, in nanoseconds; for how many seconds a marker is waited for; how often.
KEPT, SEEN, TRIALS = 50_000_000, 1, 10


def check_planes(folder: str, libraries: list[str]) -> None:
    played = ran(build_planes(folder, libraries))
    print(played.stdout, end="")
    check(played.returncode == 0, "hosts that carry data: no frame overtakes where a host keeps to docs/USING.md, and some do where it does not", played.stderr)


def set_feature(space: str, name: str, what: int, on: int) -> None:
    """Sets a feature of an interface."""
    value = array.array("B", struct.pack("II", what, on))
    with within_space(space), socket.socket(socket.AF_INET, socket.SOCK_DGRAM) as asked:
        try:
            fcntl.ioctl(asked, SIOCETHTOOL, struct.pack("16sP", name.encode(), value.buffer_info()[0]))
        except OSError as why:
            raise Skipped(f"no change of {name}: {why.strerror}") from None


def checksum(data: bytes) -> int:
    total = int(sum(struct.unpack(f"!{len(data) // 2}H", data)))
    while total >> 16:
        total = (total & 0xFFFF) + (total >> 16)
    return ~total & 0xFFFF


def segment(to: str, number: int, length: int = 100) -> bytes:
    """A frame with the segment of this number of a stream of TCP."""
    ends, payload = bytes([10, 0, 0, 1, 10, 0, 0, 2]), bytes(length)
    tcp = struct.pack("!HHIIBBHHH", 1000, 2000, number * length, 1, 0x50, 0x10, 1000, 0, 0)
    tcp = tcp[:16] + struct.pack("!H", checksum(ends + struct.pack("!HH", 6, len(tcp) + length) + tcp + payload)) + tcp[18:]
    head = struct.pack("!BBHHHBBH", 0x45, 0, 20 + len(tcp) + length, number, 0x4000, 64, 6, 0) + ends
    head = head[:10] + struct.pack("!H", checksum(head)) + head[12:]
    return octets(to) + octets(SOURCE) + IPV4.to_bytes(2, "big") + head + tcp + payload


def next_type(receiver: socket.socket, seconds: float) -> int | None:
    """The type of the next frame that comes, but for those that the kernel sends itself; None where none comes in time."""
    until = time.monotonic() + seconds
    while time.monotonic() < until:
        receiver.settimeout(max(0.001, until - time.monotonic()))
        try:
            frame, address = receiver.recvfrom(65536)
        except socket.timeout:
            return None
        kind = int.from_bytes(frame[12:14], "big")
        if address[2] != socket.PACKET_OUTGOING and kind in (IPV4, SLOW_PROTOCOLS):
            return kind
    return None


def before_marker(sender: socket.socket, receiver: socket.socket, frames: list[bytes]) -> int:
    """Sends frames, of which the last one is a marker; how many came before it."""
    for frame in frames:
        sender.send(frame)
    count = 0
    while next_type(receiver, SEEN) == IPV4:
        count += 1
    while next_type(receiver, 2 * KEPT / 1e9):
        pass
    return count


def joined(part: Part) -> None:
    """Three segments and then a marker, to an interface that joins frames and to one that does not. Whether the kernel passes them on
    before the marker comes is a matter of its clock, too."""
    set_feature(OURS, "a0", SET_TSO, 0)
    waits = f"echo {KEPT} > gro_flush_timeout && echo 100 > napi_defer_hard_irqs"
    if inside(THEIRS, "sh", "-c", f"cd /sys/class/net/b0 && {waits}").returncode:
        raise Skipped("no time for frames to be joined")
    mac = inside(THEIRS, "cat", "/sys/class/net/b0/address").stdout.strip()
    receiver, sender = (packet_socket(space, name, ALL_PROTOCOLS) for space, name in ((THEIRS, "b0"), (OURS, "a0")))
    frames = [segment(mac, number) for number in (1, 2, 3)]
    frames.append(octets(GROUP) + octets(SOURCE) + SLOW_PROTOCOLS.to_bytes(2, "big") + marker(1))
    for on in 0, 1:
        set_feature(THEIRS, "b0", SET_GRO, on)
        found = [before_marker(sender, receiver, frames) for _ in range(TRIALS)]
        if on:
            check(0 in found, "with GRO a marker goes by the data before it", found)
        else:
            check(found == [3] * TRIALS, "without GRO it comes behind", found)


PARTS = {"a marker and GRO": joined}
