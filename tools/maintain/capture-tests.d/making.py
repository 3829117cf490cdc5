"""Makes captures: frames of the slow protocols, and the files pcap and pcapng, octet by octet."""

from __future__ import annotations

import struct
from typing import NamedTuple

ETHERNET, COOKED, COOKED2 = 1, 113, 276
SLOW_GROUP = bytes.fromhex("0180c2000002")
SLOW_TYPE = b"\x88\x09"


class End(NamedTuple):
    """One end of a link as an LACPDU names it (6.4.2.3)."""

    mac: bytes
    key: int
    port: int
    state: int
    system_priority: int = 32768
    port_priority: int = 255

    def octets(self) -> bytes:
        return struct.pack(">H6sHHHB", self.system_priority, self.mac, self.key, self.port_priority, self.port, self.state)


class Packet(NamedTuple):
    """A packet, and when it was captured, in nanoseconds."""

    time: int
    octets: bytes


NOBODY = End(bytes(6), 0, 0, 0, 0, 0)


def mac(number: int) -> bytes:
    return bytes([0x02, 0, 0, 0, 0, number])


def lacpdu(actor: End, partner: End, delay: int = 0) -> bytes:
    """The payload of an LACPDU (6.4.2.3)."""
    told = bytes([1, 1, 1, 20]) + actor.octets() + bytes(3) + bytes([2, 20]) + partner.octets() + bytes(3)
    told += bytes([3, 16]) + struct.pack(">H", delay)
    return told + bytes(110 - len(told))


def marker(kind: int, port: int, system: bytes, number: int) -> bytes:
    """The payload of a Marker PDU (6.5.3.3)."""
    told = bytes([2, 1, kind, 16]) + struct.pack(">H6sI", port, system, number)
    return told + bytes(110 - len(told))


def framed(source: bytes, payload: bytes, tags: bytes = b"") -> bytes:
    return SLOW_GROUP + source + tags + SLOW_TYPE + payload


def cooked(source: bytes, payload: bytes) -> bytes:
    """What LINKTYPE_LINUX_SLL has of a frame."""
    return struct.pack(">HHH6s2x", 2, 1, 6, source) + SLOW_TYPE + payload


def cooked2(interface: int, source: bytes, payload: bytes) -> bytes:
    """What LINKTYPE_LINUX_SLL2 has of a frame."""
    return SLOW_TYPE + struct.pack(">HIHBB6s2x", 0, interface, 1, 2, 6, source) + payload


def pcap(packets: list[Packet], order: str = "<", nanoseconds: bool = False, link: int = ETHERNET) -> bytes:
    """A file of pcap, version 2.4."""
    magic = 0xA1B23C4D if nanoseconds else 0xA1B2C3D4
    out = [struct.pack(order + "IHHIIII", magic, 2, 4, 0, 0, 262144, link)]
    for time, octets in packets:
        second, rest = divmod(time, 10**9)
        fraction = rest if nanoseconds else rest // 1000
        out.append(struct.pack(order + "IIII", second, fraction, len(octets), len(octets)) + octets)
    return b"".join(out)


def block(order: str, kind: int, body: bytes) -> bytes:
    """A block of pcapng."""
    body += bytes(-len(body) % 4)
    return struct.pack(order + "II", kind, len(body) + 12) + body + struct.pack(order + "I", len(body) + 12)


def records(order: str) -> list[bytes]:
    """Blocks that hold no packet, and that Wireshark numbers: custom blocks, an entry of the journal, events of sysdig."""
    event = struct.pack(order + "HQQIH", 1, 1_700_000_000 * 10**9, 5, 40, 3) + struct.pack(order + "I", 1) + bytes(40)
    told = [(kind, struct.pack(order + "I", 12345) + b"told") for kind in (0xBAD, 0x40000BAD)]
    told.append((9, b"__REALTIME_TIMESTAMP=1700000000000000\nA=b\n"))
    told += [(kind, event) for kind in (0x204, 0x216, 0x221)]
    return [block(order, kind, body) for kind, body in told]


def pcapng(packets: list[Packet], order: str = "<", link: int = ETHERNET) -> bytes:
    """A file of pcapng with one interface, times in nanoseconds, behind each packet a block of an unknown type, and behind the first
    the `records`."""
    out = [block(order, 0x0A0D0D0A, struct.pack(order + "IHHq", 0x1A2B3C4D, 1, 0, -1))]
    out.append(block(order, 1, struct.pack(order + "HHI", link, 0, 0) + struct.pack(order + "HHB3xHH", 9, 1, 9, 0, 0)))
    for time, octets in packets:
        head = struct.pack(order + "IIIII", 0, time >> 32, time & 0xFFFFFFFF, len(octets), len(octets))
        out.append(block(order, 6, head + octets))
        out.append(block(order, 0x00C0FFEE, b"no reader knows it"))
        if len(out) == 4:
            out += records(order)
    return b"".join(out)


def coming_up() -> list[Packet]:
    """A link that comes up, with a broadcast, a tagged LACPDU, a marker and its response, and a payload that is too short."""
    start = 1_700_000_000 * 10**9
    one, two = End(mac(1), 1, 1, 0x4D), End(mac(2), 7, 2, 0x05, 4096, 128)
    up_one, up_two = one._replace(state=0x3D), two._replace(state=0x3F)
    told = [
        (0, framed(mac(1), lacpdu(one, NOBODY))),
        (1_000_000_000, framed(mac(2), lacpdu(two, one, 50))),
        (1_005_000_123, framed(mac(1), lacpdu(up_one, two))),
        (2_000_000_000, b"\xff" * 60),
        (2_250_000_000, framed(mac(2), lacpdu(up_two, up_one, 50))),
        (3_250_000_000, framed(mac(2), lacpdu(up_two, up_one, 50))),
        (3_300_000_000, framed(mac(1), lacpdu(up_one, up_two), b"\x81\x00\x00\x07")),
        (4_000_001_000, framed(mac(1), marker(1, 1, mac(1), 9))),
        (4_000_900_000, framed(mac(2), marker(2, 1, mac(1), 9))),
        (5_000_000_000, framed(mac(2), lacpdu(up_two, up_one))[:60]),
    ]
    return [Packet(start + time, octets) for time, octets in told]
