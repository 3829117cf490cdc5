"""Captures that the tests make: LACPDUs of two systems, as pcap and pcapng."""

from __future__ import annotations

import struct
from typing import Iterable, NamedTuple

SLOW, DEFAULTS = bytes.fromhex("0180c2000002"), bytes(18)
UP, DOWN, DEFAULTED, ATTACHED = 0x3D, 0x05, 0x45, 0x0D  # state octets
FAST, FAST_DOWN, EXPIRED = 0x3F, 0x07, 0x87  # with Short Timeout


class Party(NamedTuple):
    """One end of a link, as an LACPDU names it."""

    system: int
    key: int
    port: int
    state: int
    priority: int = 32768

    def octets(self) -> bytes:
        return struct.pack(">H6sHHHB3x", self.priority, bytes([2, 0, 0, 0, 0, self.system]), self.key, 255, self.port, self.state)

    def source(self) -> bytes:
        return bytes([2, 0, 0, 0, self.system, self.port])


def lacpdu(actor: Party, partner: Party | None) -> bytes:
    """The payload of an LACPDU; without a partner it names none."""
    named = partner.octets() if partner else DEFAULTS
    return b"\x01\x01\x01\x14" + actor.octets() + b"\x02\x14" + named + b"\x03\x10" + bytes(66)


def frame(source: bytes, payload: bytes) -> bytes:
    return SLOW + source + b"\x88\x09" + payload


def pcap(path: str, packets: Iterable[tuple[float, bytes]], most: int = 262144) -> None:
    """A capture; of a packet at most so many octets are captured."""
    with open(path, "wb") as out:
        out.write(struct.pack("<IHHiIII", 0xA1B2C3D4, 2, 4, 0, 0, most, 1))
        for seconds, octets in packets:
            time = struct.pack("<II", 1_700_000_000 + int(seconds), int(seconds % 1 * 1e6))
            out.write(time + struct.pack("<II", len(octets[:most]), len(octets)) + octets[:most])


Packets = list[tuple[float, bytes]]


def sends(one: Party, other: Party | None, seconds: Iterable[float], source: bytes = b"") -> Packets:
    """One end sends to the other at these times."""
    octets = frame(source or one.source(), lacpdu(one, other))
    return [(second, octets) for second in seconds]


def exchange(one: Party, other: Party, seconds: Iterable[float]) -> Packets:
    """Both ends of a link, each once at these times."""
    frames = frame(one.source(), lacpdu(one, other)), frame(other.source(), lacpdu(other, one))
    return [(second + way / 250, frames[way]) for second in seconds for way in (0, 1)]


def at(begin: float, *seconds: int) -> list[float]:
    """Each second of a range, so much later."""
    return [second + begin for second in range(*seconds)]


def capture(path: str, *parts: Packets) -> None:
    """A capture of what several send, in the order of its times; what one sends is as it stands."""
    pcap(path, sorted(it for part in parts for it in part) if len(parts) > 1 else parts[0])


def one_link(state: int, other: int | None = None, port: int = 1) -> tuple[Party, Party]:
    """The ends of a link of the systems 1 and 2, in one state or each in its own."""
    return Party(1, 7, port, state), Party(2, 8, port, state if other is None else other)


def keyed(keys: Iterable[tuple[int, int]], up: tuple[int, int] | None = None) -> list[Packets]:
    """Links of two systems, port to port, with the keys of both; those with the keys `up` carry, or all where nothing is said."""
    states = [(port, key, FAST if up in (None, key) else FAST_DOWN) for port, key in enumerate(keys, 1)]
    return [exchange(Party(1, own, port, state), Party(2, far, port, state), at(port / 100, 20)) for port, (own, far), state in states]


def crowded(count: int) -> Packets:
    """So many links with five keys at system 2; on each, system 1 sends tagged frames, of version 2, and too many."""
    packets: Packets = []
    for port in range(1, count + 1):
        one, other = Party(1, 7, port, FAST_DOWN), Party(2, 10 + port % 5, port, FAST_DOWN)
        octets = frame(one.source(), b"\x01\x02" + lacpdu(one, other)[2:])
        tagged = octets[:12] + b"\x81\x00\x00\x64" + octets[12:]
        for second in range(20):
            times = [0.0, 0.1, 0.2, 0.3, 0.4] if second % 9 == 3 else [0.0]
            packets += [(second + it + port / 1000, tagged if second == 5 else octets) for it in times]
        packets += sends(other, one, [second + 0.5 + port / 1000 for second in range(20)])
    return sorted(packets)


def block(kind: int, octets: bytes) -> bytes:
    """A block of pcapng."""
    whole = octets + bytes(-len(octets) % 4)
    return struct.pack("<II", kind, 12 + len(whole)) + whole + struct.pack("<I", 12 + len(whole))


HEAD = block(0x0A0D0D0A, struct.pack("<IHHq", 0x1A2B3C4D, 1, 0, -1))


def option(code: int, octets: bytes) -> bytes:
    return struct.pack("<HH", code, len(octets)) + octets + bytes(-len(octets) % 4)


def named(path: str, names: list[str], comment: str) -> None:
    """A link on each interface of these names, as pcapng; the first packet has a comment."""
    packets = sorted((second, number, octets) for number in range(len(names))
                     for second, octets in exchange(Party(1, 7, number + 1, FAST), Party(2, 8, number + 1, FAST if number == 0 else FAST_DOWN), range(5)))
    with open(path, "wb") as out:
        out.write(HEAD)
        for name in names:
            out.write(block(1, struct.pack("<HHI", 1, 0, 0) + option(2, name.encode()) + option(0, b"")))
        for second, number, octets in packets:
            time, more = int((1_700_000_000 + second) * 1e6), option(1, comment.encode()) + option(0, b"") if (second, number) == (0, 0) else b""
            out.write(block(6, struct.pack("<IIIII", number, time >> 32, time & 0xFFFFFFFF, len(octets), len(octets)) + octets + bytes(-len(octets) % 4) + more))


def pcapng(path: str, packets: Iterable[bytes]) -> None:
    """A capture whose packets have no times."""
    with open(path, "wb") as out:
        out.write(HEAD + block(1, struct.pack("<HHI", 1, 0, 262144)))
        for octets in packets:
            out.write(block(3, struct.pack("<I", len(octets)) + octets))


def bundle(path: str) -> None:
    """Eight links of two systems: link 3 has another key at system 2, and on link 5 nobody answers."""
    packets: Packets = []
    for port in range(1, 9):
        for state, seconds in (DOWN, at(port / 100, 4)), (DOWN if port == 3 else UP, at(port / 100, 4, 60)):
            one, other = Party(1, 7, port, state), Party(2, 9 if port == 3 else 7, port, state)
            packets += sends(one._replace(state=DEFAULTED), None, seconds) if port == 5 else exchange(one, other, seconds)
    capture(path, packets)


def crowd(path: str, count: int) -> None:
    """So many ends that send one LACPDU each."""
    partner = Party(2, 7, 1, UP)
    pcap(path, ((number / 1000, frame(struct.pack(">HI", 0x0200, number), lacpdu(Party(1, 7, number, UP), partner))) for number in range(count)))


def led(ends: Iterable[tuple[int, Party]]) -> list[Packets]:
    """Links of system 1, one behind the other, with these keys to these ends; all carry."""
    return [exchange(Party(1, key, port, FAST), far, at(port / 100, 20)) for port, (key, far) in enumerate(ends, 1)]


def interfaces(path: str, links: Iterable[tuple[str, Packets]]) -> None:
    """A capture of several interfaces as pcapng, each with its name and what is seen there."""
    given = list(links)
    packets = sorted((seconds, number, octets) for number, (_, seen) in enumerate(given) for seconds, octets in seen)
    with open(path, "wb") as out:
        out.write(HEAD)
        for name, _ in given:
            out.write(block(1, struct.pack("<HHI", 1, 0, 0) + option(2, name.encode()) + option(0, b"")))
        for seconds, number, octets in packets:
            time = int((1_700_000_000 + seconds) * 1e6)
            out.write(block(6, struct.pack("<IIIII", number, time >> 32, time & 0xFFFFFFFF, len(octets), len(octets)) + octets + bytes(-len(octets) % 4)))


def arps(count: int) -> Packets:
    """Frames that have nothing to do with LACP."""
    return [(float(it), bytes([255] * 6 + [2, 0, 0, 0, 9, 9]) + b"\x08\x06" + bytes(46)) for it in range(count)]
