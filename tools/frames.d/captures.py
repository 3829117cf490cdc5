"""Reads captures: the formats pcap and pcapng, as their drafts of the IETF (opsawg) describe them."""

from __future__ import annotations

import struct
from typing import BinaryIO, Iterator, NamedTuple, NoReturn

from repository import Missing

ETHERNET = 1
# No capture has a frame, and no block of pcapng here is, longer than this.
MOST = 1 << 24
PCAP = {b"\xa1\xb2\xc3\xd4": ">", b"\xa1\xb2\x3c\x4d": ">", b"\xd4\xc3\xb2\xa1": "<", b"\x4d\x3c\xb2\xa1": "<"}
SECTION, INTERFACE, OLD_PACKET, SIMPLE_PACKET, PACKET = 0x0A0D0D0A, 1, 2, 3, 6
ORDERS = {b"\x1a\x2b\x3c\x4d": ">", b"\x4d\x3c\x2b\x1a": "<"}


class Packet(NamedTuple):
    """A frame: what was captured of it, and how many octets it had."""

    octets: bytes
    length: int


class Source:
    """Octets that are read in order. What is missing is refused with where it was wanted."""

    def __init__(self, file: BinaryIO) -> None:
        self.file, self.at = file, 0

    def take(self, count: int, what: str) -> bytes:
        """So many octets; none at all where the file ends before the first of them and nothing has to follow."""
        octets = self.file.read(count)
        if len(octets) < count and (octets or what):
            raise Missing(f"the capture ends at octet {self.at + len(octets)}, within {what or 'a packet'}")
        self.at += len(octets)
        return octets

    def refuse(self, why: str) -> None:
        raise Missing(f"octet {self.at}: {why}")


def packets(file: BinaryIO) -> Iterator[Packet]:
    """The frames of a capture in their order."""
    source = Source(file)
    magic = source.take(4, "its first number")
    if magic in PCAP:
        yield from of_pcap(source, PCAP[magic])
    elif magic == SECTION.to_bytes(4, "big"):
        yield from of_pcapng(source)
    else:
        raise Missing(f"this is neither pcap nor pcapng: it begins with {magic.hex()}")


def wants_ethernet(source: Source, link: int) -> None:
    if link != ETHERNET:
        source.refuse(f"the link type is {link}, and only Ethernet, {ETHERNET}, is read")


def of_pcap(source: Source, order: str) -> Iterator[Packet]:
    *_, link = struct.unpack(f"{order}HHIIII", source.take(20, "the header of the file"))
    wants_ethernet(source, link & 0xFFFFFFF)
    while header := source.take(16, ""):
        _, _, captured, length = struct.unpack(f"{order}IIII", header)
        if captured > MOST:
            source.refuse(f"a frame of {captured} octets")
        yield Packet(source.take(captured, "a frame"), length)


def of_pcapng(source: Source) -> Iterator[Packet]:
    """The blocks of a file, section by section. Each has its type, its length, its body, and its length again."""
    order, links = section(source)
    while head := source.take(4, ""):
        kind = int.from_bytes(head, "little" if order == "<" else "big")
        if kind == SECTION:
            order, links = section(source)
            continue
        body = body_of(source, order)
        if kind == INTERFACE:
            if len(body) < 8:
                source.refuse("a short block of an interface")
            link, _, most = struct.unpack_from(f"{order}HHI", body)
            links.append((link, most))
        elif kind in (PACKET, OLD_PACKET, SIMPLE_PACKET):
            yield packet_of(source, order, links, kind, body)


def section(source: Source) -> tuple[str, list[tuple[int, int]]]:
    """The head of a section, behind its type: the order of octets in it, and no interface yet."""
    length, magic = source.take(4, "the head of a section"), source.take(4, "the head of a section")
    if magic not in ORDERS:
        source.refuse(f"a section whose order of octets is {magic.hex()}")
    order = ORDERS[magic]
    (size,) = struct.unpack(f"{order}I", length)
    if size < 28 or size % 4 or size > MOST:
        source.refuse(f"the head of a section of {size} octets")
    source.take(size - 12, "the head of a section")
    return order, []


def body_of(source: Source, order: str) -> bytes:
    """The body of a block, behind its type."""
    (size,) = struct.unpack(f"{order}I", source.take(4, "a block"))
    if size < 12 or size % 4 or size > MOST:
        source.refuse(f"a block of {size} octets")
    return source.take(size - 8, "a block")[:-4]


def packet_of(source: Source, order: str, links: list[tuple[int, int]], kind: int, body: bytes) -> Packet:
    """The frame of a block."""
    number, captured, length, at = 0, 0, 0, 20
    if kind == SIMPLE_PACKET and len(body) >= 4:
        (length,), at = struct.unpack_from(f"{order}I", body), 4
    elif len(body) >= 20:
        form = "I" if kind == PACKET else "HH"
        number, *_, captured, length = struct.unpack_from(f"{order}{form}IIII", body)
    else:
        source.refuse("a short block of a frame")
    if number >= len(links):
        source.refuse(f"a frame of interface {number}, which the section does not have")
    link, most = links[number]
    wants_ethernet(source, link)
    if kind == SIMPLE_PACKET:
        captured = min(length, most or length)
    if at + captured > len(body):
        source.refuse(f"a frame of {captured} octets in a block of {len(body)}")
    return Packet(body[at : at + captured], length)
