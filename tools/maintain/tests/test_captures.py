"""tools/frames: captures whose octets are written here by hand, after the drafts of the formats."""

from __future__ import annotations

import io

import pytest

import loading

captures = loading.module("frames.d", "captures")
frames = loading.program("frames")

FIRST, SECOND = bytes.fromhex("0180c2000002"), bytes.fromhex("aabbccddeeff0011")
PCAP_BIG = bytes.fromhex("a1b2c3d4 0002 0004 00000000 00000000 0000ffff 00000001")
PCAP_SMALL = bytes.fromhex("4d3cb2a1 0200 0400 00000000 00000000 ffff0000 01000000")
# Seconds, the part of a second, octets that were captured, octets that the frame had.
RECORD_BIG = bytes.fromhex("00000005 00000000 00000006 0000003c") + FIRST
RECORD_SMALL = bytes.fromhex("05000000 00000000 08000000 08000000") + SECOND
# The head of a section: its type, 28 octets, the order of octets, version 1.0, a length that is not known, 28 octets.
SECTION = bytes.fromhex("0a0d0d0a 1c000000 4d3c2b1a 0100 0000 ffffffffffffffff 1c000000")
# An interface: type 1, 20 octets, Ethernet, at most 7 octets of a frame.
INTERFACE = bytes.fromhex("01000000 14000000 0100 0000 07000000 14000000")
# A packet of interface 0: type 6, 40 octets, a time, 6 of 9 octets, and 2 octets that fill up.
PACKET = bytes.fromhex("06000000 28000000 00000000 00000000 00000000 06000000 09000000") + FIRST + bytes.fromhex("0000 28000000")
# A simple packet of 8 octets, of which the interface has 7: type 3, 24 octets.
SIMPLE = bytes.fromhex("03000000 18000000 08000000") + SECOND[:7] + bytes.fromhex("00 18000000")
# A block of another type, which is passed over: 16 octets.
OTHER = bytes.fromhex("05000000 10000000 01020304 10000000")


def read(octets: bytes) -> list[tuple[bytes, int]]:
    return [(it.octets, it.length) for it in captures.packets(io.BytesIO(octets))]


@pytest.mark.parametrize(
    ("octets", "found"),
    [
        (PCAP_BIG, []),
        (PCAP_BIG + RECORD_BIG, [(FIRST, 60)]),
        (PCAP_SMALL + RECORD_SMALL, [(SECOND, 8)]),
        (SECTION, []),
        (SECTION + INTERFACE + PACKET + OTHER + SIMPLE, [(FIRST, 9), (SECOND[:7], 8)]),
        (SECTION + SECTION + INTERFACE + PACKET, [(FIRST, 9)]),
    ],
)
def test_the_frames_of_a_capture(octets: bytes, found: list[tuple[bytes, int]]) -> None:
    assert read(octets) == found


@pytest.mark.parametrize(
    ("octets", "why"),
    [
        (b"", "the capture ends at octet 0, within its first number"),
        (b"GIF8", "this is neither pcap nor pcapng: it begins with 47494638"),
        (PCAP_BIG[:23] + b"\x71", "octet 24: the link type is 113, and only Ethernet, 1, is read"),
        (PCAP_BIG + RECORD_BIG[:18], "the capture ends at octet 42, within a frame"),
        (PCAP_BIG + RECORD_BIG[:5], "the capture ends at octet 29, within a packet"),
        (SECTION + PACKET, "octet 68: a frame of interface 0, which the section does not have"),
        (SECTION + INTERFACE + SECTION + PACKET, "octet 116: a frame of interface 0, which the section does not have"),
        (SECTION + INTERFACE[:10], "the capture ends at octet 38, within a block"),
        (SECTION + bytes.fromhex("01000000 0b000000"), "octet 36: a block of 11 octets"),
        (SECTION[:8] + b"none", "octet 12: a section whose order of octets is 6e6f6e65"),
        (SECTION + bytes.fromhex("01000000 10000000 01000000 10000000"), "octet 44: a short block of an interface"),
    ],
)
def test_what_is_no_capture_is_refused_at_its_octet(octets: bytes, why: str) -> None:
    with pytest.raises(captures.Missing) as refused:
        read(octets)
    assert str(refused.value) == why


ADDRESSES = bytes.fromhex("0180c2000002 020000000031")


@pytest.mark.parametrize(
    ("behind", "left", "vlan"),
    [
        ("8809 0101", "8809 0101", None),
        ("8100 6123 8809 0101", "8809 0101", 0x123),
        ("88a8 f00a 8809 02", "8809 02", 10),
        ("8100 6123 88", "8100 6123 88", None),
        ("8100 6004 8100 2005 8809", "8100 2005 8809", 4),
    ],
)
def test_a_frame_loses_one_tag(behind: str, left: str, vlan: int | None) -> None:
    assert frames.untagged(ADDRESSES + bytes.fromhex(behind)) == (ADDRESSES + bytes.fromhex(left), vlan)
