"""The frames of a run as a pcapng file: one interface a link, the direction of each packet, the tests as comments."""

from __future__ import annotations

import struct
from typing import Iterable, Mapping

from .model import Frame

SECTION, INTERFACE, PACKET = 0x0A0D0D0A, 1, 6
BYTE_ORDER, ETHERNET, LONGEST = 0x1A2B3C4D, 1, 65535
COMMENT, NAME, FLAGS, RESOLUTION = 1, 2, 2, 9
NANOSECONDS = b"\x09"
INBOUND, OUTBOUND = 1, 2


def option(code: int, value: bytes) -> bytes:
    """An option of a block."""
    return struct.pack("=HH", code, len(value)) + value + bytes(-len(value) % 4)


def block(kind: int, body: bytes) -> bytes:
    """A block, between its lengths."""
    size = struct.pack("=I", len(body) + 12)
    return struct.pack("=I", kind) + size + body + size


def octets(started: float, names: Iterable[str], frames: Iterable[Frame], comments: Mapping[int, str]) -> bytes:
    """The file. `started` is the second 0 of the run since 1970; `comments` has texts by packet number."""
    out = [block(SECTION, struct.pack("=IHHq", BYTE_ORDER, 1, 0, -1))]
    for name in names:
        options = option(NAME, name.encode()) + option(RESOLUTION, NANOSECONDS) + bytes(4)
        out.append(block(INTERFACE, struct.pack("=HHI", ETHERNET, 0, LONGEST) + options))
    for it in frames:
        when, size = int((started + it.time) * 1e9), len(it.octets)
        body = struct.pack("=IIIII", it.link - 1, when >> 32, when & 0xFFFFFFFF, size, size) + it.octets + bytes(-size % 4)
        body += option(FLAGS, struct.pack("=I", OUTBOUND if it.out else INBOUND))
        if it.number in comments:
            body += option(COMMENT, comments[it.number].encode())
        out.append(block(PACKET, body + bytes(4)))
    return b"".join(out)
