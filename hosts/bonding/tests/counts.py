#!/usr/bin/env python3
"""counts.py LINK: the counts of LACP of a member of a bond, by RTM_GETSTATS."""

from __future__ import annotations

import socket
import struct
import sys
from typing import Iterator

NAMES = "lacpdu_rx lacpdu_tx lacpdu_unknown_rx lacpdu_illegal_rx marker_rx marker_tx marker_resp_rx marker_resp_tx marker_unknown_rx".split()
GETSTATS, SLAVE_STATS, BOND_TYPE = 94, 3, 1


def parts(octets: bytes) -> Iterator[tuple[int, bytes]]:
    """The attributes of netlink, with their kinds."""
    while len(octets) >= 4:
        length, kind = struct.unpack_from("HH", octets)
        yield kind & 0x3FFF, octets[4:length]
        octets = octets[(length + 3) & ~3 :]


with socket.socket(socket.AF_NETLINK, socket.SOCK_RAW, 0) as it:
    asked = struct.pack("BBHII", 0, 0, 0, socket.if_nametoindex(sys.argv[1]), 1 << SLAVE_STATS - 1)
    it.send(struct.pack("IHHII", 16 + len(asked), GETSTATS, 1, 1, 0) + asked)
    told = it.recv(1 << 16)
for kind, octets in parts(told[16 + 12 :]):
    for _, bond in parts(octets) if kind == SLAVE_STATS else ():
        for _, counts in parts(bond):
            print({NAMES[at]: struct.unpack("Q", value)[0] for at, value in parts(counts) if at < len(NAMES) and len(value) == 8})
