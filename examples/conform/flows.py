#!/usr/bin/env python3
"""flows.py INTERFACE: sends frames of 64 flows on an interface, each flow twice a second, until it is ended or a minute has passed.

They are what lagconform looks for between `data start` and `data stop`: UDP from 198.18.0.0/16 (RFC 2544), to other addresses and ports in
each flow. The flows differ in MAC, IP and port, so that a device that hashes any of these spreads them. It prints a line each half second, and ends
where nobody takes that: behind an ssh that was ended, the device does not send on.
"""

import socket
import sys
import time

FLOWS = 64
SECONDS = 60.0


def checksum(octets: bytes) -> int:
    """The checksum of an IPv4 header."""
    total = sum(int.from_bytes(octets[at : at + 2], "big") for at in range(0, len(octets), 2))
    total = (total & 0xFFFF) + (total >> 16)
    return 0xFFFF - ((total & 0xFFFF) + (total >> 16))


def flow(number: int, count: int = 0) -> bytes:
    """A frame of a flow, and the how many-th of it it is."""
    ends = bytes([2, 0, 0, 0, 0xF1, number, 2, 0, 0, 0, 0xF0, number * 37 % 251])
    head = bytes.fromhex("450000260000000040110000") + bytes([198, 18, 0, number, 198, 19, 0, number])
    head = head[:10] + checksum(head).to_bytes(2, "big") + head[12:]
    ports = (5000 + 7 * number).to_bytes(2, "big") + (6000 + 13 * number).to_bytes(2, "big")
    return ends + b"\x08\x00" + head + ports + bytes.fromhex("00120000") + count.to_bytes(4, "big") + bytes(6)


def main() -> None:
    out = socket.socket(socket.AF_PACKET, socket.SOCK_RAW)
    out.bind((sys.argv[1], 0))
    due = begin = time.monotonic()
    count = 0
    while time.monotonic() < begin + SECONDS:
        count += 1
        for number in range(FLOWS):
            out.send(flow(number, count))
            due += 0.5 / FLOWS
            time.sleep(max(0.0, due - time.monotonic()))  # a busy machine sends late, and as many
        print(count, flush=True)


if __name__ == "__main__":
    main()
