"""Packets of TCP that are to be cut into segments, as a host hands them to a device."""

from __future__ import annotations

import socket
import struct

from bonds import DEVICE
from spaces import OURS, packet_socket
from streams import ADDRESSES

# Of linux/if_packet.h.
SOL_PACKET, PACKET_VNET_HDR = 263, 15
PORT = 7000


def host_socket() -> socket.socket:
    """A socket by which our device is given packets, behind what the kernel is told of each."""
    made = packet_socket(OURS, DEVICE, 0)
    made.setsockopt(SOL_PACKET, PACKET_VNET_HDR, 1)
    return made


def internet_sum(octets: bytes) -> int:
    """The sum of which the checksum of IP and TCP is the complement; of octets with a right one 0xFFFF."""
    octets += bytes(len(octets) % 2)
    return sum(int.from_bytes(octets[at:at + 2], "big") for at in range(0, len(octets), 2)) % 0xFFFF or 0xFFFF


def packet_to_cut(octets: int, size: int, macs: bytes = bytes([2] * 12), tags: bytes = b"") -> bytes:
    """A packet with so many octets, which is to be cut into segments of `size` of them: its sum is left to a card."""
    addresses = b"".join(map(socket.inet_aton, ADDRESSES))
    ip_header = struct.pack("!BBHHHBB", 0x45, 0, 40 + octets, 0, 0x4000, 64, 6)
    ip_sum = 0xFFFF - internet_sum(ip_header + addresses)
    pseudo_sum = internet_sum(addresses + struct.pack("!HH", 6, 20 + octets))
    tcp_header = struct.pack("!HHIIBBHHH", PORT, PORT, 0, 0, 0x50, 0x10, 500, pseudo_sum, 0)
    told = struct.pack("=BBHHHH", 1, 1, 54 + len(tags), size, 34 + len(tags), 16)  # struct virtio_net_hdr
    return told + macs + tags + b"\x08\x00" + ip_header + ip_sum.to_bytes(2, "big") + addresses + tcp_header + bytes(octets)
