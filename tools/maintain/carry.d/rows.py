"""Pairs of frames, and whether they are of one conversation by each hash."""

from __future__ import annotations

from collections import Counter
from typing import Sequence

from bonds import Programs
from checking import check, command

MACS, OTHER_MACS = "02bb00000001" "02aa00000001", "02bb00000001" "02aa00000002"


def ipv4(source: str, ports: str, protocol: int = 17, fragment: int = 0, macs: str = MACS, tag: str = "") -> str:
    """A frame from an address of 10.0.0.0/24 to 10.0.1.1, with four octets behind the header."""
    return f"{macs}{tag}0800" f"4500001c0000{fragment:04x}40{protocol:02x}0000" f"0a0000{source}" "0a000101" f"{ports}00080000"


def ipv6(source: str, ports: str, protocol: int = 6, macs: str = MACS, tag: str = "") -> str:
    address = "20010db80000000000000000000000"
    return f"{macs}{tag}86dd" f"60000000 0014 {protocol:02x} 40".replace(" ", "") + f"{address}{source}{address}ff{ports}" + "00" * 16


def tunnel(inner: str, protocol: int, before: str = "", ports: str = "", fragment: int = 0, sixth: bool = False) -> str:
    """A frame whose packet carries another one: `inner` without its Ethernet header, behind `before`, a header of GRE or VXLAN; and of UDP."""
    udp = f"{ports}00200000" if ports else ""
    if sixth:
        return ipv6("01", udp + before, protocol)[:108] + udp + before + inner
    return ipv4("01", "", protocol, fragment)[:68] + udp + before + inner


def vxlan(inner: str, ports: str = "c00012b5", header: str = "0800000000000700") -> str:
    """A frame whose datagram carries another frame."""
    return tunnel(inner, 17, header, ports)


A, B = "27102710", "27112710"
TAG, TWO_TAGS, OTHER_TAG = "81000064", "88a8000181000064", "81006065"
IN_A, IN_B, IN_A6, IN_B6 = ipv4("09", A)[28:], ipv4("09", B)[28:], ipv6("09", A)[28:], ipv6("09", B)[28:]
GRE, GRE6, GRE_KEYED, GRE_TEB = "00000800", "000086dd", "2000080000000007", "00006558"
TO_USUAL, TO_OTHER = "c0002118", "c00012b6"
HASHES = ("layer2+3", "layer3+4", "encap3+4", "vlan+srcmac")
# Each pair of frames, with whether they are of one conversation by layer2+3, layer3+4, encap3+4 and vlan+srcmac.
ROWS = {
    "UDP, another port": (ipv4("01", A), ipv4("01", B), True, False, False, True),
    "TCP, another port": (ipv4("01", A, 6), ipv4("01", B, 6), True, False, False, True),
    "SCTP, another port": (ipv4("01", A, 132), ipv4("01", B, 132), True, False, False, True),
    "ICMP, other octets there": (ipv4("01", A, 1), ipv4("01", B, 1), True, True, True, True),
    "another address of IPv4": (ipv4("01", A), ipv4("03", A), False, False, False, True),
    "other MAC addresses": (ipv4("01", A), ipv4("01", A, macs=OTHER_MACS), False, True, True, False),
    "two fragments of IPv4, the first and one behind it": (ipv4("01", A, fragment=0x2000), ipv4("01", B, fragment=0x00B9), True, True, True, True),
    "a datagram that may not be fragmented, another port": (ipv4("01", A, fragment=0x4000), ipv4("01", B, fragment=0x4000), True, False, False, True),
    "with a tag and without": (ipv4("01", A), ipv4("01", A, tag=TAG), True, True, True, False),
    "two tags, another port": (ipv4("01", A, tag=TWO_TAGS), ipv4("01", B, tag=TWO_TAGS), True, False, False, True),
    "two tags, and none": (ipv4("01", A), ipv4("01", A, tag=TWO_TAGS), True, True, True, False),
    "two tags, another port of IPv6": (ipv6("01", A, tag=TWO_TAGS), ipv6("01", B, tag=TWO_TAGS), True, False, False, True),
    "four tags, another port": (ipv4("01", A, tag=2 * TWO_TAGS), ipv4("01", B, tag=2 * TWO_TAGS), True, False, False, True),
    "five tags, another address": (ipv4("01", A, tag=TAG + 2 * TWO_TAGS), ipv4("03", B, tag=TAG + 2 * TWO_TAGS), True, True, True, True),
    "IPv6, another port": (ipv6("01", A), ipv6("01", B), True, False, False, True),
    "IPv6, another address": (ipv6("01", A), ipv6("02", A), False, False, False, True),
    "two fragments of IPv6": (ipv6("01", A, 44), ipv6("01", B, 44), True, True, True, True),
    "ARP, other octets": (f"{MACS}0806{'00' * 28}", f"{MACS}0806{'11' * 28}", True, True, True, True),
    "ARP, other MAC addresses": (f"{MACS}0806{'00' * 28}", f"{OTHER_MACS}0806{'00' * 28}", False, False, False, False),
    "IPv4 that is cut off": (f"{MACS}08004500", f"{MACS}08004511", True, True, True, True),
    "UDP that is cut off before its ports": (ipv4("01", A)[:70], ipv4("01", A)[:68] + "ff", True, True, True, True),
    "a frame of 14 octets": (f"{MACS}0800", f"{MACS}86dd", True, True, True, True),
    "two VLANs": (ipv4("01", A, tag=TAG), ipv4("01", A, tag=OTHER_TAG), True, True, True, False),
    "one VLAN, another priority in its tag": (ipv4("01", A, tag=TAG), ipv4("01", A, tag="81006064"), True, True, True, True),
    "one VLAN of two kinds of tags": (ipv4("01", A, tag=TAG), ipv4("01", A, tag="88a80064"), True, True, True, True),
    "a tag that is cut off": (f"{MACS}8100", f"{MACS}810000", True, True, True, True),
    "another destination": (ipv4("01", A, 1), ipv4("01", A, 1, macs="02bb0000000202aa00000001"), False, True, True, True),
    "IPv4 in IPv4, another port": (tunnel(IN_A, 4), tunnel(IN_B, 4), True, True, False, True),
    "IPv6 in IPv4, another port": (tunnel(IN_A6, 41), tunnel(IN_B6, 41), True, True, False, True),
    "IPv4 in IPv6, another port": (tunnel(IN_A, 4, sixth=True), tunnel(IN_B, 4, sixth=True), True, True, False, True),
    "IPv6 in IPv6, another port": (tunnel(IN_A6, 41, sixth=True), tunnel(IN_B6, 41, sixth=True), True, True, False, True),
    "in fragments of IPv4": (tunnel(IN_A, 4, fragment=0x2000), tunnel(IN_B, 4, fragment=0x2000), True, True, True, True),
    "GRE, another port": (tunnel(IN_A, 47, GRE), tunnel(IN_B, 47, GRE), True, True, False, True),
    "GRE with IPv6, another port": (tunnel(IN_A6, 47, GRE6), tunnel(IN_B6, 47, GRE6), True, True, False, True),
    "GRE in IPv6, another port": (tunnel(IN_A, 47, GRE, sixth=True), tunnel(IN_B, 47, GRE, sixth=True), True, True, False, True),
    "GRE with a key and without": (tunnel(IN_A, 47, GRE), tunnel(IN_A, 47, GRE_KEYED), True, True, True, True),
    "GRE with a sum, a key and a number": (tunnel(IN_A, 47, GRE), tunnel(IN_A, 47, "b0000800" + 24 * "0"), True, True, True, True),
    "GRE of another version, another port": (tunnel(IN_A, 47, "00010800"), tunnel(IN_B, 47, "00010800"), True, True, True, True),
    "GRE with Ethernet, another port": (tunnel(ipv4("09", A), 47, GRE_TEB), tunnel(ipv4("09", B), 47, GRE_TEB), True, True, False, True),
    "the same with a tag, and without": (tunnel(ipv4("09", A, tag=TAG), 47, GRE_TEB), tunnel(ipv4("09", A), 47, GRE_TEB), True, True, True, True),
    "GRE that is cut off": (tunnel("", 47, "0000"), tunnel("", 47, "0001"), True, True, True, True),
    "VXLAN, another port": (vxlan(ipv4("09", A)), vxlan(ipv4("09", B)), True, True, False, True),
    "at the usual port of Linux": (vxlan(ipv4("09", A), TO_USUAL), vxlan(ipv4("09", B), TO_USUAL), True, True, False, True),
    "VXLAN with IPv6, another port": (vxlan(ipv6("09", A)), vxlan(ipv6("09", B)), True, True, False, True),
    "VXLAN, another outer port": (vxlan(ipv4("09", A), "c00112b5"), vxlan(ipv4("09", A)), True, False, True, True),
    "to another port, another inner one": (vxlan(ipv4("09", A), TO_OTHER), vxlan(ipv4("09", B), TO_OTHER), True, True, True, True),
    "VXLAN without its bit": (vxlan(ipv4("09", A), header=16 * "0"), vxlan(ipv4("09", B), header=16 * "0"), True, True, True, True),
    "VXLAN with ARP": (vxlan(f"{MACS}0806{28 * '00'}"), vxlan(f"{MACS}0806{28 * '11'}"), True, True, True, True),
}


def check_pairs(program: str, what: str, places: Sequence[int]) -> None:
    """A program that prints conversations has the pairs of each row in one, or in two, by each hash of these places."""
    text = "".join(f"{frame}\n" for row in ROWS.values() for frame in row[:2])
    for place in places:
        name = HASHES[place - 1]
        spread = set()
        for seed in ("0", "1", "40000"):
            told = command(program, str(place), seed, input=text).stdout.split()
            numbers = [(told[2 * row], told[2 * row + 1]) for row in range(len(ROWS))] if len(told) == 2 * len(ROWS) else []
            wrong = [what for (what, row), (one, other) in zip(ROWS.items(), numbers) if (one == other) != row[place + 1]]
            check(bool(numbers) and not wrong, f"{name}, seed {seed}: {len(ROWS)} pairs of frames are of one {what}, or of two", *wrong)
            spread.add(tuple(told))
        check(len(spread) == 3, f"{name}: with another seed they have other numbers")


def rows(programs: Programs) -> None:
    """Conversations of frames, row by row; and their buckets, by the program of the team driver, which spreads connections."""
    check_pairs(programs.conversations, "conversation", (1, 2, 3, 4))
    check_pairs(programs.buckets, "bucket", (1, 2, 4))
    macs = [f"{MACS[:22]}{last:02x}{'88b5'}{'00' * 46}" for last in range(256)]
    told = command(programs.buckets, "0", "0", input="\n".join(macs)).stdout.split()
    check(told == [str(1 ^ last) for last in range(256)], "layer2: the bucket of a frame has the last octets of both addresses")
    flows = "\n".join(ipv4("01", f"{20000 + flow:04x}2710", 6) for flow in range(2560))
    count = Counter(command(programs.buckets, "2", "0", input=flows).stdout.split())
    check(len(count) == 256 and max(count.values()) < 30, f"layer3+4: 2,560 connections are in {len(count)} buckets, {max(count.values())} in one at most")
