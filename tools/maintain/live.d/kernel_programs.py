"""The programs of the kernel: each verdict and count, and the conversations of frames, which are computed here a second time."""

from __future__ import annotations

import random
import shutil
import struct
from typing import Callable

from checking import Failed, Skipped, check, command
from daemon import Part
from spaces import OURS

# What the daemon may do at its start: less than root may, and so the kernel looks harder at a program.
RIGHTS = ("setpriv", "--bounding-set", "-all,+net_admin,+bpf", "--inh-caps", "-all", "--")
NO_PROGRAM, COUNT = 3, 100_000
TAGS = b"\x81\x00", b"\x88\xa8"
IPV4, IPV6, ETHERNET = 0x0800, 0x86DD, 0x6558
VLAN_AND_SOURCE, ADDRESSES, PORTS, INSIDE = "vlan+srcmac", "layer2+3", "layer3+4", "encap3+4"
# Each hash, with its seeds.
HASHES = {"layer2": (0,), ADDRESSES: (7,), PORTS: (0, 40000), INSIDE: (7,), VLAN_AND_SOURCE: (65535,)}


def fnv(seed: int, octets: bytes) -> int:
    """FNV-1a of words of 32 bits, as a processor with the low octet first reads them, and folded to eight bits."""
    number = 2166136261 ^ seed
    for (word,) in struct.iter_unpack("<I", octets):
        number = (number ^ word) * 16777619 & 0xFFFFFFFF
    number ^= number >> 16
    return (number ^ number >> 8) & 0xFF


def network(frame: bytes, at: int) -> tuple[int, int]:
    """Where the network header stands behind an Ethernet header and four tags at most, and its type; 0 if there is none."""
    at += 14
    if at > len(frame):
        return at, 0
    for _ in range(4):
        if frame[at - 2 : at] not in TAGS or at + 4 > len(frame):
            break
        at += 4
    return at, int.from_bytes(frame[at - 2 : at], "big")


def packet(frame: bytes, at: int, kind: int) -> tuple[bytes, int, int] | None:
    """The addresses of a packet of IP, the protocol of what it carries, and where that stands; the protocol of a fragment of IPv4 is 0."""
    header = frame[at : at + 40]
    if kind == IPV4 and len(header) >= 20 and header[0] >> 4 == 4:
        whole = int.from_bytes(header[6:8], "big") & 0x3FFF == 0
        return header[12:20], header[9] if whole else 0, at + 4 * (header[0] & 15)
    if kind == IPV6 and len(header) == 40 and header[0] >> 4 == 6:
        return header[8:40], header[6], at + 40
    return None


def inside(frame: bytes, protocol: int, at: int) -> tuple[int, int]:
    """Where the packet in a tunnel stands, and its type; 0 if it is none."""
    head = frame[at : at + 9]
    if protocol in (4, 41):
        return at, IPV4 if protocol == 4 else IPV6
    if protocol == 17 and len(head) == 9 and head[8] & 8 and int.from_bytes(head[2:4], "big") in (4789, 8472):
        return network(frame, at + 16)
    if protocol == 47 and len(head) >= 4 and not int.from_bytes(head[:2], "big") & 0x4C07:
        behind = at + 4 + 4 * sum(bool(head[0] & bit) for bit in (0x80, 0x20, 0x10))
        kind = int.from_bytes(head[2:4], "big")
        return network(frame, behind) if kind == ETHERNET else (behind, kind)
    return at, 0


def conversation(name: str, seed: int, frame: bytes) -> int:
    """The conversation of a frame."""
    if name == "layer2":
        return frame[5] ^ frame[11]
    if name == VLAN_AND_SOURCE:
        vlan = frame[14:16] if frame[12:14] in TAGS and len(frame) >= 16 else bytes(2)
        return fnv(seed, frame[8:12] + frame[6:8] + bytes([vlan[0] & 15, vlan[1]]))
    found = packet(frame, *network(frame, 0))
    if found and name == INSIDE:
        found = packet(frame, *inside(frame, *found[1:])) or found
    addresses, protocol, behind = found or (b"", 0, 0)
    macs = frame[:12] if name == ADDRESSES or not found else b""
    ports = frame[behind : behind + 4] if name != ADDRESSES and protocol in (6, 17, 132) and behind + 4 <= len(frame) else b""
    return fnv(seed, addresses + macs + ports)


class Frames:
    """Frames by chance: with tags, of IPv4 and IPv6, fragments, tunnels, cut off, and with octets changed."""

    def __init__(self, seed: int) -> None:
        self.by = random.Random(seed)

    def tags(self, most: int) -> bytes:
        return b"".join(self.by.choice(TAGS) + self.by.randbytes(2) for _ in range(self.by.randint(0, most)))

    def ethernet(self, deep: int) -> bytes:
        kind, made = self.by.choice((self.ipv4, self.ipv6))(deep)
        if self.by.random() < 0.05:
            kind, made = 0x0806, self.by.randbytes(28)
        return self.by.randbytes(12) + self.tags(5) + kind.to_bytes(2, "big") + made

    def ipv4(self, deep: int) -> tuple[int, bytes]:
        protocol, made = self.carried(deep)
        words = self.by.choice((5, 5, 5, 6, 15, 4))
        fragment = self.by.choice((0, 0, 0x4000, 0x2000, 0x00B9))
        head = bytes([0x40 + words, 0]) + struct.pack("!HHHBBH", 20 + len(made), 1, fragment, 64, protocol, 0)
        return IPV4, head + self.by.randbytes(8) + bytes(max(0, 4 * words - 20)) + made

    def ipv6(self, deep: int) -> tuple[int, bytes]:
        protocol, made = self.carried(deep)
        return IPV6, struct.pack("!IHBB", 6 << 28, len(made), protocol, 64) + self.by.randbytes(32) + made

    def carried(self, deep: int) -> tuple[int, bytes]:
        """A protocol, and what is of it."""
        plain = [(protocol, self.by.randbytes(20)) for protocol in (6, 17, 132, 1, 44, 0)]
        if deep == 0 or self.by.random() < 0.5:
            return self.by.choice(plain)
        kinds: list[Callable[[int], tuple[int, bytes]]] = [self.gre, self.vxlan, lambda at: (4, self.ipv4(at)[1]), lambda at: (41, self.ipv6(at)[1])]
        return self.by.choice(kinds)(deep - 1)

    def gre(self, deep: int) -> tuple[int, bytes]:
        flags = self.by.choice((0, 0x8000, 0x2000, 0x1000, 0xB000, 0x0001, 0x4000))
        more = 4 * sum(bool(flags & bit) for bit in (0x8000, 0x2000, 0x1000))
        kind, made = self.by.choice((self.ipv4, self.ipv6, lambda at: (ETHERNET, self.ethernet(at))))(deep)
        return 47, struct.pack("!HH", flags, kind) + bytes(more) + made

    def vxlan(self, deep: int) -> tuple[int, bytes]:
        to, flags = self.by.choice((4789, 8472, 4790)), self.by.choice((8, 8, 0))
        return 17, struct.pack("!HHHH", self.by.randrange(65536), to, 0, 0) + bytes([flags]) + bytes(7) + self.ethernet(deep)

    def frame(self) -> bytes:
        made = bytearray(self.ethernet(2))
        if self.by.random() < 0.2:
            del made[self.by.randint(14, len(made)) :]
        for _ in range(self.by.choice((0, 0, 0, 1, 3))):
            made[self.by.randrange(len(made))] = self.by.randrange(256)
        return bytes(made)


def check_conversations(program: tuple[str, ...], name: str, seed: int, frames: list[bytes]) -> None:
    """The daemon and the kernel find the conversations that are computed here."""
    told = command(*program, name, str(seed), input="\n".join(map(bytes.hex, frames)))
    rows = [line.split() for line in told.stdout.splitlines()]
    if len(rows) != len(frames):
        raise Failed(f"{name}: there are {len(frames):,} conversations", f"{len(rows)} came, status {told.returncode}", told.stderr[-2000:])
    expected = [conversation(name, seed, frame) for frame in frames]
    daemon = [frame.hex() for frame, row, number in zip(frames, rows, expected) if int(row[0]) != number]
    kernel = [frame.hex() for frame, row, number in zip(frames, rows, expected) if int(row[1]) not in (number, -1)]
    ran = sum(row[1] != "-1" for row in rows)
    check(not daemon, f"{name}, seed {seed}: the daemon finds the conversations of {len(frames):,} frames", len(daemon), *daemon[:5])
    check(not kernel and ran > len(frames) / 2, f"{name}, seed {seed}: the kernel finds those of {ran:,}", len(kernel), *kernel[:5])


def programs(part: Part) -> None:
    """The verdicts, the counts, and the conversations."""
    built = part.kernel()
    before = RIGHTS if shutil.which("setpriv") else ()
    told = command("ip", "netns", "exec", OURS, *before, built, "a0")
    if told.returncode == NO_PROGRAM:
        raise Skipped(f"the kernel takes no program: {told.stdout.strip()}")
    print(told.stdout, end="")
    check(told.returncode == 0, "the programs of the kernel have the verdicts and counts that they should", told.stderr[-2000:])
    frames = Frames(1)
    made = [frames.frame() for _ in range(part.fewer(COUNT))]
    for name, seeds in HASHES.items():
        for seed in seeds:
            check_conversations((*before, built), name, seed, made)


PARTS = {"programs": programs}
