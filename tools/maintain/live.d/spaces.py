"""Two network namespaces joined by veth pairs, and raw frames at the end of a pair."""

from __future__ import annotations

import contextlib
import ctypes
import os
import socket
import struct
import subprocess
from typing import Any, Iterator, Sequence

from checking import Failed, Skipped, command

# The namespaces are named for this process, so that two runs do not meet.
OURS, THEIRS = f"lag-ours-{os.getpid()}", f"lag-theirs-{os.getpid()}"
SLOW_PROTOCOLS, GROUP = 0x8809, "01:80:c2:00:00:02"
OUTGOING, NEW_NETWORK = 4, 0x40000000
# SO_TIMESTAMPNS of linux/socket.h.
TIMESTAMP = 35
PIDFD_OPEN, PIDFD_GETFD = 434, 438


def ip(space: str, *words: str, **more: Any) -> None:
    ended = command("ip", "-n", space, *words, **more)
    if ended.returncode:
        raise Failed(f"ip {' '.join(words)}", ended.stderr)


def inside(space: str, *words: str, **more: Any) -> subprocess.CompletedProcess[str]:
    """Runs a command in a namespace."""
    return command("ip", "netns", "exec", space, *words, **more)


def drop_spaces() -> None:
    for space in (OURS, THEIRS):
        command("ip", "netns", "del", space)


def make_pair(place: int, own: Sequence[str] = (), other: Sequence[str] = ()) -> None:
    """A pair of a0 and b0, or a1 and b1, with both ends up, each made with words of its own."""
    made = command("ip", "-n", OURS, "link", "add", f"a{place}", *own, "type", "veth", "peer", "name", f"b{place}", *other, "netns", THEIRS)
    if made.returncode:
        raise Skipped(f"no veth pairs: {made.stderr.strip()}")
    ip(OURS, "link", "set", f"a{place}", "up")
    ip(THEIRS, "link", "set", f"b{place}", "up")


def make_spaces() -> None:
    """Two new network namespaces, joined by two veth pairs."""
    for space in (OURS, THEIRS):
        made = command("ip", "netns", "add", space)
        if made.returncode:
            raise Skipped(f"no network namespaces: {made.stderr.strip()}")
    for place in (0, 1):
        make_pair(place)


def flap(space: str, name: str, times: int) -> None:
    """Takes an interface down and up at once, so many times."""
    ip(space, "-batch", "-", input=f"link set {name} down\nlink set {name} up\n" * times)


def losses(space: str, name: str) -> int:
    """How often the kernel saw the carrier of an interface go."""
    return int(inside(space, "cat", f"/sys/class/net/{name}/carrier_down_count").stdout or -1)


def octets(mac: str) -> bytes:
    return bytes.fromhex(mac.replace(":", ""))


def system_call(number: int, *words: int) -> int:
    answer = int(ctypes.CDLL(None, use_errno=True).syscall(number, *words))
    if answer < 0:
        raise Skipped(f"no system call {number}: {os.strerror(ctypes.get_errno())}")
    return answer


def sockets_of(process: int) -> list[socket.socket]:
    """The packet sockets by which a process sends and takes frames, as sockets of our own; a lock is one of another type."""
    handle, found = system_call(PIDFD_OPEN, process, 0), []
    for name in os.listdir(f"/proc/{process}/fd"):
        if os.readlink(f"/proc/{process}/fd/{name}").startswith("socket:"):
            taken = socket.socket(fileno=system_call(PIDFD_GETFD, handle, int(name), 0))
            found += [taken] if (taken.family, taken.type) == (socket.AF_PACKET, socket.SOCK_RAW) else []
    os.close(handle)
    return found


def enter(space: int) -> None:
    if ctypes.CDLL(None, use_errno=True).setns(space, NEW_NETWORK) < 0:
        raise Skipped(f"no way into a namespace: {os.strerror(ctypes.get_errno())}")


@contextlib.contextmanager
def within_space(space: str) -> Iterator[None]:
    """A socket that is made within has its place in that namespace."""
    here = os.open("/proc/self/ns/net", os.O_RDONLY)
    there = os.open(f"/run/netns/{space}", os.O_RDONLY)
    try:
        enter(there)
        yield
    finally:
        enter(here)
        os.close(here)
        os.close(there)


def packet_socket(space: str, name: str, protocol: int) -> socket.socket:
    """A socket that sees the frames of an interface."""
    with within_space(space):
        opened = socket.socket(socket.AF_PACKET, socket.SOCK_RAW, socket.htons(protocol))
        opened.bind((name, protocol))
    return opened


class Wire:
    """The end of a pair, at which raw frames of the slow protocols are sent and seen."""

    def __init__(self, space: str, name: str) -> None:
        self.socket = packet_socket(space, name, SLOW_PROTOCOLS)
        self.socket.setsockopt(socket.SOL_SOCKET, TIMESTAMP, 1)

    def send(self, payload: bytes, to: str = GROUP, source: str = "02:00:00:00:00:77") -> None:
        self.socket.send(octets(to) + octets(source) + SLOW_PROTOCOLS.to_bytes(2, "big") + payload)

    def arrivals(self, begin: bytes) -> list[float]:
        """When the payloads came that begin so, since the last look, in seconds of the kernel, oldest first."""
        found: list[float] = []
        while True:
            try:
                frame, more, _, address = self.socket.recvmsg(2048, 64, socket.MSG_DONTWAIT)
            except BlockingIOError:
                return found
            times = [struct.unpack("=qq", text[:16]) for level, kind, text in more if (level, kind) == (socket.SOL_SOCKET, TIMESTAMP)]
            if address[2] != OUTGOING and frame[14:].startswith(begin) and times:
                found.append(times[0][0] + times[0][1] / 1e9)

    def sources(self) -> list[bytes]:
        """The source addresses of what has come since the last look, oldest first."""
        found: list[bytes] = []
        while True:
            try:
                frame, address = self.socket.recvfrom(2048, socket.MSG_DONTWAIT)
            except BlockingIOError:
                return found
            if address[2] != OUTGOING:
                found.append(frame[6:12])


def lacpdu(system: str, port: int, state: int = 0x0D) -> bytes:
    """The payload of an LACPDU of version 1 from this system and port, whose partner is not known."""
    actor = b"\1\x14" + b"\x80\0" + octets(system) + b"\0\7" + b"\x80\0" + port.to_bytes(2, "big") + bytes([state, 0, 0, 0])
    partner = b"\2\x14" + bytes(18)
    return b"\1\1" + actor + partner + b"\3\x10" + bytes(14) + bytes(52)


def marker(kind: int, system: str = "00:00:00:00:00:00", port: int = 0, number: int = 0) -> bytes:
    """The payload of a marker of this system and port, of kind 1, or of the response to it, of kind 2."""
    return b"\2\1" + bytes([kind, 0x10]) + port.to_bytes(2, "big") + octets(system) + number.to_bytes(4, "big") + bytes(94)


def most_within(times: list[float], seconds: float = 1.0) -> int:
    """How many of these times, which rise, are within so many seconds at most."""
    return max((sum(first <= time < first + seconds for time in times) for first in times), default=0)
