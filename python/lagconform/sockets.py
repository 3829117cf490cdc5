"""Links by packet sockets of Linux, with the kernel's time of each frame. They want CAP_NET_RAW, and no other right."""

from __future__ import annotations

import ctypes
import errno
import os
import select
import shlex
import signal
import socket
import struct
import subprocess
import tempfile
import time
from contextlib import suppress
from typing import Optional, Sequence

from niwhopera import Mac

from .model import NotHere
from .pdus import BROADCAST_TYPE, DATA, GROUP, SENDERS, SLOW
from .refusals import Refused, asked, read_file
from .wires import Answer, Arrival, Gone

# Numbers of Linux that the socket module does not name.
SOL_PACKET, SO_TIMESTAMPNS = 263, 35
PACKET_ADD_MEMBERSHIP, PACKET_MR_MULTICAST, PACKET_MR_PROMISC, PACKET_IGNORE_OUTGOING, EVERY = 1, 0, 1, 23, 3
PACKET_STATISTICS, PACKET_AUXDATA, VLAN_VALID, VLAN_TYPE_VALID, VLAN_TYPE = 6, 8, 1 << 4, 1 << 6, 0x8100
OUTGOING = 4
RECEIVE_OCTETS = 4 << 20
# So many frames of a link are taken at a time: more wait in the kernel, which drops what it has no room for, and counts it.
MOST_TAKEN = 256
# Instructions of a packet filter: load two octets, compare, and answer how many octets of the frame are taken.
SO_ATTACH_FILTER, LOAD, EQUAL, ANSWER = 26, 0x28, 0x15, 0x06
WHOLE, TYPE_AT, SENDER_AT = 65535, 12, 26
# How many octets addresses take, and how many of what a hook says are kept.
ADDRESSES, SAID_OCTETS = 12, 4096
# What a link that refuses a frame may say: it is lost then.
LOST = (errno.ENETDOWN, errno.ENXIO, errno.EMSGSIZE, errno.ENOBUFS, errno.EINVAL, errno.EAGAIN)


# What an interface that is down or gone says.
DOWN = (errno.ENETDOWN, errno.ENXIO, errno.ENODEV)


def number(octets: bytes) -> int:
    """Octets as a number."""
    return int.from_bytes(octets, "big")


# What tests look at: Slow Protocols, the bench's own broadcasts, and the flows of the device's client. Each instruction has its code, how many
# are left out behind it if a comparison holds and if it does not, and its number.
FILTER = (
    (LOAD, 0, 0, TYPE_AT),
    (EQUAL, 4, 0, number(SLOW)),
    (EQUAL, 3, 0, number(BROADCAST_TYPE)),
    (EQUAL, 0, 3, number(DATA)),
    (LOAD, 0, 0, SENDER_AT),
    (EQUAL, 0, 1, number(SENDERS)),
    (ANSWER, 0, 0, WHOLE),
    (ANSWER, 0, 0, 0),
)


def filtered(it: socket.socket) -> None:
    """Has the kernel drop what no test looks at: the traffic of others may be more than Python can take."""
    program = ctypes.create_string_buffer(b"".join(struct.pack("=HBBI", *line) for line in FILTER))
    it.setsockopt(socket.SOL_SOCKET, SO_ATTACH_FILTER, struct.pack("@HP", len(FILTER), ctypes.addressof(program)))


def opened(name: str, index: int) -> socket.socket:
    """A packet socket on an interface, which takes each frame of FILTER that comes there, to the group address and to strangers too. It takes
    none before it is bound, and so none of another interface."""
    it = socket.socket(socket.AF_PACKET, socket.SOCK_RAW, 0)
    try:
        it.setsockopt(socket.SOL_SOCKET, SO_TIMESTAMPNS, 1)
        it.setsockopt(socket.SOL_SOCKET, socket.SO_RCVBUF, RECEIVE_OCTETS)
        it.setsockopt(SOL_PACKET, PACKET_IGNORE_OUTGOING, 1)
        it.setsockopt(SOL_PACKET, PACKET_AUXDATA, 1)
        for kind, address in (PACKET_MR_MULTICAST, GROUP), (PACKET_MR_PROMISC, b""):
            it.setsockopt(SOL_PACKET, PACKET_ADD_MEMBERSHIP, struct.pack("=iHH8s", index, kind, len(address), address))
        filtered(it)
        it.setblocking(False)
        it.bind((name, EVERY))
    except BaseException:
        it.close()
        raise
    return it


def locked(name: str, index: int) -> socket.socket:
    """Keeps any other lagconform of this network namespace from an interface until the socket is closed: two give each other false verdicts."""
    it = socket.socket(socket.AF_UNIX, socket.SOCK_DGRAM)
    try:
        it.bind(f"\0lagconform {index}")
    except OSError as why:
        it.close()
        raise Refused(f"{name} is held by another lagconform: end it first") from why
    return it


def tag(more: Sequence[tuple[int, int, bytes]]) -> bytes:
    """The VLAN tag that the kernel took out of a frame; nothing where it had none."""
    for level, kind, told in more:
        if (level, kind) == (SOL_PACKET, PACKET_AUXDATA) and len(told) >= 20:
            status, control, vlan = struct.unpack("=I12xHH", told[:20])
            if status & VLAN_VALID:
                return struct.pack("!HH", vlan if status & VLAN_TYPE_VALID else VLAN_TYPE, control)
    return b""


class PacketWire:
    """The interfaces."""

    def __init__(self, names: Sequence[str]) -> None:
        self.names = list(names)
        self._indices = [socket.if_nametoindex(it) for it in names]
        self._sockets: list[socket.socket] = []
        self._locks: list[socket.socket] = []
        try:
            self._locks += (locked(*it) for it in zip(self.names, self._indices))
            self._sockets += (opened(*it) for it in zip(self.names, self._indices))
        except BaseException:
            self.close()
            raise
        self._sources = [Mac(it.getsockname()[4]) for it in self._sockets]
        self.started, self._begin = time.time(), time.monotonic()

    def close(self) -> None:
        """Closes the sockets."""
        for it in (*self._sockets, *self._locks):
            it.close()

    @property
    def silence(self) -> str:
        """The usual causes where nothing comes."""
        return (
            "LACP is not enabled on the device's port (mode static or off); the cable ends in another port, or a bridge lies between, which forwards no "
            "frames to 01-80-C2-00-00-02; the card of this machine keeps these frames for an LACP or LLDP agent of its own firmware; the device is passive "
            "and its link is down at its end"
        )

    def now(self) -> float:
        """Seconds since the start, by the clock that nobody sets."""
        return time.monotonic() - self._begin

    def source(self, link: int) -> Mac:
        """The address of an interface."""
        return self._sources[link - 1]

    def _check(self, link: int) -> None:
        """Sees whether an interface is there still: one of its name that was made anew is another one."""
        with suppress(OSError):
            if socket.if_nametoindex(self.names[link - 1]) == self._indices[link - 1]:
                return
        raise Gone(f"the interface {self.names[link - 1]} is gone")

    def send(self, link: int, octets: bytes) -> bool:
        """Puts a frame on a link; answers whether it went."""
        try:
            return self._sockets[link - 1].send(octets) == len(octets)
        except OSError as why:
            if why.errno in DOWN:
                self._check(link)
            if why.errno not in LOST:
                raise
            return False

    def wait(self, seconds: float) -> list[Arrival]:
        """The frames that came, at most MOST_TAKEN of each link, in the order of their times."""
        ready = select.select(self._sockets, [], [], seconds)[0]
        ahead = self.now() - time.time()
        came = [it for link, at in enumerate(self._sockets, 1) if at in ready for it in self._taken(link, at, ahead)]
        return sorted(came, key=lambda it: it.time)

    def _taken(self, link: int, it: socket.socket, ahead: float) -> list[Arrival]:
        """The frames that wait at a link, up to MOST_TAKEN."""
        came: list[Arrival] = []
        for _ in range(MOST_TAKEN):
            try:
                octets, more, _, address = it.recvmsg(65535, 128)
            except OSError as why:
                if why.errno in DOWN:
                    self._check(link)
                elif why.errno != errno.EAGAIN:
                    raise
                return came
            if address[2] != OUTGOING:
                came.append(Arrival(link, self._time(more, ahead), octets[:ADDRESSES] + tag(more) + octets[ADDRESSES:]))
        return came

    def _time(self, more: Sequence[tuple[int, int, bytes]], ahead: float) -> float:
        """When a frame came: the kernel's time stamp, of the clock that may be set, by how far that of the run is ahead of it now."""
        now = self.now()
        for _, kind, stamp in more:
            if kind == SO_TIMESTAMPNS and len(stamp) == 16:
                seconds, nanoseconds = struct.unpack("=qq", stamp)
                return min(now, max(now - 1.0, float(seconds) + float(nanoseconds) / 1e9 + ahead))
        return now

    def without_carrier(self) -> Sequence[str]:
        """The interfaces that are down, or without carrier, now."""
        told = {name: asked(name) for name in self.names}
        return [name for name, it in told.items() if not it or not it.is_up or not it.has_carrier]

    def flap(self, link: int, up: bool) -> None:
        """Takes our interface down or up, which wants CAP_NET_ADMIN."""
        words = ["ip", "link", "set", self.names[link - 1], "up" if up else "down"]
        try:
            subprocess.run(words, check=True, stdin=subprocess.DEVNULL, stdout=subprocess.DEVNULL, stderr=subprocess.DEVNULL)
        except (OSError, subprocess.CalledProcessError) as why:
            self._check(link)
            raise NotHere("--flap wants CAP_NET_ADMIN and ip") from why

    def drops(self) -> int:
        """How many frames the kernel had no room for since that was asked last."""
        told = [it.getsockopt(SOL_PACKET, PACKET_STATISTICS, 8) for it in self._sockets]
        return sum(drops for _, drops in (struct.unpack("=II", it) for it in told))

    def received(self, link: int) -> int:
        """How many frames the interface has received, those too that the filter drops; 0 where /proc does not tell."""
        for line in read_file("/proc/net/dev").splitlines():
            name, _, counts = line.partition(":")
            if name.strip() == self.names[link - 1]:
                return int(counts.split()[1])
        return 0


class Command:
    """A hook: a command of the user's, with the words behind it."""

    def __init__(self, command: str) -> None:
        self._command = command

    def call(self, words: Sequence[str]) -> Running:
        """Begins to run it."""
        return Running(f"{self._command} {shlex.join(words)}")


class Running:
    """A command that runs, in a session of its own. What it says goes into a file, which no child of it can keep from its end."""

    def __init__(self, line: str) -> None:
        self._said = tempfile.TemporaryFile()
        self._process = subprocess.Popen(
            line, shell=True, stdin=subprocess.DEVNULL, stdout=self._said, stderr=subprocess.STDOUT, start_new_session=True
        )

    def answer(self) -> Optional[Answer]:
        """Its status and the end of what it said, once it has ended."""
        status = self._process.poll()
        if status is None:
            return None
        with self._said as said:
            size = os.fstat(said.fileno()).st_size
            octets = os.pread(said.fileno(), SAID_OCTETS, max(0, size - SAID_OCTETS))
        return Answer(status, octets.decode("utf-8", "replace"))

    def stop(self) -> None:
        """Kills it, and its children."""
        with suppress(ProcessLookupError):
            os.killpg(self._process.pid, signal.SIGKILL)
        self._process.wait()
        self._said.close()
