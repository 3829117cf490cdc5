"""Every frame of a run as a capture, and what is counted of it."""

from __future__ import annotations

import os
import select
import socket
import struct
import threading
import time

from spaces import OURS, OUTGOING, packet_socket

EVERY_PROTOCOL, LONGEST = 3, 65535
# A pcap file: its number and version, no zone, no accuracy, the longest frame, Ethernet; and before each frame the time in seconds
# and microseconds, and its length twice.
HEAD, EACH = struct.pack("=IHHiIII", 0xA1B2C3D4, 2, 4, 0, 0, LONGEST, 1), struct.Struct("=IIII")
LACPDU = b"\x88\x09\x01"


class Capture:
    """The frames of some interfaces of our namespace, with time, interface and direction. They are taken beside the run."""

    def __init__(self, *names: str) -> None:
        self.sockets = {packet_socket(OURS, name, EVERY_PROTOCOL): name for name in names}
        # When a frame came, on which interface, whether it went out there, and its octets.
        self.frames: list[tuple[float, str, bool, bytes]] = []
        self.ends = False
        self.thread = threading.Thread(target=self.take, daemon=True)
        self.thread.start()

    def take(self) -> None:
        while not self.ends:
            for ready in select.select(list(self.sockets), [], [], 0.2)[0]:
                self.take_one(ready)

    def take_one(self, ready: socket.socket) -> None:
        try:
            frame, address = ready.recvfrom(LONGEST)
        except OSError:  # the link is down, of which it tells once
            return
        self.frames.append((time.time(), self.sockets[ready], address[2] == OUTGOING, frame))

    def stop(self) -> None:
        self.ends = True
        self.thread.join()
        for it in self.sockets:
            it.close()

    def lacpdus(self, name: str, outgoing: bool, begin: float, end: float) -> list[float]:
        """The times of the LACPDUs of an interface in one direction."""
        found = [it for it in self.frames if it[1] == name and it[2] == outgoing and begin <= it[0] < end]
        return [when for when, _, _, frame in found if frame[12:15] == LACPDU]

    def write(self, folder: str, head: str) -> list[str]:
        """Writes a pcap file for each interface; answers their paths."""
        paths = []
        for name in sorted(self.sockets.values()):
            paths.append(os.path.join(folder, f"{head}-{name}.pcap"))
            with open(paths[-1], "wb") as out:
                out.write(HEAD)
                for when, _, _, frame in (it for it in self.frames if it[1] == name):
                    out.write(EACH.pack(int(when), int(when % 1 * 1e6), len(frame), len(frame)) + frame)
        return paths


def most_in_a_second(times: list[float]) -> int:
    """How many of these times lie within one second at most."""
    return max((sum(begin <= when < begin + 1 for when in times) for begin in times), default=0)
