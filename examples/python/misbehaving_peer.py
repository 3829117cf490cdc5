#!/usr/bin/python3
"""A test bench: a peer that misbehaves against the daemon lagd, over a veth pair in a network namespace of its own.

misbehaving_peer.py [LAGD] plays three peers by scapy, and looks at the LACPDUs that the daemon sends:

- one that names another partner: the daemon never collects or distributes towards it;
- one that comes up and then sends an LACPDU each 4 s only, where the daemon asked for short timeouts: the daemon notices;
- one that sends four LACPDUs a second, each of which asks for an answer: the daemon sends at most three in any second.

The last line is 'N passed, M failed'. It takes half a minute, and wants root, ip (Debian: iproute2) and scapy (Debian: python3-scapy).
"""

from __future__ import annotations

import os
import socket
import subprocess
import sys
import tempfile
import time
from typing import Callable, Iterator

import scapy.contrib.lacp  # noqa: F401
from scapy.contrib.lacp import LACP
from scapy.contrib.slowprot import SlowProtocol
from scapy.layers.l2 import Ether

GROUP, OWN, PEER, STRANGER = "01:80:c2:00:00:02", "02:00:00:00:00:01", "02:00:00:00:00:02", "02:00:00:00:00:99"
ACTIVITY, TIMEOUT, AGGREGATION, SYNCHRONIZATION, COLLECTING, DISTRIBUTING, DEFAULTED, EXPIRED = (1 << bit for bit in range(8))
READY = ACTIVITY | TIMEOUT | AGGREGATION
# What the daemon sent: when, by the clock of this program, and the frame.
Seen = tuple[float, LACP]


class Wire:
    """The peer's end of the veth pair."""

    def __init__(self, name: str) -> None:
        self.socket = socket.socket(socket.AF_PACKET, socket.SOCK_RAW, socket.htons(0x8809))
        self.socket.bind((name, 0x8809))

    def send(self, partner: str, state: int) -> None:
        """Sends an LACPDU of the peer, which names this partner."""
        actor = dict(actor_system_priority=4096, actor_system=PEER, actor_key=19, actor_port_priority=21, actor_port_number=23)
        told = dict(partner_system_priority=32768, partner_system=partner, partner_key=7, partner_port_priority=32768, partner_port_number=1)
        pdu = LACP(**actor, actor_state=state, **told, partner_state=READY, actor_reserved=bytes(3), partner_reserved=bytes(3),
                   collector_reserved=bytes(12), reserved=bytes(50))  # fmt: skip
        self.socket.send(bytes(Ether(src=PEER, dst=GROUP) / SlowProtocol() / pdu))

    def seen(self, until: float) -> Iterator[Seen]:
        """The LACPDUs of the daemon, as they come, until then."""
        while (left := until - time.monotonic()) > 0:
            self.socket.settimeout(left)
            try:
                frame, where = self.socket.recvfrom(2048)
            except TimeoutError:
                return
            if where[2] != socket.PACKET_OUTGOING and Ether(frame).haslayer(LACP):
                yield time.monotonic(), Ether(frame)[LACP]


def play(wire: Wire, seconds: float, period: float, say: Callable[[int, list[Seen]], tuple[str, int]]) -> list[Seen]:
    """Sends an LACPDU each period, as `say` tells its partner and state; answers what the daemon sent."""
    seen: list[Seen] = []
    for number in range(round(seconds / period)):
        wire.send(*say(number, seen))
        seen += wire.seen(time.monotonic() + period)
    return seen


def properly(number: int, seen: list[Seen]) -> tuple[str, int]:
    """What a peer says that behaves: it is in sync once it heard the daemon, and carries once the daemon is in sync."""
    heard = seen[-1][1].actor_state if seen else 0
    carries = SYNCHRONIZATION | (COLLECTING | DISTRIBUTING if heard & SYNCHRONIZATION else 0)
    return OWN, READY | (carries if seen else 0)


def wrong_partner(wire: Wire) -> dict[str, bool]:
    """A peer that names another system as its partner, and says that it is in sync."""
    seen = play(wire, 6, 1, lambda number, seen: (STRANGER, READY | SYNCHRONIZATION | COLLECTING | DISTRIBUTING))
    return {
        "the daemon answers a peer that names another partner": any(pdu.partner_system == PEER for _, pdu in seen),
        "and neither collects nor distributes": not any(pdu.actor_state & (COLLECTING | DISTRIBUTING) for _, pdu in seen if pdu.partner_system == PEER),
    }


def late(wire: Wire) -> dict[str, bool]:
    """A peer that comes up, and then is late."""
    up = play(wire, 6, 1, properly)
    seen = play(wire, 8, 4, lambda number, _: properly(number, up))
    expired = [pdu.actor_state & DISTRIBUTING == 0 for _, pdu in seen if pdu.actor_state & EXPIRED]
    return {
        "the daemon distributes towards a peer that behaves": bool(up and up[-1][1].actor_state & DISTRIBUTING),
        "it notices a peer that is late, and stops": bool(expired) and all(expired),
    }


def four_a_second(wire: Wire) -> dict[str, bool]:
    """A peer of which each LACPDU wants an answer: now it names the daemon, and now another system."""
    seen = play(wire, 6, 0.25, lambda number, _: (OWN if number % 2 else STRANGER, READY))
    times = [when for when, _ in seen]
    most = max((sum(begin <= it < begin + 0.95 for it in times) for begin in times), default=0)
    return {"it sends at most three LACPDUs in a second": most <= 3, "and answers": len(times) >= 6}


def inside(lagd: str) -> int:
    """Plays the peers against the daemon, in the namespace that this program was started in."""
    passed = failed = 0
    for peer in (wrong_partner, late, four_a_second):
        with tempfile.TemporaryDirectory() as folder:
            words = [lagd, "--folder", folder, "7", f"32768,{OWN}", "ours"]
            with subprocess.Popen(words, stdout=subprocess.DEVNULL) as daemon:
                try:
                    verdicts = peer(Wire("theirs"))
                finally:
                    daemon.terminate()
        for what, right in verdicts.items():
            print(f"{'passed' if right else 'FAILED'}: {what}", flush=True)
            passed, failed = passed + right, failed + (not right)
    print(f"{passed} passed, {failed} failed")
    return int(failed > 0)


def main() -> int:
    """Makes the namespace and the veth pair, and starts itself there."""
    if sys.argv[1:2] == ["--inside"]:
        return inside(sys.argv[2])
    space = f"lag-peer-{os.getpid()}"
    subprocess.run(["ip", "netns", "add", space], check=True)
    try:
        subprocess.run(["ip", "-n", space, "link", "add", "ours", "type", "veth", "peer", "name", "theirs"], check=True)
        for end in ("ours", "theirs"):
            subprocess.run(["ip", "-n", space, "link", "set", end, "up"], check=True)
        words = ["ip", "netns", "exec", space, sys.executable, os.path.realpath(__file__), "--inside", *(sys.argv[1:2] or ["lagd"])]
        return subprocess.run(words).returncode
    finally:
        subprocess.run(["ip", "netns", "del", space], check=True)


if __name__ == "__main__":
    sys.exit(main())
