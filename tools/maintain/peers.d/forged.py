"""What a peer makes of forged LACPDUs: of a partner that never names it, of two partners on its two links, and of one that asks again
and again."""

from __future__ import annotations

import time

from capturing import Capture, most_in_a_second
from checking import check, within
from daemon import KEY, SYSTEM, Daemon, Part
from peer import Peer
from spaces import OURS, Wire, drop_spaces, lacpdu, make_spaces

BOTH = {"b0", "b1"}
HEADINGS = ["peer", "carries for a partner that never named it", "carries for two partner systems at once"]
HEADINGS += ["LACPDUs in one second, at most, to a partner that asks 20 times a second", "markers sent"]
# Active, short timeout, aggregatable, synchronized, collecting, distributing.
READY = 0x3F
# How long each is tried, and how often a forged LACPDU goes out, in seconds.
TRIED, STEADY, QUICK = 12, 0.5, 0.05
STRANGER = "02:00:00:00:00:cc"
MARKER = b"\x88\x09\x02\x01\x01"


class Lagd:
    """The daemon in the place of a peer."""

    name = "lagd"
    # The daemon that runs.
    ours: Daemon

    def __init__(self, program: str, folder: str) -> None:
        self.part = Part(program, folder)

    def start(self) -> None:
        self.ours = self.part.theirs()

    def carrying(self) -> set[str]:
        """The links that distribute with a partner, in the aggregator that has most of them."""
        ports = self.ours.ports()
        carries = [name for name in BOTH & ports.keys() if "DISTRIBUTING" in ports[name]["actor"]["state"]]
        carries = [name for name in carries if not ports[name]["partner"]["defaulted"]]
        places = [ports[name]["aggregator"] for name in carries]
        return {name for name in carries if ports[name]["aggregator"] == max(places, key=places.count)}

    def stop(self) -> None:
        self.ours.process.terminate()
        self.ours.status()

    def end(self) -> None:
        self.part.drop()


def seen_carrying(peer: Peer, wires: dict[int, Wire], until: float, pause: float) -> set[str]:
    """Sends forged LACPDUs on these links for some seconds; answers the most links that the peer carried on at once."""
    most: set[str] = set()
    ends, looks = time.monotonic() + until, 0.0
    while time.monotonic() < ends:
        for port, wire in wires.items():
            wire.send(lacpdu(STRANGER, port, READY))
        if time.monotonic() >= looks:
            most = max(most, peer.carrying(), key=len)
            looks = time.monotonic() + 1
        time.sleep(pause)
    return most


class Forgery:
    """One peer on two links whose far ends forge."""

    def __init__(self, peer: Peer, program: str, folder: str) -> None:
        self.peer, self.part = peer, Part(program, folder)

    def never_named(self) -> set[str]:
        """Both partners are ready, and neither names the peer."""
        return seen_carrying(self.peer, {1: Wire(OURS, "a0"), 2: Wire(OURS, "a1")}, TRIED, STEADY)

    def asked_often(self, capture: Capture) -> int:
        """The most LACPDUs of the peer in one second, while each LACPDU that it gets makes one due."""
        begin = time.time()
        seen_carrying(self.peer, {1: Wire(OURS, "a0")}, TRIED / 2, QUICK)
        return most_in_a_second(capture.lacpdus("a0", False, begin, time.time()))

    def two_partners(self) -> bool:
        """A daemon of its own system stands at each link."""
        one, other = self.part.start(OURS, SYSTEM, KEY, "a0"), self.part.start(OURS, STRANGER, KEY, "a1")
        within(TRIED, lambda: self.peer.carrying() == BOTH)
        both = self.peer.carrying() == BOTH
        for it in (one, other):
            it.process.terminate()
            it.status()
        return both

    def run(self) -> tuple[set[str], bool, int, int]:
        """The row of the table."""
        try:
            make_spaces()
            capture = Capture("a0", "a1")
            self.peer.start()
            named, most = self.never_named(), self.asked_often(capture)
            self.peer.stop()
            self.peer.start()
            both = self.two_partners()
            capture.stop()
        finally:
            self.peer.end()
            self.part.drop()
            drop_spaces()
        markers = sum(frame[12:17] == MARKER for _, _, outgoing, frame in capture.frames if not outgoing)
        return named, both, most, markers


def try_forged(peer: Peer, program: str, folder: str) -> list[str]:
    """Tries a peer; answers its row. The daemon itself has to withstand all of it."""
    named, both, most, markers = Forgery(peer, program, folder).run()
    if peer.name == Lagd.name:
        check(not named, "lagd: no link carries for a partner that never named it", named)
        check(not both, "lagd: links of two partner systems never share an aggregator that carries")
        check(0 < most <= 3, f"lagd: at most three LACPDUs in a second: {most}")
    told = [f"yes, on {len(named)} links" if named else "no", "yes" if both else "no", str(most), str(markers)]
    print(f"{peer.name}: forged LACPDUs: {', '.join(told)}", flush=True)
    return [peer.name, *told]
