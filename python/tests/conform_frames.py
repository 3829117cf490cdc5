"""Devices with one fault each, and the tests that have to find it: frames of other shapes, markers, storms, and two links.

A fault that takes more than an expression is a class. The others are rows: of `ROWS`, or with a name here if other tests name them.
"""

from __future__ import annotations

from typing import Iterable, Iterator, Optional

from conform_device import OWN, SLOW, Device, Drops, Hears, HearsAndSays, LooksSeldom, devices, is_lacpdu, part, put
from conform_faults import set_bits
from niwhopera import ReceiveState, State


(VersionChecked,) = devices(
    Drops, "drops", ("VersionChecked", "Takes version 1 alone.", "VN-02 VN-03 VN-04 VN-05 VN-10", lambda self, port, frame: frame[15] != 1)
)


class Upset(Device):
    """A port begins anew after frames of some shape."""

    def upsets(self, frame: bytes) -> bool:
        """Whether a frame does harm."""
        return False

    def took(self, port: int, frame: bytes) -> None:
        if self.upsets(frame):
            self.restart(port)


class UpsetByStorm(Upset):
    """A hundred LACPDUs in a second take the link down."""

    finds = "RB-06"
    second, count = -1, 0

    def upsets(self, frame: bytes) -> bool:
        if int(self.now) != self.second:
            self.second, self.count = int(self.now), 0
        self.count += is_lacpdu(frame)
        return self.count == 100


class WornOut(Device):
    """Takes no LACPDU any more after fifty partners in ten seconds."""

    finds = "RB-05"
    worn = False

    def hears(self, port: int, frame: bytes) -> Iterable[bytes]:
        if is_lacpdu(frame):
            self.kept = {it: when for it, when in self.kept.items() if self.now - when < 10}
            self.kept[part(frame, 4, 8)] = self.now
            if len(self.kept) > 50:
                self.worn = True
        if not self.worn:
            yield frame


def padded(frame: bytes) -> bytes:
    """A frame that is cut off, as though zeros stood behind it but for the lengths of TLVs."""
    return put(put(put(frame.ljust(124, b"\0"), 3, b"\x14"), 23, b"\x14"), 43, b"\x10")


# Markers.


class Responds(Device):
    """Changes its responses."""

    def says_back(self, marker: bytes, response: bytes) -> Optional[bytes]:
        """The response that goes out, if one does."""
        return response

    def responds(self, port: int, marker: bytes, response: bytes) -> Iterator[tuple[int, bytes]]:
        given = self.says_back(marker, response)
        if given:
            yield port, given


NoMarkers, OtherId, FourthUnanswered = devices(
    Responds, "says_back",
    ("NoMarkers", "Answers no marker.", "MK-01 EN-03", lambda self, marker, response: None),
    ("OtherId", "Answers with another identifier.", "MK-01 MK-02 MK-05 MK-06 MK-09 MK-10 MK-11 EN-03",
     lambda self, marker, response: put(response, 15, bytes([response[29] ^ 1]))),
    ("FourthUnanswered", "Leaves each fourth marker unanswered.", "MK-05 MK-02",
     lambda self, marker, response: response if self.kept.setdefault(marker, len(self.kept)) % 4 != 3 else None),
)  # fmt: skip


class ThirdId(Responds):
    """Each third response has another identifier."""

    finds = "MK-01 MK-05 MK-06"
    count = 0

    def says_back(self, marker: bytes, response: bytes) -> Optional[bytes]:
        self.count += 1
        return response if self.count % 3 else put(response, 15, bytes([response[29] ^ 1]))


class MarkerSlow(Responds):
    """Answers one marker in two seconds."""

    finds = "MK-05"
    last = -9.0

    def says_back(self, marker: bytes, response: bytes) -> Optional[bytes]:
        if self.now - self.last < 2:
            return None
        self.last = self.now
        return response


class AnswersMore(Device):
    """Answers Marker PDUs that want no answer."""

    def answers(self, frame: bytes) -> bytes:
        """The payload of a response to a Marker PDU, or none."""
        return b""

    def took(self, port: int, frame: bytes) -> None:
        payload = self.answers(frame) if frame[12:15] == SLOW + b"\2" else b""
        if payload:
            self.send(port, frame[:6] + bytes([2, 0, 0, 0, 0xBB, port]) + SLOW + payload)


class KeptByMarkers(Device):
    """A marker keeps the partner current."""

    finds = "RX-17"

    def keeps(self, frame: bytes) -> bool:
        """Whether a frame is taken for a sign of life."""
        return frame[12:15] == SLOW + b"\2"

    def hears(self, port: int, frame: bytes) -> Iterable[bytes]:
        if is_lacpdu(frame):
            self.kept[port] = frame
        yield frame
        if self.keeps(frame) and port in self.kept and self.on.receive_state(port) is ReceiveState.CURRENT:
            yield self.kept[port]


class LateUnderData(LooksSeldom):
    """Answers up to a second late while data goes out."""

    finds, pause = "TX-08", 0.95

    def may_send(self) -> bool:
        return not self.sends_data or super().may_send()


# Two links, and the engine.


class OneAggregator(Device):
    """Its client uses each of two links that distributes, whatever the aggregator."""

    finds = "SL-03 SL-04 SL-05 SL-06 SL-07"
    used = 2

    def port_of(self, frame: bytes) -> Optional[int]:
        ports = [port for port in self.links if port <= self.used and self.on.distributes(port)]
        return ports[frame[11] % len(ports)] if ports else None


class LinkDrops(Device):
    """A link begins anew some seconds after so many links carry."""

    wanted = seconds = dropped = 0
    since = 0.0

    def ticked(self) -> None:
        if sum(self.on.distributes(port) for port in self.links if port <= self.wanted) < self.wanted:
            self.since = self.now
        elif self.now - self.since > self.seconds:
            self.restart(self.dropped)


class KeepsBack(Device):
    """A frame that goes out on the second link goes out 0.3 s late."""

    finds = "SL-17"

    def puts(self, port: int, frame: bytes) -> Iterable[int]:
        if port == 2:
            self.kept[frame] = self.now
        return [] if port == 2 else [port]

    def ticked(self) -> None:
        for frame in [it for it, when in self.kept.items() if self.now - when > 0.25]:
            del self.kept[frame]
            self.send(2, frame)


class OtherLeaves(Device):
    """A partner that changes its system or its key on a link takes another link out."""

    leaves: dict[int, int] = {}

    def took(self, port: int, frame: bytes) -> None:
        if is_lacpdu(frame):
            old, self.kept[port] = self.kept.get(port), part(frame, 6, 8)
            if old not in (None, self.kept[port]) and port in self.leaves:
                self.restart(self.leaves[port])


class BadLengths(Device):
    """Sends a wrong length of the Collector TLV in each second LACPDU."""

    finds = "IV-03"
    count = 0

    def says(self, port: int, frame: bytes) -> Iterable[bytes]:
        self.count += 1
        yield put(frame, 43, b"\x0f") if self.count % 2 == 0 else frame


# What a device that takes itself for another system calls it.
STRANGER = b"\2\xee\0\0\0\1"
ROWS = [
    *devices(
        Hears, "heard",
        ("ForgetsNaming", "Takes a partner that names nobody for one that names it.", "RX-08",
         lambda self, port, frame: frame if any(part(frame, 24, 14)) else set_bits(put(frame, 24, self.own(port)), 38, 4, True)),
    ),
    *devices(
        Device, "hears",
        ("SubtypeUnchecked", "Takes each slow protocol for LACP.", "VN-14 VN-15 VN-16 RB-03",
         lambda self, port, frame: [put(frame, 0, b"\1") if frame[12:14] == SLOW and len(frame) > 14 and frame[14] != 2 else frame]),
        ("PadsShort", "Reads a frame that is cut off as though zeros stood behind it.", "VN-22 RB-01 RB-04",
         lambda self, port, frame: [padded(frame) if frame[12:15] == SLOW + b"\1" and len(frame) < 124 else frame]),
        ("TypeUnchecked", "Does not look at the EtherType.", "VN-17 VN-18 RB-02", lambda self, port, frame: [frame[:12] + SLOW + frame[14:]]),
    ),
    *devices(
        HearsAndSays, "heard said",
        ("OnePortNumber", "Has one port number on both links.", "SL-02",
         lambda self, port, frame: put(frame, 36, b"\0\2") if port == 2 and part(frame, 36, 2) == b"\0\1" else frame,
         lambda self, port, frame: put(frame, 16, b"\0\1")),
        ("CarriesForItself", "Takes itself for another system.", "SL-10 SL-11",
         lambda self, port, frame: put(frame, 6, STRANGER) if part(frame, 6, 6) == OWN.mac else frame,
         lambda self, port, frame: put(frame, 26, OWN.mac) if part(frame, 26, 6) == STRANGER else frame),
    ),
    *devices(
        Device, "responds",
        ("MarkersWhenCollecting", "Answers on ports that collect alone.", "MK-10",
         lambda self, port, marker, response: [(port, response)] if self.is_on(port, State.COLLECTING) else []),
        ("StrayResponses", "Answers on the other link, where it carries.", "MK-11",
         lambda self, port, marker, response: [(3 - port if self.is_on(2, State.COLLECTING) and port == 1 else port, response)]),
        ("AnswersOnOne", "Answers on the first link alone.", "MK-11", lambda self, port, marker, response: [(port, response)] if port == 1 else []),
    ),
    *devices(
        KeptByMarkers, "keeps",
        ("KeptByRunts", "Any frame but LACPDUs and markers keeps the partner current.", "RX-18",
         lambda self, frame: not is_lacpdu(frame) and frame[12:15] != SLOW + b"\2"),
    ),
    *devices(
        OtherLeaves, "leaves",
        ("AllLeave", "A key that changes on the third link takes the others out.", "SL-16", {3: 1}),
        ("BothLeave", "A key that changes on one link takes the other one out.", "SL-07 SL-12", {1: 2, 2: 1}),
    ),
    *devices(
        Device, "puts",
        ("SendsTwice", "Sends each tenth frame of its client on both links.", "SL-17",
         lambda self, port, frame: (1, 2) if frame[45] % 10 == 0 and self.on.distributes(3 - port) else (port,)),
    ),
    *devices(OneAggregator, "used", ("AllAggregators", "Its client uses each of three links that distributes, whatever the aggregator.", "SL-15", 3)),
    *devices(
        LinkDrops, "wanted seconds dropped",
        ("SecondLinkDrops", "Drops the second link three seconds after it carries.", "SL-01 EN-02", 2, 3, 2),
        ("ThirdLinkDrops", "Drops the third link three seconds after all carry.", "SL-14 EN-04", 3, 3, 3),
        ("Restless", "Begins anew each four seconds.", "EN-01 RX-04", 1, 4, 1),
    ),
    *devices(
        Drops, "drops",
        ("CollectingOnly", "Takes no LACPDU of a partner that stops collecting.", "VN-01",
         lambda self, port, frame: self.is_on(port, State.COLLECTING) and frame[32] & 0x18 == 8),
        ("TypesChecked", "Looks at the types of the Actor and Partner TLV.", "VN-07", lambda self, port, frame: frame[16] != 1 or frame[36] != 2),
        ("CollectorChecked", "Looks at the type of the Collector TLV.", "VN-08", lambda self, port, frame: frame[56] != 3),
        ("TerminatorChecked", "Looks at the Terminator.", "VN-05 VN-09", lambda self, port, frame: frame[72] != 0),
        ("ReservedChecked", "Looks at reserved octets.", "VN-06", lambda self, port, frame: any(part(frame, 60, 50)) or any(part(frame, 46, 12))),
        ("LongerDropped", "Takes LACPDUs of 110 octets alone.", "VN-10", lambda self, port, frame: len(frame) > 124),
    ),
    *devices(
        Upset, "upsets",
        ("UpsetByLengths", "A wrong length of a TLV takes the link down.", "VN-11 VN-12 VN-13",
         lambda self, frame: is_lacpdu(frame) and (frame[17], frame[37], frame[57]) != (20, 20, 16)),
        ("UpsetByTerminator", "A Terminator with a length takes the link down.", "VN-13a",
         lambda self, frame: is_lacpdu(frame) and frame[72:73] == b"\0" and frame[73] != 0),
        ("UpsetByAddress", "A frame to another address takes the link down.", "VN-19 MK-12",
         lambda self, frame: frame[12:14] == SLOW and frame[:6] != b"\x01\x80\xc2\0\0\2"),
        ("UpsetByTag", "A tag takes the link down.", "VN-20", lambda self, frame: frame[12:14] == b"\x81\0"),
        ("UpsetByShort", "A frame of Slow Protocols that is cut off takes the link down.", "VN-21 RB-01 RB-04",
         lambda self, frame: frame[12:14] == SLOW and len(frame) < 124),
        ("UpsetBySubtype", "A frame of another subtype takes the link down.", "RB-03",
         lambda self, frame: frame[12:14] == SLOW and frame[14:15] not in (b"\1", b"\2")),
        ("UpsetBySource", "An LACPDU from a group address takes the link down.", "RB-07", lambda self, frame: bool(frame[6] & 1)),
        ("UpsetByLongFrame", "A frame of more than 1500 octets takes the link down.", "RB-08", lambda self, frame: len(frame) > 1500),
    ),
    *devices(
        Responds, "says_back",
        ("OtherSystem", "Answers with another system.", "MK-01 MK-02", lambda self, marker, response: put(response, 6, OWN.mac)),
        ("OtherSource", "Answers from another address.", "MK-03", lambda self, marker, response: response[:6] + b"\2\0\0\0\0\1" + response[12:]),
        ("FirstUnanswered", "Leaves the first marker unanswered.", "MK-02",
         lambda self, marker, response: response if self.kept.setdefault(0, marker) != marker else None),
        ("MarkerVersion", "Answers markers of version 1 alone.", "MK-04", lambda self, marker, response: response if marker[15] == 1 else None),
        ("LongResponse", "Sends back all octets of a marker.", "MK-13", lambda self, marker, response: response + marker[124:]),
    ),
    *devices(
        AnswersMore, "answers",
        ("AnswersResponses", "Answers responses.", "MK-07", lambda self, frame: frame[14:] if frame[15:17] == b"\1\2" and len(frame) >= 124 else b""),
        ("AnswersUnknown", "Answers Marker PDUs of each TLV type.", "MK-08",
         lambda self, frame: put(frame, 2, b"\2")[14:] if len(frame) >= 124 and frame[16] > 2 else b""),
        ("AnswersShort", "Sends markers back that are cut off.", "MK-09 IV-03",
         lambda self, frame: put(frame, 2, b"\2")[14:] + bytes(1) if frame[15:17] == b"\1\1" and len(frame) < 124 else b""),
    ),
    *devices(Device, "most_responses", ("ManyResponses", "Answers each marker, however many come.", "MK-06", 10**9)),
]  # fmt: skip
