"""Devices with one fault each, and the tests that have to find it: the frames that it sends, and the receive machine.

A fault that takes more than an expression is a class. The others are rows: of `ROWS`, or with a name here if other tests name them.
"""

from __future__ import annotations

from typing import Iterable

from conform_device import OWN, Device, Drops, Hears, HearsAndSays, Says, devices, is_lacpdu, part, put
from niwhopera import MuxState, ReceiveState

SYNC = 8
# Where a field stands in the Actor TLV of a payload; in the Partner TLV it stands 20 octets behind.
FIELDS = {"priority": (4, 2), "system": (6, 6), "key": (12, 2), "port_priority": (14, 2), "port": (16, 2), "aggregation": (18, 1)}
AGGREGATION = 4


def set_bits(frame: bytes, at: int, bits: int, on: bool) -> bytes:
    """A frame with bits of an octet of its payload set or not."""
    octet = frame[14 + at]
    return put(frame, at, bytes([octet | bits if on else octet & ~bits]))


# The frames that it sends.


class SecondPort(Device):
    """Is wrong on port 2 alone."""

    def wrong(self, frame: bytes) -> bytes:
        """An LACPDU, as it goes out there."""
        return frame

    def says(self, port: int, frame: bytes) -> Iterable[bytes]:
        yield self.wrong(frame) if port == 2 else frame


class FlickeringTimeout(Device):
    """Tells another LACP_Timeout in each LACPDU."""

    finds, turn, ports = "FM-08", 0, 1 | 2

    def says(self, port: int, frame: bytes) -> Iterable[bytes]:
        self.turn ^= port
        yield set_bits(frame, 18, 2, bool(self.turn & port)) if port & self.ports else frame


WrongEcho, GroupSystem, CutOff, PartnerLength = devices(
    Says, "said",
    ("WrongEcho", "Tells another port priority of the partner.", "FM-06", lambda self, port, frame: put(frame, 34, b"\0\0")),
    ("GroupSystem", "Tells a group address as its system.", "FM-05 EN-01", lambda self, port, frame: put(frame, 6, b"\3")),
    ("CutOff", "Sends 60 octets: the least length of a frame.", "FM-02 FM-03", lambda self, port, frame: frame[:60]),
    ("PartnerLength", "Sends a Partner TLV of length 22.", "FM-03", lambda self, port, frame: put(frame, 23, b"\x16")),
)  # fmt: skip
(DataTwice,) = devices(Device, "puts", ("DataTwice", "Sends each frame of its client twice.", "SL-17", lambda self, port, frame: [port] * 2))
(SecondFallsSilent,) = devices(
    Device, "silent_from says",
    ("SecondFallsSilent", "Says nothing more on port 2 from a second on.", "MX-06", 5.0,
     lambda self, port, frame: [frame] if port != 2 or self.now < self.silent_from else []),
)  # fmt: skip
(SecondPartnerKey,) = devices(
    SecondPort, "wrong",
    ("SecondPartnerKey", "Tells the key of the partner with its octets swapped.", "FM-06 EN-02 EN-04",
     lambda self, frame: put(frame, 32, part(frame, 32, 2)[::-1])),
)  # fmt: skip
ROWS = [
    *devices(
        HearsAndSays, "heard said",
        ("PortZero", "Has port number 0.", "FM-05",
         lambda self, port, frame: put(frame, 36, port.to_bytes(2, "big")) if part(frame, 36, 2) == bytes(2) else frame,
         lambda self, port, frame: put(frame, 16, bytes(2))),
    ),
    *devices(
        Device, "says",
        ("SecondSaysTwice", "Sends each LACPDU twice on port 2.", "TX-01 IV-05", lambda self, port, frame: [frame] * (2 if port == 2 else 1)),
    ),
    *devices(FlickeringTimeout, "ports", ("SecondTimeout", "Tells Timeout now and then on port 2.", "FM-08", 2)),
    *devices(
        Says, "said",
        ("UnicastDestination", "Sends to an individual address.", "FM-01", lambda self, port, frame: b"\2" + frame[1:]),
        ("LongFrame", "Sends four octets too many.", "FM-02", lambda self, port, frame: frame + bytes(4)),
        ("OtherVersion", "Sends version 9.", "FM-02", lambda self, port, frame: put(frame, 1, b"\x09")),
        ("OtherTlvType", "Sends another type of the Partner TLV.", "FM-03 IV-03", lambda self, port, frame: put(frame, 22, b"\x07")),
        ("ReservedOctets", "Sends a reserved octet that is not 0.", "FM-04", lambda self, port, frame: put(frame, 39, b"\1")),
        ("EchoMasked", "Tells Expired and Defaulted of the partner as 0.", "FM-09", lambda self, port, frame: set_bits(frame, 38, 0xC0, False)),
        ("EchoesNoCollecting", "Tells Collecting of the partner as 1.", "FM-07", lambda self, port, frame: set_bits(frame, 38, 0x10, True)),
        ("NeverDefaulted", "Stays in EXPIRED.", "RX-03",
         lambda self, port, frame: set_bits(set_bits(frame, 18, 0x40, False), 18, 0x80, True) if frame[32] & 0x40 else frame),
        ("SyncOnDefaults", "Stays synchronized when it defaults.", "RX-06",
         lambda self, port, frame: set_bits(frame, 18, SYNC, True) if frame[32] & 0x40 else frame),
    ),
    *devices(
        SecondPort, "wrong",
        ("SecondShape", "Sends to an individual address, with another type of the Partner TLV, a reserved octet that is not 0, and four octets too many.",
         "FM-01 FM-02 FM-03 FM-04", lambda self, frame: b"\2" + put(put(frame, 22, b"\x07"), 39, b"\1")[1:] + bytes(4)),
        ("SecondNumber", "Has port number 0.", "FM-05", lambda self, frame: put(frame, 16, bytes(2))),
    ),
]  # fmt: skip


# The receive machine.


class FirstOneLost(Device):
    """Takes a partner with its second LACPDU alone."""

    finds = "RX-01"
    known: frozenset[bytes] = frozenset()

    def hears(self, port: int, frame: bytes) -> Iterable[bytes]:
        if is_lacpdu(frame) and part(frame, 4, 8) not in self.known:
            self.known |= {part(frame, 4, 8)}
            return
        yield frame


class HearsAgain(Device):
    """Hears the last LACPDU of a port again, some ticks of 0.1 s behind it."""

    def again(self, ticks: int, frame: bytes) -> bool:
        """Whether it does so as many ticks behind it."""
        return False

    def took(self, port: int, frame: bytes) -> None:
        if is_lacpdu(frame):
            self.kept[port] = 0, frame

    def ticked(self) -> None:
        for port, (ticks, frame) in self.kept.items():
            self.kept[port] = ticks + 1, frame
            if self.again(ticks + 1, frame):
                self.on.receive(port, frame)


class ShortCurrentWhile(Device):
    """current_while is 2.2 s."""

    finds, left = "RX-02 RX-04", 8

    def ticked(self) -> None:
        if any(self.on.receive_state(port) is ReceiveState.CURRENT and self.on.current_while(port) == self.left for port in (1, 2)):
            self.on.tick(self.left)


class RestartsOnChange(Device):
    """current_while is started again only by an LACPDU that differs from the last one."""

    finds = "RX-04 EN-01"

    def hears(self, port: int, frame: bytes) -> Iterable[bytes]:
        same = is_lacpdu(frame) and self.kept.get(port) == frame and self.on.receive_state(port) is ReceiveState.CURRENT
        if is_lacpdu(frame):
            self.kept[port] = frame
        if not same:
            yield frame


class ReturnsSlowly(Device):
    """Begins anew where a partner comes back in EXPIRED."""

    finds = "RX-05"

    def hears(self, port: int, frame: bytes) -> Iterable[bytes]:
        if is_lacpdu(frame) and self.on.receive_state(port) is ReceiveState.EXPIRED:
            self.restart(port)
        yield frame


class Hurries(Device):
    """wait_while does not run: a new partner is synchronized at once."""

    def hurries(self, port: int) -> bool:
        """Whether it does so now."""
        return True

    def took(self, port: int, frame: bytes) -> None:
        if is_lacpdu(frame) and self.on.mux_state(port) is MuxState.WAITING and self.hurries(port):
            self.on.tick(20)
            self.on.receive(port, frame)


(NoWait,) = devices(
    Hurries, "",
    ("NoWait", "wait_while does not run: a new partner is synchronized at once.",
     "RX-06 RX-12a RX-12b RX-12c RX-12d RX-12e RX-12f MX-01 MX-05 MX-06 MX-08 SL-09 SL-12"),
)  # fmt: skip


class NoWaitAfterDefaults(Hurries):
    """A partner that comes to a port on defaults is carried for at once."""

    finds = "RX-06"

    def hurries(self, port: int) -> bool:
        return bool(self.kept.get(port))

    def took(self, port: int, frame: bytes) -> None:
        super().took(port, frame)
        self.kept[port] = self.on.defaulted(port)

    def ticked(self) -> None:
        self.kept = {port: self.on.defaulted(port) for port in (1, 2)}


class StartsCarrying(Hurries):
    """Does not wait after its start."""

    finds = "RX-15"
    until = 0.0

    def start(self) -> None:
        super().start()
        self.until = self.now + 5 if self.now else 0.0

    def hurries(self, port: int) -> bool:
        return self.now < self.until


class FieldUnchecked(Hears):
    """Does not compare a field of the partner's naming."""

    field = ""

    def heard(self, port: int, frame: bytes) -> bytes:
        at, count = FIELDS[self.field]
        own = self.own(port)[at - 4 : at - 4 + count]
        if self.field == "aggregation":
            return set_bits(frame, 38, AGGREGATION, bool(own[0] & AGGREGATION))
        return put(frame, 20 + at, own)


SystemUnchecked, KeyUnchecked = devices(
    FieldUnchecked, "field",
    ("SystemUnchecked", "Does not compare its system.", "RX-07b RX-07g TX-02b", "system"),
    ("KeyUnchecked", "Does not compare its key.", "RX-07c TX-02c", "key"),
)  # fmt: skip


class SelectionUnchanged(Device):
    """Does not select anew where the partner changes a field: it goes on with the old value inside, and tells the new one."""

    # By port it keeps the value that the system has, that of the partner, and the other fields.
    field = ""

    def value(self, frame: bytes) -> bytes:
        at, count = FIELDS[self.field]
        return bytes([frame[14 + at] & AGGREGATION]) if self.field == "aggregation" else part(frame, at, count)

    def changed(self, frame: bytes, at: int, value: bytes) -> bytes:
        return set_bits(frame, at, AGGREGATION, bool(value[0])) if self.field == "aggregation" else put(frame, at, value)

    def hears(self, port: int, frame: bytes) -> Iterable[bytes]:
        if not is_lacpdu(frame):
            yield frame
            return
        at, count = FIELDS[self.field]
        rest = put(put(frame, 18, bytes([frame[32] & AGGREGATION])), at, bytes(count))[18:33]
        inside, _, others = self.kept.get(port, (self.value(frame), b"", rest))
        if others != rest and self.field != "system":
            inside = self.value(frame)
        self.kept[port] = inside, self.value(frame), rest
        yield self.changed(frame, at, inside)

    def says(self, port: int, frame: bytes) -> Iterable[bytes]:
        at, count = FIELDS[self.field]
        inside, outside, _ = self.kept.get(port, (b"", b"", b""))
        told = bytes([frame[14 + at + 20] & AGGREGATION]) if self.field == "aggregation" else part(frame, at + 20, count)
        yield self.changed(frame, at + 20, outside) if inside and told == inside else frame


class LowOctet(Hears):
    """Compares the low octet of the partner's keys alone."""

    finds = "RX-12g SL-13"

    def heard(self, port: int, frame: bytes) -> bytes:
        self.kept[port] = part(frame, 12, 1)
        return put(frame, 12, b"\0")

    def says(self, port: int, frame: bytes) -> Iterable[bytes]:
        yield put(frame, 32, self.kept.get(port, b"\0"))


(LinkUnseen,) = devices(Device, "link", ("LinkUnseen", "Does not see that a link goes down.", "RX-13", lambda self, port, up: None))


class Mute(Device):
    """Says nothing, and hears nothing, on some ports for a time."""

    def __init__(self) -> None:
        super().__init__()
        # By port, until when.
        self.mute: dict[int, float] = {}

    def is_mute(self, port: int) -> bool:
        """Whether it says and hears nothing on a port now."""
        return self.now < self.mute.get(port, 0.0)

    def hears(self, port: int, frame: bytes) -> Iterable[bytes]:
        yield from [] if self.is_mute(port) else [frame]

    def says(self, port: int, frame: bytes) -> Iterable[bytes]:
        yield from [] if self.is_mute(port) else [frame]


class BackTooLate(Mute):
    """Is mute for 12 s behind each time that link 1 comes up."""

    finds = "RX-13"

    def link(self, port: int, up: bool) -> None:
        super().link(port, up)
        if up and port == 1:
            self.mute[port] = self.now + 12


class Damps(Mute):
    """Is mute for 20 s where a link goes down for the third time in 60 s."""

    finds = "RX-21"

    def link(self, port: int, up: bool) -> None:
        super().link(port, up)
        if not up:
            downs = self.kept[port] = [*(it for it in self.kept.get(port, []) if self.now - it < 60), self.now]
            if len(downs) >= 3:
                self.mute[port] = self.now + 20


class DefaultedAtOnce(Says):
    """A link that comes up is told as one on defaults: it is not EXPIRED first."""

    finds = "RX-13"

    def link(self, port: int, up: bool) -> None:
        super().link(port, up)
        self.kept[port] = self.now

    def said(self, port: int, frame: bytes) -> bytes:
        begins = self.now - self.kept.get(port, -9) < 3.5 and frame[32] & 0x80
        return set_bits(set_bits(frame, 18, 0x80, False), 18, 0x40, True) if begins else frame


class KeyOfTheGone(HearsAndSays):
    """On defaults it tells the key of the partner that is gone."""

    finds = "RX-20"

    def heard(self, port: int, frame: bytes) -> bytes:
        self.kept[port] = part(frame, 12, 2)
        return frame

    def said(self, port: int, frame: bytes) -> bytes:
        return put(frame, 32, self.kept[port]) if frame[32] & 0x40 and port in self.kept else frame


class Repeats(HearsAndSays):
    """Some octets of its LACPDUs are those of its partner's last one."""

    at = size = 1

    def heard(self, port: int, frame: bytes) -> bytes:
        self.kept[port] = part(frame, self.at, self.size)
        return frame

    def said(self, port: int, frame: bytes) -> bytes:
        return put(frame, self.at, self.kept[port]) if port in self.kept else frame


class NeverBack(Mute):
    """Is mute for good on a link that was down."""

    finds = "RX-13"

    def link(self, port: int, up: bool) -> None:
        super().link(port, up)
        self.mute[port] = 1e9


class StartsTooLate(Mute):
    """Is mute for 60 s behind each start but the first one."""

    finds = "RX-15"

    def start(self) -> None:
        super().start()
        if self.now:
            self.mute = {port: self.now + 60 for port in self.links}


class SleepsOnDefaults(Mute):
    """Is mute for 20 s each time that it falls back to defaults."""

    finds = "MX-06"

    def ticked(self) -> None:
        for port in self.links:
            if self.on.defaulted(port) and not self.kept.get(port, True):
                self.mute[port] = self.now + 20
            self.kept[port] = self.on.defaulted(port)


class MuteBesideNew(Mute):
    """Is mute for 6 s beside a partner that comes later, and is not in sync."""

    finds, partner = "RX-09", b""

    def took(self, port: int, frame: bytes) -> None:
        new = part(frame, 6, 6)
        if port == 1 and is_lacpdu(frame) and new != self.partner:
            if self.partner and not frame[32] & SYNC:
                self.mute[port] = self.now + 6
            self.partner = new


class MuteBesideTwo(Mute):
    """Says nothing on any link for 12 s once its links have two partners."""

    finds = "SL-03"

    def took(self, port: int, frame: bytes) -> None:
        if is_lacpdu(frame):
            self.kept[port] = part(frame, 6, 6)
        if len(set(self.kept.values())) > 1 and not self.mute:
            self.mute = dict.fromkeys(self.links, self.now + 12)


ROWS += [
    *devices(
        HearsAgain, "again",
        ("Repeats", "Hears the last LACPDU once more, two seconds later: current_while is 5 s.", "RX-02 RX-03 SL-08",
         lambda self, ticks, frame: ticks == 20),
        ("TimeoutOfPartner", "current_while goes by the partner's LACP_Timeout: one that asks for long ones is heard on for 30 s.", "RX-16",
         lambda self, ticks, frame: not frame[32] & 2 and ticks in range(10, 300, 10)),
    ),
    *devices(ShortCurrentWhile, "left short long", ("LongTimer", "Asks for long timeouts, and waits 80 s.", "RX-14", 100, False, True)),
    *devices(
        FieldUnchecked, "field",
        ("PriorityUnchecked", "Does not compare its system priority.", "RX-07a TX-02a", "priority"),
        ("PortPriorityUnchecked", "Does not compare its port priority.", "RX-07d TX-02d", "port_priority"),
        ("PortUnchecked", "Does not compare its port number.", "RX-07e TX-02e", "port"),
        ("AggregationUnchecked", "Does not compare its Aggregation.", "RX-07f TX-02f", "aggregation"),
    ),
    *devices(
        SelectionUnchanged, "field",
        ("NewPriority", "Does not select anew for another priority of the partner.", "RX-12a", "priority"),
        ("NewSystem", "Does not select anew for another system of the partner.", "RX-12b MX-01", "system"),
        ("NewKey", "Does not select anew for another key of the partner.", "RX-12c MX-05 SL-07", "key"),
        ("NewPortPriority", "Does not select anew for another port priority of the partner.", "RX-12d", "port_priority"),
        ("NewPort", "Does not select anew for another port number of the partner.", "RX-12e", "port"),
        ("NewAggregation", "Does not select anew for another Aggregation of the partner.", "RX-12f", "aggregation"),
    ),
    *devices(
        Hears, "heard",
        ("AnyNaming", "Takes each partner as though it named the device.", "RX-07a RX-07b RX-07c RX-07d RX-07e RX-07g RX-08 RX-11",
         lambda self, port, frame: put(frame, 24, self.own(port))),
        ("OwnPortLowOctet", "Compares the low octet of its own port number alone, in what the partner names.", "RX-07h",
         lambda self, port, frame: put(frame, 36, b"\0") if any(part(frame, 26, 6)) else frame),
        ("VendorUnchecked", "Does not compare the first three octets of its system.", "RX-07g",
         lambda self, port, frame: put(frame, 26, OWN.mac[:3]) if any(part(frame, 26, 6)) else frame),
        ("SyncIgnored", "Does not look at Synchronization of the partner.", "RX-09 MX-02 MX-03 TX-06",
         lambda self, port, frame: set_bits(frame, 18, SYNC, True)),
        ("ActivityUnchecked", "Does not look at its Activity as the partner tells it.", "RX-11 TX-03a",
         lambda self, port, frame: set_bits(frame, 38, 1, True)),
        ("VendorOfPartner", "Compares the last three octets of the partner's system alone.", "RX-12h",
         lambda self, port, frame: put(frame, 6, b"\2\xcf\0")),
        ("HighOctetLost", "Takes the high octet of the partner's keys for 0.", "FM-06 RX-12g SL-13 IV-04", lambda self, port, frame: put(frame, 12, b"\0")),
        ("NamedToTheBit", "A partner has to tell its state to the bit.", "RX-19",
         lambda self, port, frame: set_bits(frame, 18, SYNC, False) if (frame[52] ^ self.own(port)[14]) & 0x3A else frame),
    ),
    *devices(
        Repeats, "at size",
        ("VersionOfPartner", "Its LACPDUs have the version of the partner's last one.", "VN-02 VN-03 VN-04", 1, 1),
        ("ReservedOfPartner", "The reserved octets of its Actor TLV are those of the partner's last one.", "VN-06", 19, 3),
    ),
    *devices(
        Drops, "drops",
        ("PassiveRefused", "Takes no LACPDU of a passive partner.", "RX-10", lambda self, port, frame: not frame[32] & 1),
    ),
    *devices(Mute, "is_mute", ("FallsSilent", "Is mute for good from a second on.", "MX-06 SL-03", lambda self, port: self.now > 5)),
]  # fmt: skip
