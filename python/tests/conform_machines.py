"""Devices with one fault each, and the tests that have to find it: the periodic, mux and transmit machines of a link.

A fault that takes more than an expression is a class. The others are rows: of `ROWS`, or with a name here if other tests name them.
"""

from __future__ import annotations

from typing import Iterable, Optional

from conform_device import SLOW, Device, Drops, Hears, LooksSeldom, Says, devices, is_lacpdu, part, put
from conform_faults import AGGREGATION, SYNC, set_bits
from niwhopera import MuxState, State

CARRIES = 0x30


class DisabledByChurn(Drops):
    """A partner that is out of sync for 10 s takes the port out for 30 s."""

    finds = "MX-09"
    most = 10

    def __init__(self) -> None:
        super().__init__()
        self.since: dict[int, float] = {}
        self.out: dict[int, float] = {}

    def ticked(self) -> None:
        for port in (1, 2):
            if self.on.mux_state(port) is not MuxState.ATTACHED:
                self.since[port] = self.now
            elif self.now - self.since.get(port, self.now) > self.most:
                self.out[port], self.since[port] = self.now + 30, self.now

    def drops(self, port: int, frame: bytes) -> bool:
        return self.now < self.out.get(port, 0)


class HeldUp(Device):
    """LACPDUs that come less than 0.9 s behind one another hold wait_while up."""

    finds, held = "MX-11", -9.0

    def took(self, port: int, frame: bytes) -> None:
        if is_lacpdu(frame):
            last, self.kept[port] = self.kept.get(port, -9.0), self.now
            self.held = self.now if self.now - last < 0.9 else self.held

    def tick(self) -> None:
        waits = self.system and any(self.on.mux_state(it) is MuxState.WAITING for it in self.links)
        if not waits or self.now - self.held > 0.35:
            super().tick()


class DropsDeaf(Device):
    """A partner that does not collect for 5 s is dropped, and attached anew."""

    finds = "MX-04"

    def ticked(self) -> None:
        for port in (1, 2):
            partner = int(self.on.partner(port).state)
            if not self.is_on(port, State.COLLECTING) or partner & 0x10 or not partner & SYNC:
                self.kept[port] = self.now
            elif self.now - self.kept.get(port, self.now) > 5:
                self.kept[port] = self.now
                self.restart(port)


class OneASecond(Device):
    """Sends one LACPDU a second at most."""

    finds, sent = "TX-09", -9.0

    def may_send(self) -> bool:
        if self.now - self.sent < 0.95:
            return False
        self.sent = self.now if self.on.due() else self.sent
        return True


class LateToShort(Device):
    """Notices two seconds late that the partner asks for short timeouts."""

    finds = "PT-03"
    since = 0.0

    def hears(self, port: int, frame: bytes) -> Iterable[bytes]:
        if is_lacpdu(frame) and port == 1:
            if not frame[32] & 2:
                self.since = self.now
            elif self.now - self.since < 2 and self.since:
                frame = set_bits(frame, 18, 2, False)
        yield frame


class SaysByLast(Device):
    """What goes out for an LACPDU goes by the one before, which has zeros for the first."""

    def behind(self, port: int, last: bytes, frame: bytes) -> Iterable[bytes]:
        """An LACPDU of the system, as it goes out behind the last one."""
        yield frame

    def says(self, port: int, frame: bytes) -> Iterable[bytes]:
        last, self.kept[port] = self.kept.get(port, bytes(124)), frame
        yield from self.behind(port, last, frame)


class LateBits(Device):
    """Tells Collecting and Distributing a second too long."""

    finds = "MX-03 MX-07 IV-02"

    def says(self, port: int, frame: bytes) -> Iterable[bytes]:
        if frame[32] & CARRIES:
            self.kept[port] = self.now
        late = self.now - self.kept.get(port, -9) < 1.05
        yield set_bits(frame, 18, CARRIES | SYNC, True) if late else frame


class Chatty(Device):
    """Answers each LACPDU."""

    finds = "TX-01 TX-04 TX-05 RB-05 RB-06 IV-05"

    def took(self, port: int, frame: bytes) -> None:
        if is_lacpdu(frame):
            own, partner = self.own(port), self.on.partner(port)
            told = partner.system.priority.to_bytes(2, "big") + partner.system.mac + partner.key.to_bytes(2, "big")
            told += partner.port.priority.to_bytes(2, "big") + partner.port.number.to_bytes(2, "big") + bytes([int(partner.state)])
            payload = b"\1\1\1\x14" + own + bytes(3) + b"\2\x14" + told + bytes(3) + b"\3\x10" + bytes(66)
            self.send(port, b"\x01\x80\xc2\0\0\2" + bytes([2, 0, 0, 0, 0xBB, port]) + SLOW + payload)


class NoNtt(Device):
    """Waits 0.9 s before it sends what is due."""

    finds = "TX-02b TX-02c TX-02d TX-02e TX-02f TX-03a TX-03b TX-03c TX-06 MX-03 MX-07"
    due_since: Optional[float] = None

    def may_send(self) -> bool:
        if 1 not in self.on.due():
            self.due_since = None
            return False
        if self.due_since is None:
            self.due_since = self.now
        if self.now - self.due_since < 0.9:
            return False
        self.due_since = None
        return True


class ToldWithThePeriod(Device):
    """Tells with its next periodic LACPDU alone that it has detached."""

    finds = "RX-12a RX-12b RX-12c RX-12d RX-12e RX-12f RX-12g RX-12h SL-07 SL-16"

    def __init__(self) -> None:
        super().__init__()
        self.told: dict[int, int] = {}
        self.made: dict[int, list[float]] = {}
        self.ticks = False

    def tick(self) -> None:
        self.ticks = True
        super().tick()
        self.ticks = False

    def says(self, port: int, frame: bytes) -> Iterable[bytes]:
        before = [it for it in self.made.get(port, []) if self.now - it < 1.15]
        self.made[port] = [*before, self.now]
        is_periodic = self.ticks and len(before) < 3  # behind three it is one that waited
        if is_periodic or frame[32] & SYNC or not self.told.get(port, 0) & SYNC:
            self.told[port] = frame[32]
            yield frame


class Stale(Device):
    """What waits behind three LACPDUs is told three seconds long as it was when it began to wait."""

    finds, old, until = "TX-05", b"", 0.0

    def says(self, port: int, frame: bytes) -> Iterable[bytes]:
        times = self.kept[0] = [*(it for it in self.kept.get(0, []) if self.now - it < 1.2), self.now]
        if len(times) == 4 and self.now >= self.until:
            self.until = self.now + 3
        if self.now >= self.until or port != 1:
            self.old = frame
        yield self.old or frame


class ThrowsAway(Device):
    """What the limit of three holds back is not sent when there is room again."""

    finds = "TX-10"

    def says(self, port: int, frame: bytes) -> Iterable[bytes]:
        sent = self.kept[port] = [it for it in self.kept.get(port, []) if self.now - it < 1.25]
        if len(sent) < 3:
            sent.append(self.now)
            yield frame


class SharedLimit(Device):
    """Sends three LACPDUs a second, of all ports together."""

    finds = "TX-11"

    def send_due(self) -> None:
        times = self.kept[0] = [it for it in self.kept.get(0, []) if self.now - it < 1]
        for port in self.on.due():
            if len(times) < 3 and (sent := self.on.transmit(port)):
                times.append(self.now)
                self.send(port, sent.frame)


ROWS = [
    *devices(
        DisabledByChurn, "most long",
        ("DisabledByLongChurn", "A partner that is out of sync for 60 s takes the port out: what churn detection finds.", "MX-10", 60, True),
    ),
    *devices(
        SaysByLast, "behind",
        ("QuietInExpired", "Tells once that it is EXPIRED.", "PT-05", lambda self, port, last, frame: [] if last[32] & frame[32] & 0x80 else [frame]),
        ("QuietToPassive", "Sends nothing periodically to a passive partner.", "PT-06",
         lambda self, port, last, frame: [frame] if frame[52] & 1 or last[:54] != frame[:54] else []),
        ("TellsOldBits", "Tells once more that it carries when it has detached.", "MX-05",
         lambda self, port, last, frame: [put(frame, 18, last[32:33]) if last[32] & SYNC and not frame[32] & SYNC else frame]),
        ("MixesLinks", "Tells on link 2 the partner of link 1.", "IV-04",
         lambda self, port, last, frame: [put(frame, 24, part(self.kept[1], 24, 14)) if port == 2 and 1 in self.kept else frame]),
    ),
    *devices(LooksSeldom, "pause", ("LooksOnceASecond", "Sends what is due once a second.", "TX-02b TX-02e TX-03b", 0.99)),
    *devices(
        Device, "tick_seconds",
        ("SlowClock", "Its clock is slow: a second has 1.45 s.", "PT-01 RX-02", 0.145),
        ("FastClock", "Its clock is fast.", "PT-01 MX-01 RX-02", 0.055),
    ),
    *devices(Device, "tick_seconds long", ("SlowPeriod", "Its clock is a twentieth slow.", "PT-07", 0.105, True)),
    *devices(
        Device, "says long",
        ("SilentOnDefaults", "Says nothing where it has no partner.", "PT-08", lambda self, port, frame: [] if frame[32] & 0x40 else [frame], True),
    ),
    *devices(
        Hears, "heard",
        ("AnswersOtherBits", "Answers an LACPDU that tells any bit of its state otherwise.", "TX-07",
         lambda self, port, frame: set_bits(frame, 38, 2, not frame[52] & 2) if (frame[52] ^ self.own(port)[14]) in range(16, 256, 16) else frame),
        ("AlwaysShort", "Sends each second, whatever the partner asks for.", "PT-02 PT-04 TX-04", lambda self, port, frame: set_bits(frame, 18, 2, True)),
        ("AlwaysLong", "Sends each 30 s, whatever the partner asks for.", "PT-01 PT-03 PT-06", lambda self, port, frame: set_bits(frame, 18, 2, False)),
        ("CollectsAsPartner", "Takes a partner that does not collect for one out of sync.", "MX-02 MX-04",
         lambda self, port, frame: frame if frame[32] & 0x10 else set_bits(frame, 18, SYNC, False)),
        ("TimeoutUnchecked", "Does not look at its LACP_Timeout as the partner tells it.", "TX-03b",
         lambda self, port, frame: set_bits(frame, 38, 2, self.is_on(port, State.TIMEOUT))),
        ("OwnSyncUnchecked", "Does not look at its Synchronization as the partner tells it.", "TX-03c",
         lambda self, port, frame: set_bits(frame, 38, SYNC, self.is_on(port, State.SYNCHRONIZATION))),
    ),
    *devices(
        Says, "said",
        ("AggregatesAlways", "Tells a partner that is individual as aggregatable.", "MX-08",
         lambda self, port, frame: set_bits(frame, 38, AGGREGATION, True) if any(part(frame, 26, 6)) else frame),
        ("CollectsAlone", "Tells Collecting without Synchronization.", "IV-01",
         lambda self, port, frame: frame if frame[32] & SYNC else set_bits(frame, 18, 0x10, True)),
    ),
]  # fmt: skip
