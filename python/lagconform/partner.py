"""The bench's end of a link: a proved system of `niwhopera`, whose LACPDUs a test may change on their way.

The system answers each frame of the device, and is ticked each 100 ms. What a test makes wrong is put on behind it, and taken off what
comes back, so that the partner is right but for that.
"""

from __future__ import annotations

from dataclasses import dataclass, replace
from math import inf
from typing import TYPE_CHECKING, Any, Callable, Optional

from niwhopera import Config, Info, Lacpdu, Mac, PortConfig, PortId, State, System, SystemId, encode

from .model import Frame
from .pdus import CARRIES, GROUP, NO_STATE, PARTNER, PARTNER_STATE, PAYLOAD, SIX, SLOW, put, value, with_bits

if TYPE_CHECKING:
    from .bench import Bench

TICK = 0.1
# Ticks in which a system that has heard a partner passes wait_while (6.4.4).
ATTACHES = 21
Change = Callable[[Info], Info]


@dataclass(frozen=True)
class Identity:
    """What the bench is on a link."""

    system: SystemId
    port: PortId
    key: int = 0x11
    aggregatable: bool = True
    active: bool = True
    short: bool = True

    @property
    def info(self) -> Info:
        """The end as an LACPDU names it, without the bits of the machines."""
        bits = ((State.ACTIVITY, self.active), (State.TIMEOUT, self.short), (State.AGGREGATION, self.aggregatable))
        return Info(self.system, self.key, self.port, sum((bit for bit, on in bits if on), NO_STATE))


class Partner:
    """A partner that is right unless a test makes it wrong."""

    def __init__(self, bench: Bench, link: int) -> None:
        self.bench, self.link = bench, link
        self.me = Identity(SystemId(0x8000, bench.base), PortId(0x80, link))
        self._system: Optional[System] = None
        self.heard: Optional[Frame] = None
        self.told: Optional[Lacpdu] = None
        self.last_sent, self.speaks, self._owes = -9.0, False, False
        self.pace: Optional[float] = None
        # When its system is to be ticked.
        self.next_tick = inf
        self.right()

    def right(self) -> None:
        """Nothing is made wrong any more."""
        # Bits of our state that are told so, whatever the system says.
        self.forced: dict[State, bool] = {}
        # What is told of the device, made of what the system recorded.
        self.says: Optional[Change] = None
        self.pace = None

    @property
    def is_right(self) -> bool:
        """Whether it speaks, and nothing is made wrong."""
        return self.speaks and not self.forced and self.says is None and self.pace is None

    # What it is.

    def begin(self, mac: Mac) -> None:
        """A new system with a new name: active, with short timeouts, silent."""
        self.right()
        self.hush()
        self.me = Identity(SystemId(0x8000, mac), PortId(0x80, self.link))
        self._make()

    def become(self, **changes: Any) -> None:
        """Another system in the place of the one before: `Identity` but for these fields."""
        self.me = replace(self.me, **changes)
        self._make()

    def become_other(self, field: str) -> None:
        """Another system in the place of the one before, whose end differs in one of the six parameters."""
        priority, mac, port = self.me.system.priority, self.me.system.mac, self.me.port
        changes: dict[str, dict[str, Any]] = {
            "priority": {"system": SystemId(priority ^ 0x40, mac)},
            "system": {"system": SystemId(priority, Mac(mac[:5] + bytes([mac[5] ^ 0x40])))},
            "key": {"key": self.me.key ^ 0x40},
            "port_priority": {"port": PortId(port.priority ^ 0x40, port.number)},
            "port": {"port": PortId(port.priority, port.number ^ 0x40)},
            "aggregation": {"aggregatable": not self.me.aggregatable},
        }
        self.become(**changes[field])

    def _make(self) -> None:
        """The system, as though it had listened on the link for two seconds before it speaks."""
        self.close()
        port = PortConfig(
            self.me.port.number, self.me.key, self.bench.wire.source(self.link), self.me.port.priority,
            self.me.aggregatable, self.me.active, self.me.short,
        )  # fmt: skip
        self._system = System(Config(self.me.system, (port,), aggregators=(self.me.key,)))
        self._system.set_link(self.me.port.number, True)
        if self.heard:
            self._take(self.heard.octets)
            self._system.tick(ATTACHES)
            self._take(self.heard.octets)
        self.resume()
        self._owes = True

    def resume(self) -> None:
        """Its time goes on from now."""
        self.next_tick = self.bench.now() + TICK

    @property
    def system(self) -> System:
        """The system that speaks here."""
        if self._system is None:
            self.begin(self.bench.new_mac())
        assert self._system
        return self._system

    def close(self) -> None:
        """Gives the system back."""
        if self._system:
            self._system.close()
            self._system = None

    # What it says.

    def hush(self) -> None:
        """Says nothing more; it goes on listening."""
        self.speaks = False

    def speak(self) -> None:
        """Speaks as a system does."""
        self.speaks = True
        self._owes |= self.bench.now() - self.last_sent > 0.9

    def keep_pace(self, seconds: float) -> None:
        """From now on sends its LACPDU each so many seconds, and answers nothing."""
        self.pace, self.speaks = seconds, True

    def lacpdu(self) -> Lacpdu:
        """What it would send now, with what a test makes wrong."""
        system, number = self.system, self.me.port.number
        own = system.party(number)
        return self._changed(Lacpdu(Info(own.system, own.key, own.port, system.state(number)), system.partner(number)))

    def _changed(self, pdu: Lacpdu) -> Lacpdu:
        partner = self.says(pdu.partner) if self.says else pdu.partner
        return Lacpdu(with_bits(pdu.actor, self.forced), partner, pdu.max_delay)

    def send(self) -> Frame:
        """Sends its LACPDU now: the one that is due, or else one more; answers its frame."""
        self.system.transmit(self.me.port.number)
        self.told = self.lacpdu()
        self.last_sent, self._owes = self.bench.now(), False
        return self.bench.send(self.link, encode(self.told))

    def act(self, now: float) -> None:
        """Ticks of the system that are due, and what it has to send."""
        system = self.system
        while now >= self.next_tick:
            system.tick()
            self.next_tick += TICK
        if not self.speaks:
            return
        if self.pace is not None:
            if now >= self.last_sent + self.pace:
                self.send()
        elif self._owes or system.is_due(self.me.port.number):
            self.send()

    def due(self) -> float:
        """When it has something to do by itself."""
        if self.speaks and self.pace is not None:
            return min(self.next_tick, self.last_sent + self.pace)
        return self.next_tick

    # What it hears.

    def take(self, frame: Frame) -> None:
        """A frame of the device."""
        if frame.octets[12:14] != SLOW:
            return
        if frame.lacpdu:
            self.heard = frame
        self._take(frame.octets)

    def _take(self, octets: bytes) -> None:
        got = self.system.receive(self.me.port.number, self._restored(octets))
        if got.response and self.speaks:
            self.bench.send_raw(self.link, got.response)

    def _restored(self, octets: bytes) -> bytes:
        """What came, with our own state as the system told it, and with what the device tells wrong of us all along put right: the system does not
        learn what a test changed."""
        if octets[PAYLOAD : PAYLOAD + 1] != b"\1" or len(octets) <= PARTNER_STATE:
            return octets
        if octets[PARTNER + 2 : PARTNER + 8] == self.me.system.mac:
            for at in (PLACES[it] for it in self.bench.mistold):
                octets = put(octets, PARTNER + at.start, named(self.me.info)[at])
        own, mask = self.system.state(self.me.port.number), sum(self.forced, NO_STATE)
        return put(octets, PARTNER_STATE, bytes([int(octets[PARTNER_STATE] & ~mask | own & mask)]))

    def is_named_by(self, pdu: Lacpdu) -> bool:
        """Whether an LACPDU of the device names this end, but for what it tells wrong all along."""
        return all(value(pdu.partner, it) == value(self.me.info, it) for it in SIX if it not in self.bench.mistold)

    @property
    def tells_carrying(self) -> bool:
        """Whether it told that it collects and distributes."""
        return self.told is not None and self.told.actor.state & CARRIES == CARRIES


# Where an LACPDU has each of the parameters of an end but its system, from the begin of that end on.
PLACES = {"priority": slice(0, 2), "key": slice(8, 10), "port_priority": slice(10, 12), "port": slice(12, 14)}


def named(info: Info) -> bytes:
    """The octets by which an LACPDU names an end, without its state."""
    ends = info.system.priority.to_bytes(2, "big") + info.system.mac + info.key.to_bytes(2, "big")
    return ends + info.port.priority.to_bytes(2, "big") + info.port.number.to_bytes(2, "big")


def slow(payload: bytes, source: Mac) -> bytes:
    """A frame of Slow Protocols with this payload."""
    return GROUP + source + SLOW + payload
