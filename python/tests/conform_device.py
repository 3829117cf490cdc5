"""A device in memory for the tests of `lagconform`: a system of niwhopera at the far end of two links, with a clock that the bench moves.

`Device` is right. A fault is a class below it that changes one thing: what it hears, what it says, its clock, or its data. Where an expression
says the change, the fault is a row of a table (`devices`).
"""

from __future__ import annotations

import sys
import time
from collections import defaultdict, deque
from contextlib import contextmanager
from typing import Any, DefaultDict, Deque, Iterable, Iterator, Optional, Sequence, Type

from lagconform.bench import Bench
from lagconform.groups import TESTS
from lagconform.memory import FLOWS, Done, Stack, World, flow
from lagconform.model import CAVEAT, Result
from lagconform.model import Test as Case
from lagconform.runner import meet, ordered, run_all
from lagconform.sockets import Command
from lagconform.wires import Hook
from niwhopera import Config, LagError, Mac, MuxState, PortConfig, State, System, SystemId

__all__ = ["World"]
SLOW = b"\x88\x09"
KEY = 23
OWN = SystemId(32768, Mac("0200000000bb"))
# A port may send so many Marker PDUs in any second (802.3 57A).
MOST_RESPONSES = 10
BY_NAME = {it.id: it for it in TESTS}
# What stands behind the counts in the last line.
LAST = f". {CAVEAT}\n"


def put(frame: bytes, at: int, octets: bytes) -> bytes:
    """A frame with other octets from an offset of its payload on."""
    return frame[: 14 + at] + octets + frame[14 + at + len(octets) :]


def part(frame: bytes, at: int, count: int) -> bytes:
    """Octets of the payload of a frame."""
    return frame[14 + at : 14 + at + count]


def is_lacpdu(frame: bytes) -> bool:
    """Whether a frame has the type, the subtype and the length of an LACPDU."""
    return frame[12:15] == SLOW + b"\1" and len(frame) >= 124


class Device(Stack):
    """A right device."""

    # What each fault changes.
    short = active = aggregatable = True
    most_responses = MOST_RESPONSES
    # The tests that find the fault; each of them has to fail.
    finds = ""
    # Ids of tests are looked for with long ones if so.
    long = False

    def __init__(self) -> None:
        self.system: Optional[System] = None
        self.sends_data, self.count = False, 0
        self.responses: DefaultDict[int, Deque[float]] = defaultdict(deque)
        # What a fault keeps, most of them by port.
        self.kept: dict[Any, Any] = {}

    @property
    def on(self) -> System:
        """The system, which runs."""
        assert self.system
        return self.system

    # The host of the system.

    def start(self) -> None:
        own = {"short_timeout": self.short, "active": self.active, "aggregatable": self.aggregatable}
        ports = tuple(PortConfig(number=it, key=KEY, mac=Mac(bytes([2, 0, 0, 0, 0xBB, it])), **own) for it in self.links)
        self.system = System(Config(OWN, ports, aggregators=(KEY,) * len(ports)))
        for it in self.links:
            self.system.set_link(it, True)

    def stop(self) -> None:
        if self.system:
            self.system.close()
            self.system = None

    def take(self, port: int, frame: bytes) -> None:
        """A frame comes."""
        if not self.system:
            return
        for given in self.hears(port, frame):
            if given[12:14] != SLOW:
                continue
            got = self.system.receive(port, given)
            if got.response:
                self.respond(port, frame, got.response)
        self.took(port, frame)
        self.send_due()

    def respond(self, port: int, marker: bytes, response: bytes) -> None:
        """Sends a response, if the last second has room for one more."""
        sent = self.responses[port]
        while sent and self.now - sent[0] >= 1:
            sent.popleft()
        if len(sent) < self.most_responses:
            sent.append(self.now)
            for to, it in self.responds(port, marker, response):
                self.send(to, it)

    def tick(self) -> None:
        if not self.system:
            return
        self.system.tick()
        self.ticked()
        self.send_due()
        if self.sends_data:
            self.count += 1
            for frame in (flow(number, self.count) for number in range(FLOWS)):
                port = self.port_of(frame)
                for it in self.puts(port, frame) if port else ():
                    self.send(it, frame)

    def send_due(self) -> None:
        """Sends what is due."""
        if not self.may_send():
            return
        for port, sent in self.on.transmissions():
            for it in self.says(port, sent.frame) if is_lacpdu(sent.frame) else [sent.frame]:
                self.send(port, it)

    def link(self, port: int, up: bool) -> None:
        if self.system:
            self.system.set_link(port, up)

    def data(self, on: bool) -> None:
        self.sends_data = on

    # What a fault changes.

    def hears(self, port: int, frame: bytes) -> Iterable[bytes]:
        """A frame, as the system gets it."""
        yield frame

    def took(self, port: int, frame: bytes) -> None:
        """Behind a frame that the system got."""

    def says(self, port: int, frame: bytes) -> Iterable[bytes]:
        """An LACPDU of the system, as it goes out."""
        yield frame

    def responds(self, port: int, marker: bytes, response: bytes) -> Iterator[tuple[int, bytes]]:
        """A response, as it goes out, and on which port."""
        yield port, response

    def ticked(self) -> None:
        """Behind a tick."""

    def may_send(self) -> bool:
        """Whether what is due goes out now."""
        return True

    def puts(self, port: int, frame: bytes) -> Iterable[int]:
        """The ports on which a frame of the client goes out, that of `port_of` by a right device."""
        yield port

    def port_of(self, frame: bytes) -> Optional[int]:
        """The port of a frame of the client."""
        aggregator = self.on.active_aggregator()
        try:
            return self.on.offer_in_active_aggregator(aggregator, frame) if aggregator else None
        except LagError:
            return None

    # What faults share.

    def restart(self, port: int) -> None:
        """The port loses its partner, and begins anew."""
        self.on.configure(port, key=KEY + 1, priority=32768, aggregatable=True)
        self.on.configure(port, key=KEY, priority=32768, aggregatable=True)

    def own(self, port: int) -> bytes:
        """How an LACPDU names the port, and its state: octets 4 to 18 of its payload."""
        it = self.on.party(port)
        ends = it.system.priority.to_bytes(2, "big") + it.system.mac + it.key.to_bytes(2, "big")
        return ends + it.port.priority.to_bytes(2, "big") + it.port.number.to_bytes(2, "big") + bytes([int(self.on.state(port))])

    def is_on(self, port: int, bit: State) -> bool:
        """Whether a bit of the state of a port is 1."""
        return bool(self.on.state(port) & bit)


class NoData(Device):
    """Its client sends nothing."""

    def data(self, on: bool) -> None:
        raise NotImplementedError


class WaitsThree(Device):
    """Its wait_while is 3 s: of three ticks that come while a port waits, one is left out."""

    waited = 0

    def tick(self) -> None:
        if self.system and any(self.on.mux_state(it) is MuxState.WAITING for it in self.links):
            self.waited += 1
            if self.waited % 3 == 1:
                return
        super().tick()


class Hears(Device):
    """Takes each LACPDU for another one."""

    def heard(self, port: int, frame: bytes) -> bytes:
        """An LACPDU, as the system gets it."""
        return frame

    def hears(self, port: int, frame: bytes) -> Iterable[bytes]:
        yield self.heard(port, frame) if is_lacpdu(frame) else frame


class Drops(Device):
    """Drops LACPDUs of some shape."""

    def drops(self, port: int, frame: bytes) -> bool:
        """Whether an LACPDU is dropped."""
        return False

    def hears(self, port: int, frame: bytes) -> Iterable[bytes]:
        if not (is_lacpdu(frame) and self.drops(port, frame)):
            yield frame


class Says(Device):
    """Changes each LACPDU that it sends."""

    def said(self, port: int, frame: bytes) -> bytes:
        """An LACPDU of the system, as it goes out."""
        return frame

    def says(self, port: int, frame: bytes) -> Iterable[bytes]:
        yield self.said(port, frame)


class HearsAndSays(Hears, Says):
    """Takes each LACPDU for another one, and changes each that it sends."""


class LooksSeldom(Device):
    """Sends what is due with a pause behind each look."""

    pause = looked = 0.0

    def may_send(self) -> bool:
        if self.now - self.looked < self.pause:
            return False
        self.looked = self.now
        return True


# Of a device: its name, what it does, the tests that find its fault, and what it has in place of each attribute of its base that the table names.
Row = tuple[Any, ...]


def devices(base: Type[Device], attributes: str, *rows: Row) -> list[Type[Device]]:
    """The devices of a table, which are of the module that it stands in."""
    names, shared = attributes.split(), {"__module__": sys._getframe(1).f_globals["__name__"]}
    return [type(name, (base,), {**shared, "__doc__": what, "finds": finds, **dict(zip(names, given))}) for name, what, finds, *given in rows]


LongTimeouts, Individual = devices(
    Device, "short aggregatable",
    ("LongTimeouts", "Asks for long timeouts.", "", False),
    ("Individual", "Its ports are individual.", "", True, False),
)  # fmt: skip


# Benches beside devices.


class Full(World):
    """A machine that drops frames."""

    def drops(self) -> int:
        return 3


class Waits:
    """A hook whose command has ended where it is asked."""

    def __init__(self, line: str) -> None:
        self.line = line

    def call(self, words: Sequence[str]) -> Done:
        doing, limit = Command(self.line).call(words), time.monotonic() + 20
        while (answer := doing.answer()) is None:
            assert time.monotonic() < limit
            time.sleep(0.01)
        return Done(answer)


@contextmanager
def beside(world: World, hook: Optional[Hook] = None, meets: bool = True, **how: Any) -> Iterator[Bench]:
    """A bench that has met the device of a world, or is to meet it; it ends with it."""
    b = Bench(world, hook, **how)
    try:
        if meets:
            meet(b)
        yield b
    finally:
        b.close()


def play(world: World, tests: Iterable[Case], **how: Any) -> list[Result]:
    """Runs tests beside the device of a world, whose hook is there."""
    results: list[Result] = []
    with beside(world, world, **how) as b:
        run_all(b, ordered(tests), results.append)
    return results
