"""A stack for `lagconform --memory examples/conform/device.py`: liblag, as its Python module has it, with a port at each link.

Put your own in its place: `start`, `take` and `tick` are all that most tests want. What a stack does not have stays out of the class.
"""

from typing import Optional

from lagconform.memory import FLOWS, Stack, flow
from niwhopera import Config, LagError, Mac, PortConfig, System, SystemId

SYSTEM, KEY = SystemId(32768, Mac("0200000000bb")), 23
# So many Marker PDUs a port may send in a second (802.3 57A), which is ten ticks.
RESPONSES, SECOND = 10, 10


class Device(Stack):
    """The stack."""

    def __init__(self) -> None:
        self.system: Optional[System] = None
        self.sends_data, self.count = False, 0
        self.answered: list[tuple[float, int]] = []

    def start(self) -> None:
        """Begins, with each link up."""
        ports = tuple(PortConfig(it, KEY, Mac(bytes([2, 0, 0, 0, 0xBB, it]))) for it in self.links)
        self.system = System(Config(SYSTEM, ports, aggregators=(KEY,) * len(ports)))
        for it in self.links:
            self.system.set_link(it, True)

    def take(self, link: int, frame: bytes) -> None:
        """A frame comes."""
        if self.system and frame[12:14] == b"\x88\x09":
            got = self.system.receive(link, frame)
            if got.response and self.may_answer(link):
                self.send(link, got.response)
            self.send_due()

    def tick(self) -> None:
        """100 ms pass."""
        if self.system:
            self.system.tick()
            self.send_due()
            self.count += 1
            for number in range(FLOWS if self.sends_data else 0):
                if link := self.link_of(flow(number, self.count)):
                    self.send(link, flow(number, self.count))

    def stop(self) -> None:
        """Ends."""
        if self.system:
            self.system.close()
            self.system = None

    def link(self, link: int, up: bool) -> None:
        """A link goes down, or comes up."""
        if self.system:
            self.system.set_link(link, up)

    def data(self, on: bool) -> None:
        """The client of the aggregator sends."""
        self.sends_data = on

    def send_due(self) -> None:
        """Sends what is due."""
        assert self.system
        for link, sent in self.system.transmissions():
            self.send(link, sent.frame)

    def may_answer(self, link: int) -> bool:
        """Whether the last second has room for one more response."""
        self.answered = [it for it in self.answered if self.now - it[0] < SECOND * self.tick_seconds]
        room = sum(it[1] == link for it in self.answered) < RESPONSES
        self.answered += [(self.now, link)] if room else []
        return room

    def link_of(self, frame: bytes) -> Optional[int]:
        """The link of a frame of the client."""
        assert self.system
        aggregator = self.system.active_aggregator()
        try:
            return self.system.offer_in_active_aggregator(aggregator, frame) if aggregator else None
        except LagError:
            return None
