"""Two systems, whose ports of one number are joined, played by entries in words of a script of `lagtool replay` (docs/COMMAND.md)."""

from __future__ import annotations

from collections import defaultdict, deque
from typing import DefaultDict, Deque

from niwhopera import Config, Lacpdu, Mac, PortConfig, ReceivedKind, System, SystemId, decode


def config(system: int) -> Config:
    """System 1 or 2: two ports of key 1 with long timeouts, and one aggregator."""
    mac = Mac(bytes([2, 0, 0, 0, 0, system]))
    return Config(SystemId(32768, mac), tuple(PortConfig(number, 1, mac, 128, True, True, False) for number in (1, 2)), aggregators=(1,))


class TwoSystems:
    """Cable C joins port C of both systems, and is whole."""

    def __init__(self) -> None:
        self.systems = {1: System(config(1)), 2: System(config(2))}
        # The frames on each cable to each system.
        self.lines: DefaultDict[tuple[int, int], Deque[bytes]] = defaultdict(deque)

    def play(self, entry: str) -> str:
        """The reply to an entry."""
        word, *rest = entry.split()
        reply: str = getattr(self, word)(*(int(it) if len(it) <= 5 else it for it in rest))
        return reply

    def close(self) -> None:
        for system in self.systems.values():
            system.close()

    def put(self, sender: int, cable: int, frame: bytes) -> str:
        self.lines[cable, 3 - sender].append(frame)
        return "sent"

    def tick(self, system: int, count: int) -> str:
        self.systems[system].tick(count)
        return "ticked"

    def sense(self, cable: int, system: int) -> str:
        self.systems[system].set_link(cable, True)
        return "up"

    def emit(self, system: int, port: int) -> str:
        sent = self.systems[system].transmit(port)
        if sent is None:
            return "nothing"
        pdu = decode(sent.frame[14:])
        what = f"lacpdu {int(pdu.actor.state):02x}" if isinstance(pdu, Lacpdu) else f"marker {pdu.id}"
        return f"{what} {self.put(system, port, sent.frame)}"

    def deliver(self, cable: int, to: int) -> str:
        got = self.systems[to].receive(cable, self.lines[cable, to].popleft())
        if got.kind is ReceivedKind.RESPOND:
            assert got.response is not None
            return f"responded {self.put(to, cable, got.response)}"
        words = {ReceivedKind.TOOK_LACPDU: "took", ReceivedKind.HANDED_UP: f"up {got.aggregator}", ReceivedKind.RELEASED: f"released {got.released}"}
        return words[got.kind]

    def offer(self, system: int, aggregator: int, octets: str) -> str:
        port = self.systems[system].offer(aggregator, bytes.fromhex(octets))
        return f"port {port} {self.put(system, port, bytes.fromhex(octets))}"

    def move(self, system: int, aggregator: int, conversation: int, port: int) -> str:
        self.systems[system].move_conversation(aggregator, conversation, port)
        return "moved"
