"""EN: beside a proved system at its own pace, with one port at each link, its own wait_while and its own markers."""

from __future__ import annotations

from dataclasses import replace
from typing import Callable, Optional

from niwhopera import Answers, Config, PortConfig, System, SystemId

from ..bench import UNHEARD, Bench
from ..model import Group
from ..partner import TICK
from ..pdus import SIX, SLOW, value

group = Group("EN", "Beside the library's engine")
KEY = 0x11


class Engine:
    """A system with a port at each link: it gets each frame of the device, a tick each 100 ms, and sends what is due."""

    def __init__(self, b: Bench, links: tuple[int, ...]) -> None:
        self.b, self.links = b, links
        b.silence()
        ports = tuple(PortConfig(number=it, key=KEY, mac=b.wire.source(it)) for it in links)
        self.system = System(Config(SystemId(0x8000, b.new_mac()), ports, aggregators=(KEY,) * len(ports)))
        for it in links:
            self.system.set_link(it, True)
        self.done, self.due = b.mark(), b.now()

    def feed(self) -> None:
        """Hands over what came, and sends what is due."""
        came, self.done = self.b.frames[self.done :], len(self.b.frames)
        for frame in came:
            if not frame.out and frame.link in self.links and frame.octets[12:14] == SLOW:
                got = self.system.receive(frame.link, frame.octets)
                if got.response:
                    self.b.send_raw(frame.link, got.response)
        while self.b.now() >= self.due:
            self.system.tick()
            self.due += TICK
        for port, sent in self.system.transmissions():
            self.b.send_raw(port, sent.frame)

    def run(self, seconds: float, stop: Optional[Callable[[], bool]] = None) -> bool:
        """Runs both ends for so long, or until `stop`."""
        limit = self.b.now() + seconds
        while self.b.now() < limit:
            self.b.until(min(TICK, max(0.0, self.due - self.b.now())) + 0.001, lambda: len(self.b.frames) > self.done)
            self.feed()
            if stop and stop():
                return True
        return False


def mistold(b: Bench, system: System, link: int) -> str:
    """Which parameters of our port the device tells wrong on a link, with both values; nothing where all are right."""
    own, info = system.party(link), b.device(link).partner
    right = replace(info, system=own.system, key=own.key, port=own.port, state=system.state(link))
    wrong = [f"{it} {value(info, it)}, and has to tell {value(right, it)}" for it in SIX if value(info, it) != value(right, it)]
    return f", where the device tells of our port {own.port.number} {'; '.join(wrong)}" if wrong else ""


def comes_up(b: Bench, links: tuple[int, ...]) -> None:
    """Both ends carry on these links, and go on."""
    engine, begin, mark = Engine(b, links), b.now(), b.mark()
    with engine.system as system:

        def heard(link: int) -> bool:
            return next(b.heard(link, mark), None) is not None

        def both() -> bool:
            return all(system.distributes(it) and heard(it) and b.carries(it) for it in links)

        engine.run(12, both)
        told = [mistold(b, system, it) if heard(it) else f", and {UNHEARD} came there" for it in links]
        states = ", ".join(f"link {it} {system.port_status(it).name}{text}" for it, text in zip(links, told))
        carry = f"both ends carry after {b.now() - begin:.1f} s" if both() else f"not both ends carry after {b.now() - begin:.1f} s, and have to after 12 s"
        b.claim(both(), f"{carry}: {states}", *[b.frame(it) for it in links if heard(it)])
        broken: list[bool] = []

        def looks() -> bool:
            broken.extend([] if both() else [True])
            return False

        engine.run(5, looks)
        b.holds(not broken, "and for 5 s more")
        if len(links) > 1:
            one = len({system.group(it) for it in links}) == 1 and len({system.choice(it) for it in links}) == 1
            b.claim(one, f"one group {system.group(1)}, one aggregator")


@group.test("01", "6.4", "One link to the library's engine", "be a system of the engine on link 1",
            rule="both ends distribute within 12 s, and for 5 s more", takes=8, causes=("FM-05", "FM-06", "RX-04", "PT-01"))  # fmt: skip
def one_link(b: Bench) -> None:
    """A partner that is right for every input, with its own wait_while, comes up with the device."""
    comes_up(b, (1,))


@group.test("02", "6.4", "Two links to the library's engine", "be one system of the engine on both links",
            rule="both ends distribute on both links within 12 s, in one group, and for 5 s more", links=2, takes=8,
            needs=("two-ports",), causes=("EN-01", "SL-01"))  # fmt: skip
def two_links(b: Bench) -> None:
    """As before, on two links of one aggregator."""
    comes_up(b, (1, 2))


@group.test("04", "6.4", "Three links to the library's engine", "be one system of the engine on three links",
            rule="both ends distribute on all links within 12 s, in one group, and for 5 s more", links=3, takes=8,
            needs=("two-ports",), causes=("EN-02", "SL-14"))  # fmt: skip
def three_links(b: Bench) -> None:
    """As before, on three links of one aggregator."""
    comes_up(b, (1, 2, 3))


@group.test("03", "6.5", "The engine's marker is answered", "be the engine on link 1, and probe", rule="the engine notes that the peer answers",
            takes=6, needs=("marker-responder",), causes=("MK-01", "MK-02", "MK-11"))  # fmt: skip
def probe(b: Bench) -> None:
    """What the engine needs of a peer before it moves a conversation behind a marker."""
    engine = Engine(b, (1,))
    with engine.system as system:
        engine.run(8, lambda: system.distributes(1))
        engine.run(2.6)
        sent = system.probe(1)
        frame = b.send_raw(1, sent.frame) if sent else None
        engine.run(1.5, lambda: system.answers(1) is Answers.ANSWERED)
        answers = system.answers(1)
        b.claim(answers is Answers.ANSWERED, f"the engine notes {answers.name}; has to be {Answers.ANSWERED.name}", frame, *(b.markers(1, frame.number) if frame else ()))
