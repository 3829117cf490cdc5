"""A system with the device's parameters that gets the same frames and predicts each of its LACPDUs.

The clock of the device is not known, and the standard leaves timers 0.25 s and the time of an answer open. So several systems run, whose
clocks differ, and an LACPDU agrees if one of them would have told the same at some time near it. What differs is told, and is never a fail: it may be what the standard leaves open.
"""

from __future__ import annotations

from bisect import bisect_left
from dataclasses import dataclass, replace
from typing import List, Sequence, Tuple

from niwhopera import Config, Info, Lacpdu, PortConfig, State, System

from .bench import LIMIT, PROMPT, TIMERS, Bench
from .model import Frame
from .partner import TICK
from .pdus import end, six, words

# How far from an LACPDU a system may have told the same, and how long it takes until what the device was before is forgotten.
BEFORE, AFTER = TIMERS + PROMPT + LIMIT, TIMERS + TICK
FORGETS = 5.0
# When the first tick of each system is, after the first frame, and how long a tick of it takes: 3 s are 2.85 to 3.15 s.
PHASES, TICKS = (0.0, 0.03, 0.06), (0.95 * TICK, TICK, 1.05 * TICK)


@dataclass(frozen=True)
class Difference:
    """An LACPDU that the system would not have sent, and what it would have."""

    frame: Frame
    expected: Lacpdu
    what: str


@dataclass(frozen=True)
class Shadow:
    """How many LACPDUs were compared, and those that differ."""

    compared: int
    differences: tuple[Difference, ...]

    @property
    def text(self) -> str:
        """The outcome as a line."""
        if not self.compared:
            return f"nothing was compared: LACPDUs of the first {FORGETS:g} s never are"
        alike = f"{self.compared - len(self.differences)} of {self.compared} LACPDUs"
        return f"{alike} are such as the engine would have sent in the device's place, up to {BEFORE:.2f} s late, so it clears no fail of time"


History = List[Tuple[float, Lacpdu]]


def system_of(pdus: dict[int, Lacpdu]) -> System:
    """A system with the parameters of the device, as its LACPDUs on each link tell them."""
    actors = {link: it.actor for link, it in pdus.items()}
    ports = []
    for link, it in sorted(actors.items()):
        bits = (bool(it.state & bit) for bit in (State.AGGREGATION, State.ACTIVITY, State.TIMEOUT))
        ports.append(PortConfig(link, it.key, it.system.mac, it.port.priority, *bits))
    one = actors[min(actors)]
    return System(Config(one.system, tuple(ports), aggregators=tuple(it.key for it in ports)))


class Replay:
    """The frames of a run, once more, for a system in the device's place. Its port numbers are those of the links: what an LACPDU names is
    changed on its way."""

    def __init__(self, b: Bench, pdus: dict[int, Lacpdu]) -> None:
        self.frames, self.events, self.pdus = b.frames, list(b.events), pdus
        self.system = system_of(pdus)
        self.links = sorted(pdus)
        self.history: dict[int, History] = {link: [] for link in self.links}
        self.on = True
        for link in self.links:
            self.system.set_link(link, True)

    def run(self, phase: float, tick: float) -> dict[int, History]:
        """What the system would have told on each link, and since when."""
        with self.system as system:
            due = (self.frames[0].time if self.frames else 0.0) + phase
            for frame in self.frames:
                while due <= frame.time:
                    self.happen(due)
                    system.tick()
                    self.note(due)
                    due += tick
                if frame.out and frame.link in self.pdus and self.on:
                    system.receive(frame.link, self.inside(frame))
                    self.note(frame.time)
        return self.history

    def happen(self, now: float) -> None:
        """What was done to the device until now."""
        while self.events and self.events[0][0] <= now:
            _, words = self.events.pop(0)
            if words[0] in ("up", "down") and int(words[1]) in self.pdus:
                self.system.set_link(int(words[1]), words[0] == "up")
            elif words[0] == "start":
                self.system.restart()
                for link in self.links:
                    self.system.set_link(link, True)
            self.on = words[0] != "stop" and (self.on or words[0] == "start")

    def inside(self, frame: Frame) -> bytes:
        """A frame whose partner names the port by the number of its link, where it names the device's."""
        number = self.pdus[frame.link].actor.port.number
        at = slice(14 + 36, 14 + 38)
        if frame.lacpdu and frame.octets[at] == number.to_bytes(2, "big"):
            return frame.octets[: at.start] + frame.link.to_bytes(2, "big") + frame.octets[at.stop :]
        return frame.octets

    def note(self, now: float) -> None:
        """Keeps what each port would tell, where that changed."""
        for link in self.links:
            while self.system.transmit(link):
                pass
            own = self.pdus[link].actor
            told = Lacpdu(Info(own.system, own.key, own.port, self.system.state(link)), self.system.partner(link))
            if not self.history[link] or self.history[link][-1][1] != told:
                self.history[link].append((now, told))


def state(info: Info) -> str:
    """A state octet in words."""
    return f"{int(info.state):02x} {words(info.state)}"


def alike(told: Lacpdu, expected: Lacpdu) -> str:
    """What an LACPDU tells otherwise than expected; nothing where it is the same. The partner on defaults is the device's own."""
    if told.actor.state != expected.actor.state:
        return f"own state {state(told.actor)}; expected {state(expected.actor)}"
    if told.actor.state & State.DEFAULTED:
        return ""
    if six(told.partner) != six(expected.partner):
        return f"partner {end(told.partner)}; expected {end(expected.partner)}"
    if told.partner.state != expected.partner.state:
        return f"partner's state {state(told.partner)}; expected {state(expected.partner)}"
    return ""


def near(history: History, when: float) -> Sequence[Lacpdu]:
    """What was told at some time near a moment."""
    first = max(0, bisect_left(history, (when - BEFORE,)) - 1)
    return [told for since, told in history[first:] if since <= when + AFTER]


def compare(b: Bench) -> Shadow:
    """Predicts each LACPDU of a run."""
    last = {link: frame.lacpdu for link, it in b.links.items() if (frame := it.frame) and frame.lacpdu}
    if not last:
        return Shadow(0, ())
    histories = [Replay(b, last).run(phase, tick) for phase in PHASES for tick in TICKS]
    compared, differences = 0, []
    for frame in b.frames:
        if frame.out or not frame.lacpdu or frame.link not in last or frame.time < FORGETS:
            continue
        told = replace(frame.lacpdu, max_delay=0)
        expected = [it for history in histories for it in near(history[frame.link], frame.time)]
        wrong = [alike(told, it) for it in expected]
        compared += 1
        if wrong and "" not in wrong:
            differences.append(Difference(frame, expected[-1], wrong[-1]))
    return Shadow(compared, tuple(differences))
