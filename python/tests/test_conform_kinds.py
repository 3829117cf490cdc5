"""Right devices of many kinds fail no test, and no test of theirs is without an answer."""

from __future__ import annotations

from typing import Iterable, Sequence, Type

import pytest
from conform_device import BY_NAME, Device, Individual, LongTimeouts, NoData, Says, World, devices, is_lacpdu, play, put
from conform_faults import set_bits
from niwhopera import State

from lagconform.groups import TESTS
from lagconform.model import FAIL, INCONCLUSIVE, PASS, Result
from lagconform.model import Test as Case


class Passive(Device):
    """Is passive."""

    active = False


class SpokenTo(Passive):
    """Is passive, and behind a link that comes up it says nothing before it is spoken to."""

    def link(self, link: int, up: bool) -> None:
        self.kept[link] = False
        super().link(link, up)

    def hears(self, port: int, frame: bytes) -> Iterable[bytes]:
        self.kept[port] = True
        yield frame

    def says(self, port: int, frame: bytes) -> Iterable[bytes]:
        if self.kept.get(port, True):
            yield frame


class Independent(Device):
    """Has independent control: it distributes when the partner collects, and tells each step."""

    def hears(self, port: int, frame: bytes) -> Iterable[bytes]:
        if not is_lacpdu(frame):
            yield frame
            return
        before, self.kept[port] = self.kept.get(port, 0), frame[32] & 0x10
        changed = before != self.kept[port] and self.is_on(port, State.COLLECTING)
        yield put(frame, 38, bytes([frame[52] ^ 2])) if changed else frame  # asks for an LACPDU

    def says(self, port: int, frame: bytes) -> Iterable[bytes]:
        yield frame if self.kept.get(port) else set_bits(frame, 18, 0x20, False)


class AtTicks(Device):
    """Sends what is due each 100 ms."""

    sends = False

    def ticked(self) -> None:
        self.sends = True

    def may_send(self) -> bool:
        sends, self.sends = self.sends, False
        return sends


def from_one(frame: bytes) -> bytes:
    """A frame from the address of the first link."""
    return frame[:6] + bytes([2, 0, 0, 0, 0xBB, 1]) + frame[12:]


VERSION_2 = b"\4\6\0\x80\xc2\0" + b"\5\x14\0\1" + b"\x5a" * 16 + b"\6\3\0" + bytes(2)  # the TLVs of that version
KINDS = [
    LongTimeouts, Passive, SpokenTo, Individual, Independent, AtTicks,
    *devices(Device, "active short", ("PassiveOfLongTimeouts", "Is passive, and asks for long timeouts.", "", False, False)),
    *devices(Device, "tick_seconds", ("LongTicks", "Its second is 0.2 s long.", "", 0.106)),
    *devices(Device, "hears", ("Doubled", "Gets each frame twice, from a hub.", "", lambda self, port, frame: [frame, frame])),
    *devices(Says, "said", ("SecondVersion", "Sends LACPDUs of version 2.", "", lambda self, port, frame: put(put(frame, 1, b"\2"), 58, VERSION_2))),
    *devices(
        Says, "said responds",
        ("OneSource", "Both links send from one address.", "",
         lambda self, port, frame: from_one(frame), lambda self, port, marker, response: [(port, from_one(response))]),
    ),
]  # fmt: skip


def found_by(kind: Type[Device], tests: Sequence[Case], phase: float = 0.037, links: int = 2) -> list[Result]:
    """What tests find beside a device of a kind, whose clock has a phase."""
    world = World(kind(), links)
    world.due = phase
    return play(world, tests)


@pytest.mark.parametrize("kind", KINDS, ids=[it.__name__ for it in KINDS])
def test_a_right_device_of_another_kind_fails_nothing(kind: Type[Device]) -> None:
    results = found_by(kind, [it for it in TESTS if it.id != "PT-07"], links=3)
    assert not [f"{it.test.id} {it.verdict}: {it.why}" for it in results if it.verdict in (FAIL, INCONCLUSIVE)]


@pytest.mark.parametrize("phase", [0.001, 0.02, 0.06, 0.099])
def test_the_phase_of_the_clock_has_no_part(phase: float) -> None:
    for kind in Device, Independent:
        results = found_by(kind, [it for it in TESTS if it.group in ("MX", "TX") and not it.is_long], phase)
        assert not [f"{it.test.id} {it.verdict}: {it.why}" for it in results if it.verdict in (FAIL, INCONCLUSIVE)]


class Bridge(NoData):
    """A bridge without a hook for data: what goes to everyone comes out of each other aggregator."""

    def aggregator(self, port: int) -> object:
        """The aggregator of a port that carries."""
        return self.on.choice(port) if self.on.distributes(port) else None

    def took(self, port: int, frame: bytes) -> None:
        if frame[:6] == b"\xff" * 6 and self.aggregator(port):
            for other in (1, 2):
                if self.aggregator(other) and self.aggregator(other) != self.aggregator(port):
                    self.send(other, frame)


class JoinsKeys(Bridge):
    """Takes two keys of a partner for one aggregator."""

    def aggregator(self, port: int) -> object:
        found = super().aggregator(port)
        return (self.on.partner(port).system, self.on.partner(port).state & 4) if found else None


class NeverJoins(Bridge):
    """Has an aggregator of its own for each link."""

    def aggregator(self, port: int) -> object:
        return port if super().aggregator(port) else None


SELECTION = ("SL-01", "SL-03", "SL-04", "SL-05", "SL-06", "SL-07", "SL-13")


@pytest.mark.parametrize(
    "kind, fails, open_ones", [(Bridge, [], []), (JoinsKeys, ["SL-04", "SL-06", "SL-07", "SL-13"], []), (NeverJoins, ["SL-01"], [])]
)
def test_broadcasts_tell_aggregators_apart(kind: Type[Device], fails: list[str], open_ones: list[str]) -> None:
    results = found_by(kind, [it for it in TESTS if it.id in SELECTION])
    assert [it.test.id for it in results if it.verdict == FAIL] == fails, [f"{it.test.id} {it.verdict} {it.why}" for it in results]
    assert [it.test.id for it in results if it.verdict == INCONCLUSIVE] == open_ones


def test_where_a_device_is_known_to_forward_broadcasts_two_links_are_seen_to_aggregate() -> None:
    tests = [BY_NAME["SL-03"], BY_NAME["SL-01"]]
    assert [it.verdict for it in found_by(Bridge, tests)] == [PASS, PASS]


def test_what_forwards_nothing_has_no_answer() -> None:
    found = {it.test.id: it for it in found_by(NoData, [it for it in TESTS if it.id in ("SL-01", "SL-03")])}
    assert found["SL-01"].verdict == INCONCLUSIVE and "one aggregator, or two of a device that forwards none. Data of its client would show it" in found["SL-01"].why
    assert found["SL-03"].verdict == INCONCLUSIVE and "of 20 broadcasts into link 1, 0 come out of link 2: one aggregator, or a device that forwards none" in found["SL-03"].why
