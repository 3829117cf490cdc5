"""What is no fault of the device gives it no fail: right devices with ways of their own, and links and machines that lose frames."""

from __future__ import annotations

import xml.etree.ElementTree as xml
from typing import Iterable, Optional, Sequence, Type

import pytest
from conform_device import BY_NAME, Device, Drops, Full, HearsAndSays, Says, World, beside, devices, is_lacpdu, put
from conform_faults import KeyUnchecked, LinkUnseen, set_bits

from lagconform import command, junit, options, report
from lagconform.bench import BASE, HOOK_SECONDS
from lagconform.groups import TESTS
from lagconform.memory import Done
from lagconform.model import FAIL, INCONCLUSIVE, PASS, Result
from lagconform.refusals import Refused
from lagconform.runner import NoDevice, meet, run_all, run_one
from lagconform.wires import Answer, Arrival, Gone


def play(kind: Type[Device], *names: str, world: Type[World] = World, flaps: bool = False) -> list[Result]:
    """Runs tests beside a device; a hook is there."""
    wire = world(kind())
    with beside(wire, wire, flaps=flaps) as b:
        return [run_one(b, BY_NAME[it]) for it in names]


BEFORE = BASE[:2] + b"\0\0\x63" + BASE[5:]


def of_others(frame: bytes) -> list[bytes]:
    """OAM and ESMC, from the address of a frame."""
    return [frame[:14] + it + bytes(45) for it in (b"\3", b"\x0a")]


NoIndividual, Neighbours, Others, BehindAnotherRun = devices(
    Device, "says",
    ("NoIndividual", "Attaches no individual partner.", "",
     lambda self, port, frame: [frame if frame[52] & 4 else set_bits(frame, 18, 0x38, False)]),
    ("Neighbours", "Sends OAM and ESMC, too.", "", lambda self, port, frame: [frame, *of_others(frame)]),
    ("Others", "Sends OAM and ESMC alone.", "", lambda self, port, frame: of_others(frame)),
    ("BehindAnotherRun", "Tells a partner of the run before until it has taken one of this run, which takes a while.", "",
     lambda self, port, frame: [put(frame, 26, BEFORE) if self.now < 0.45 else frame]),
)  # fmt: skip
(Individual,) = devices(
    HearsAndSays, "heard said",
    ("Individual", "Its ports are individual.", "",
     lambda self, port, frame: set_bits(frame, 38, 4, True), lambda self, port, frame: set_bits(frame, 18, 4, False)),
)  # fmt: skip
(TerminatorMeasured,) = devices(
    Drops, "drops",
    ("TerminatorMeasured", "Validates the length of the Terminator TLV, as 6.4.12 lets it.", "", lambda self, port, frame: frame[14 + 59] != 0),
)  # fmt: skip


@pytest.mark.parametrize("kind, name", [(NoIndividual, "RX-12f"), (NoIndividual, "MX-08"), (Individual, "FM-08"), (Neighbours, "IV-03")])
def test_a_right_device_of_its_own_kind_passes(kind: Type[Device], name: str) -> None:
    found = play(kind, "RX-01", name)[-1]
    assert found.verdict == PASS, found.why


class Administered(Says):
    """Its port priority is another one from each 47th second on, which it tells at once."""

    changed = 0

    def ticked(self) -> None:
        if int(self.now / 47) != self.changed:
            self.changed = int(self.now / 47)
            for port in self.links:
                for octets in self.says(port, self.kept[port]):
                    self.send(port, octets)

    def hears(self, port: int, frame: bytes) -> Iterable[bytes]:
        yield put(frame, 34, b"\x80\0") if is_lacpdu(frame) else frame

    def said(self, port: int, frame: bytes) -> bytes:
        self.kept[port] = frame
        return put(frame, 14, bytes([0x80, self.changed]))


def test_what_tells_a_change_of_the_device_itself_is_no_periodic_lacpdu() -> None:
    found = play(Administered, "RX-01", "PT-07")[-1]
    assert found.verdict == PASS and "left out: " in " ".join(found.notes), found.why


def test_what_a_device_tells_of_the_run_before_is_not_looked_at() -> None:
    with beside(World(Device())) as b:
        octets = next(it.octets for it in b.frames if not it.out)
    with beside(World(BehindAnotherRun()), meets=False) as b:
        b.log(1, 0.0, False, put(octets, 26, BEFORE))
        meet(b)
        found = [run_one(b, BY_NAME[it]) for it in ("FM-01", "IV-04")]
        told = [it.number for it in b.frames if it.lacpdu and it.lacpdu.partner.system.mac == BEFORE]
    assert told[0] == 1 and len(told) > 2
    assert {it.verdict for it in found} == {PASS}, found[-1].why


def test_a_device_may_validate_the_length_of_the_terminator() -> None:
    results = play(TerminatorMeasured, *(it.id for it in TESTS if it.group == "VN"))
    assert {it.test.id: it.verdict for it in results if it.verdict != PASS} == {"VN-05": INCONCLUSIVE}
    assert "6.4.12 lets a device validate that" in next(it.why for it in results if it.test.id == "VN-05")


def test_oam_and_esmc_are_no_faulty_lacpdus() -> None:
    with pytest.raises(NoDevice, match="no LACPDU came in 35 s"):
        play(Others)


class Reflects(Device):
    """A link that is looped back: what the bench sends comes back to it."""

    def take(self, link: int, frame: bytes) -> None:
        self.send(link, frame)

    def tick(self) -> None:
        """Says nothing by itself."""


def test_a_link_that_is_looped_back_is_told() -> None:
    found = play(Reflects, "RX-01")[-1]
    assert found.verdict == INCONCLUSIVE and "our own LACPDUs come back: it is looped back" in found.why, found.why


class Refuses(World):
    """A link that refuses what names another key, but tells it."""

    def send(self, link: int, octets: bytes) -> bool:
        super().send(link, octets)
        return not (is_lacpdu(octets) and octets[14 + 32 : 14 + 34] != b"\0\x17")


@pytest.mark.parametrize("world, why", [(Refuses, "the link refused "), (Full, "it dropped 3 frames")])
def test_a_bench_that_loses_frames_gives_no_fail(world: Type[World], why: str) -> None:
    assert play(KeyUnchecked, "RX-07c")[0].verdict == FAIL
    found = play(KeyUnchecked, "RX-07c", world=world)[0]
    assert found.verdict == INCONCLUSIVE and why in found.why and "Seen: with another key" in found.why, found.why


def test_what_a_flap_refuses_excuses_no_device() -> None:
    class Down(World):
        def flap(self, link: int, up: bool) -> None:
            self.up = up

        def send(self, link: int, octets: bytes) -> bool:
            super().send(link, octets)
            return getattr(self, "up", True)

    assert play(LinkUnseen, "RX-13", world=Down, flaps=True)[0].verdict == FAIL


def test_a_run_ends_where_an_interface_is_gone() -> None:
    class Leaves(World):
        def wait(self, seconds: float) -> list[Arrival]:
            if self.clock > 8:
                raise Gone("the interface link1 is gone")
            return super().wait(seconds)

    results = list[Result]()
    with beside(Leaves(KeyUnchecked())) as b:
        with pytest.raises(Gone, match="link1 is gone"):
            run_all(b, [BY_NAME[it] for it in ("RX-07c", "FM-01", "FM-02", "FM-03", "FM-04")], results.append)
        assert results[-1].verdict == INCONCLUSIVE and results[-1].why == "the interface link1 is gone" and len(results) < 5


class Told(World):
    """Keeps what was asked for, and ends the test in the middle of it."""

    ends_with: BaseException = KeyboardInterrupt()

    def __init__(self, device: Device) -> None:
        super().__init__(device)
        self.done: list[str] = []

    def flap(self, link: int, up: bool) -> None:
        super().flap(link, up)
        self.done.append("up" if up else "down")

    def call(self, words: Sequence[str]) -> Done:
        self.done.append(" ".join(words))
        return super().call(words)

    def wait(self, seconds: float) -> list[Arrival]:
        if getattr(self, "done", []) and len(self.done) == 1:
            raise self.ends_with
        return super().wait(seconds)


@pytest.mark.parametrize("name, flaps, done", [("RX-13", True, "down up"), ("RX-13", False, "down 1 up 1"), ("RX-15", False, "stop start")])
def test_an_end_within_a_test_leaves_the_device_as_it_was(name: str, flaps: bool, done: str) -> None:
    world = Told(Device())
    with beside(world, world, flaps=flaps) as b:
        with pytest.raises(KeyboardInterrupt):
            run_one(b, BY_NAME[name])
        assert " ".join(world.done) == done


class Endless:
    """A hook that does not end."""

    stopped = False

    def call(self, words: Sequence[str]) -> Endless:
        return self

    def answer(self) -> Optional[Answer]:
        return None

    def stop(self) -> None:
        self.stopped = True


def test_a_hook_that_does_not_end_is_refused() -> None:
    hook = Endless()
    with beside(World(Device()), hook, meets=False) as b:
        with pytest.raises(Refused, match="the hook did not end in 40 s: reset"):
            command.prepare_device(options.reader().parse_args(["a", "--hook", "x"]), b)
        assert hook.stopped and HOOK_SECONDS <= b.now() < HOOK_SECONDS + 1


def test_a_closed_bench_closes_its_links() -> None:
    closed: list[bool] = []

    class Closes(World):
        def close(self) -> None:
            closed.append(True)
            super().close()

    play(Device, world=Closes)
    assert closed == [True]


def test_junit_is_xml_whatever_a_text_has() -> None:
    found = Result(BY_NAME["FM-01"], FAIL, why="\x1b[31mred\x00\ufffe\ud800", notes=["\x07"])
    with beside(World(Device()), meets=False) as b:
        text = junit.as_junit(report.Run(b, {"device": "a\x08b"}, {}, [found]))
    assert xml.fromstring(text.encode()).get("name") == "a\ufffdb"
