"""What times have no part in a verdict: the phase of the device's period, pauses of the bench, a restart, and when data begins."""

from __future__ import annotations

from dataclasses import replace
from typing import Iterable, Type

import pytest
from conform_device import BY_NAME, OWN, SLOW, Device, WaitsThree, World, beside, play
from conform_faults import SYNC, KeyUnchecked, NoWait, set_bits
from conform_machines import ToldWithThePeriod

from lagconform import causes
from lagconform.bench import apart
from lagconform.groups import TESTS
from lagconform.model import FAIL, INCONCLUSIVE, PASS, Result
from lagconform.runner import run_one
from niwhopera import MuxState

SELECTS_ANEW = [f"RX-12{it}" for it in "abcdefgh"]


@pytest.mark.parametrize("tenths", range(10))
def test_no_phase_of_its_period_makes_a_device_prompt(tenths: int) -> None:
    with beside(World(ToldWithThePeriod())) as b:
        run_one(b, BY_NAME["RX-01"])
        b.wait(3 + tenths / 10)
        found = run_one(b, BY_NAME[SELECTS_ANEW[tenths % len(SELECTS_ANEW)]])
    assert found.verdict == FAIL and "has to be at most 0.65 s" in found.why, found.why


def test_a_whole_run_finds_what_is_not_prompt() -> None:
    found = {it.test.id: it.verdict for it in play(World(ToldWithThePeriod(), 3), TESTS)}
    # In this run its periodic LACPDU comes late in MX-05, too: by itself that test may not see it.
    failed = [name for name, verdict in found.items() if verdict == FAIL]
    assert "MX-05" in failed and [name for name in failed if name != "MX-05"] == ToldWithThePeriod.finds.split()


def stand_still(world: World, seconds: float) -> None:
    """Time passes for the device, and nobody runs the links."""
    limit = world.clock + seconds
    came = []
    while world.clock < limit:
        came += world.wait(limit - world.clock)
    world.came.extend(came)


@pytest.mark.parametrize("seconds", [0.0, 0.6, 0.9, 1.2, 2.3])
@pytest.mark.parametrize("name", ["VN-01", "VN-11", "VN-14"])
def test_a_pause_between_tests_is_no_fault_of_the_device(name: str, seconds: float) -> None:
    world = World(Device())
    with beside(world) as b:
        run_one(b, BY_NAME["RX-01"])
        b.up()
        b.wait(0.85)
        stand_still(world, seconds)
        found = run_one(b, BY_NAME[name])
    assert found.verdict == PASS and seconds - 0.1 <= found.late <= seconds, (found.why, found.late)


def test_a_fail_behind_a_pause_is_no_verdict() -> None:
    world = World(KeyUnchecked())
    with beside(world) as b:
        run_one(b, BY_NAME["RX-01"])
        stand_still(world, 0.6)
        found = [run_one(b, BY_NAME[it]) for it in ("RX-07c", "RX-07c", "FM-01")]
        stand_still(world, 0.9)
        whole = run_one(b, BY_NAME["IV-01"])
    assert [it.verdict for it in found] == [INCONCLUSIVE, FAIL, PASS] and "the bench was 0.5" in found[0].why, found[0].why
    assert whole.late == found[0].late and found[1].late == 0


class SendsAroundItsStart(Device):
    """Sends two LACPDUs as it ends, and two as it begins."""

    def lacpdu(self, port: int) -> bytes:
        """An LACPDU of a port that has no partner."""
        own = self.own(port)
        payload = b"\1\1\1\x14" + own[:14] + b"\x47" + bytes(3) + b"\2\x14" + bytes(18) + b"\3\x10" + bytes(66)
        return b"\x01\x80\xc2\0\0\2" + bytes([2, 0, 0, 0, 0xBB, port]) + SLOW + payload

    def both(self) -> None:
        for _ in range(2):
            self.send(1, self.lacpdu(1))

    def start(self) -> None:
        super().start()
        if self.now:
            self.both()

    def stop(self) -> None:
        if self.system and self.now:
            self.both()
        super().stop()


def test_the_count_of_three_begins_anew_where_the_device_does() -> None:
    found = play(World(SendsAroundItsStart()), [BY_NAME[it] for it in ("RX-15", "IV-05")])
    assert [it.verdict for it in found] == [PASS, PASS], [it.why for it in found]


class LateData(Device):
    """Its client takes 3 s until it sends."""

    wants = 0.0

    def data(self, on: bool) -> None:
        self.wants = self.now + 3 if on else 0.0
        super().data(False)

    def ticked(self) -> None:
        if self.wants and self.now >= self.wants:
            super().data(True)


def test_data_is_waited_for() -> None:
    found = play(World(LateData()), [BY_NAME[it] for it in ("SL-01", "SL-03", "SL-05", "SL-17")])
    assert [it.verdict for it in found] == [PASS] * 4, [it.why for it in found]
    assert "flows of one client: 0 on link 1" not in found[0].notes[0]


class WaitsOne(Device):
    """Its wait_while is 1 s: while a port waits, time goes twice as fast."""

    def ticked(self) -> None:
        if any(self.on.mux_state(it) is MuxState.WAITING for it in self.links):
            self.on.tick()


class AttachesAlone(ToldWithThePeriod):
    """Its port 1 does not wait for the others."""

    def says(self, port: int, frame: bytes) -> Iterable[bytes]:
        for it in super().says(port, frame):
            alone = port == 1 and self.on.mux_state(port) is MuxState.WAITING and not self.on.wait_while(port)
            yield set_bits(it, 18, SYNC, True) if alone else it


@pytest.mark.parametrize("kind, roots", [(AttachesAlone, ["RX-12b", "MX-06"]), (NoWait, ["RX-12b"])])
def test_ports_that_do_not_wait_for_each_other_are_a_fault_of_their_own(kind: Type[Device], roots: list[str]) -> None:
    found = play(World(kind()), [BY_NAME[it] for it in ("RX-12b", "MX-06")])
    assert [it.verdict for it in found] == [FAIL, FAIL] and [it.name for it in causes.grouped(found)] == roots, [it.why for it in found]


WAITING = "RX-06", "RX-12a", "RX-12b", "RX-12c", "RX-12d", "RX-12e", "RX-12f", "MX-01", "MX-06", "MX-08"


@pytest.mark.parametrize("kind, root", [(WaitsThree, "MX-01"), (WaitsOne, "MX-01"), (NoWait, "RX-12b")])
def test_a_wrong_wait_while_is_told_as_such(kind: Type[Device], root: str) -> None:
    found = play(World(kind()), [BY_NAME[it] for it in WAITING])
    failed = {it.test.id for it in found if it.verdict == FAIL}
    assert {"RX-06", "RX-12b", "RX-12c", "MX-01", "MX-08"} <= failed, failed
    assert [(it.name, {one.test.id for one in it.explains}) for it in causes.grouped(found)] == [(root, failed - {root})]


class FallsSilent(Device):
    """Says nothing more from 1.2 s behind a frame of subtype 0 on."""

    since = 1e9

    def took(self, port: int, frame: bytes) -> None:
        self.since = min(self.since, self.now if frame[12:15] == SLOW + b"\0" else 1e9)

    def says(self, port: int, frame: bytes) -> Iterable[bytes]:
        if self.now < self.since + 1.2:
            yield frame


def test_a_device_that_goes_silent_in_a_storm_fails_by_a_listed_rule() -> None:
    found = play(World(FallsSilent()), [BY_NAME["RB-03"]])[0]
    packet = found.claims[-1].packets[0]
    assert found.verdict == FAIL and found.why.startswith(f"its last LACPDU, packet {packet}, is 3.04 s old;") and found.why.endswith("s old; has to be less than 2.15 s (6.4.13)")
    assert "an LACPDU comes within 2 s" in found.test.rule and found.claims[-1].causes == ("PT-01", "PT-03")


class SilentToMany(Device):
    """Says nothing more behind an LACPDU of port 103."""

    is_mute = False

    def took(self, port: int, frame: bytes) -> None:
        self.is_mute |= frame[30:32] == (103).to_bytes(2, "big")

    def may_send(self) -> bool:
        return not self.is_mute


def test_a_device_that_says_nothing_is_told_so() -> None:
    found = {it.test.id: it.why for it in play(World(SilentToMany()), [BY_NAME[it] for it in ("FM-01", "TX-05")])}
    assert found["TX-05"].startswith("no LACPDU came since; the last one named port 1; has to be 109"), found


class SendsMarkers(Device):
    """Sends a marker of its own twice a second, as one that moves conversations."""

    most_responses = 8

    def ticked(self) -> None:
        if int(self.now * 10) % 5 == 0:
            payload = b"\2\1\1\x10" + bytes(2) + OWN.mac + int(self.now * 10).to_bytes(4, "big") + bytes(94)
            self.send(1, b"\x01\x80\xc2\0\0\2" + bytes([2, 0, 0, 0, 0xBB, 1]) + SLOW + payload)


def test_markers_of_the_device_are_no_answers() -> None:
    tests = [it for it in TESTS if it.group == "MK"]
    found = play(World(SendsMarkers()), tests)
    assert not [f"{it.test.id} {it.verdict}: {it.why}" for it in found if it.verdict != PASS]


def test_no_fail_prints_a_number_that_keeps_the_rule() -> None:
    assert [apart(2.9005, 1.6, 2.9), apart(2.904, 2.9), apart(2.91, 2.9), apart(0.64, 0.65), apart(2.877, 2.875)] == [3, 3, 2, 2, 3]
    with beside(World(Device())) as b:
        b.result, sent = Result(BY_NAME["MX-01"]), b.frame()
        for took in 2.75, 2.9005, 2.91, 1.5999:
            b.timed("it is there", sent, replace(sent, time=sent.time + took), 2, 2, timer=True)
        limits = ("1.60 to 2.90", "1.600 to 2.900", "1.60 to 2.90", "1.6000 to 2.9000")
        texts = [f"it is there: after {took} s; has to be {it} s" for took, it in zip(("2.75", "2.901", "2.91", "1.5999"), limits)]
        assert [it.text for it in b.result.claims] == texts
