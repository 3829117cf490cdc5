"""Churn detection and the counters of a port: worked values of IEEE 802.1AX-2014, 6.4.17 and 7.3.3."""

from __future__ import annotations

import pytest
from niwhopera import Churn, ChurnMachine, ChurnState, Counters, PortCounts, Received, ReceivedKind, State, WireFault

IN_SYNC = State.ACTIVITY | State.SYNCHRONIZATION
OUT_OF_SYNC = State(0xFF) & ~State.SYNCHRONIZATION
HEADER = bytes.fromhex("0180c2000002 020000000009 8809")


def test_an_end_that_is_out_of_sync_for_600_ticks_churns() -> None:
    churn = Churn()
    churn.tick(False, IN_SYNC, OUT_OF_SYNC)
    assert churn.actor == churn.partner == ChurnMachine(ChurnState.MONITOR, 0, 0, 0)
    for _ in range(599):
        churn.tick(True, IN_SYNC, OUT_OF_SYNC)
    assert churn.actor == ChurnMachine(ChurnState.NO_CHURN, 0, 0, 1)
    assert churn.partner == ChurnMachine(ChurnState.MONITOR, 599, 0, 0)
    churn.tick(True, IN_SYNC, OUT_OF_SYNC)
    assert churn.partner == ChurnMachine(ChurnState.CHURN, 0, 1, 0)
    churn.tick(True, OUT_OF_SYNC, IN_SYNC)
    assert churn.actor == ChurnMachine(ChurnState.MONITOR, 1, 0, 1)
    assert churn.partner == ChurnMachine(ChurnState.NO_CHURN, 0, 1, 1)
    churn.tick(False, IN_SYNC, IN_SYNC)
    assert churn.actor == ChurnMachine(ChurnState.MONITOR, 0, 0, 1) and churn.partner == ChurnMachine(ChurnState.MONITOR, 0, 1, 1)


IGNORED = Received(ReceivedKind.IGNORED, fault=WireFault.OTHER_SUBTYPE)


@pytest.mark.parametrize(
    "subtype, octets, answer, counted",
    [
        (1, 124, Received(ReceivedKind.TOOK_LACPDU), PortCounts(lacpdus_received=1)),
        (2, 124, Received(ReceivedKind.RESPOND, response=b""), PortCounts(markers_received=1)),
        (2, 124, Received(ReceivedKind.RELEASED, released=3), PortCounts(marker_responses_received=1)),
        (3, 60, IGNORED, PortCounts(unknown_received=1)),
        (10, 124, IGNORED, PortCounts(unknown_received=1)),
        (0, 124, IGNORED, PortCounts(illegal_received=1)),
        (11, 124, IGNORED, PortCounts(illegal_received=1)),
        (1, 60, Received(ReceivedKind.IGNORED, fault=WireFault.SHORT), PortCounts(illegal_received=1)),
        (2, 124, Received(ReceivedKind.IGNORED, fault=WireFault.MARKER_TLV), PortCounts(illegal_received=1)),
        (3, 14, IGNORED, PortCounts(illegal_received=1)),
        (1, 13, Received(ReceivedKind.DROPPED), PortCounts()),
        (1, 124, Received(ReceivedKind.DISABLED), PortCounts()),
    ],
)
def test_a_frame_that_came_is_counted_once(subtype: int, octets: int, answer: Received, counted: PortCounts) -> None:
    counters = Counters()
    counters.received((HEADER + bytes([subtype]) + bytes(109))[:octets], answer)
    assert counters.counts() == counted


@pytest.mark.parametrize("answer", [Received(ReceivedKind.DROPPED), Received(ReceivedKind.HANDED_UP, aggregator=1)])
def test_a_frame_to_the_slow_protocols_of_another_type_is_unknown(answer: Received) -> None:
    counters = Counters()
    counters.received(HEADER[:12] + bytes.fromhex("0800"), answer)
    counters.received(HEADER[:5] + b"\3" + HEADER[6:12] + bytes.fromhex("0800"), answer)
    assert counters.counts() == PortCounts(unknown_received=1)


def test_a_frame_that_was_sent_is_counted_once() -> None:
    counters = Counters()
    for payload in (b"\1\1\1", b"\2\1\1", b"\2\1\2", b"\3\1\1", b"\2\1\3", b"\2\1"):
        counters.sent(HEADER + payload)
    counters.sent(HEADER[:12] + bytes.fromhex("0800 010101"))
    assert counters.counts() == PortCounts(lacpdus_sent=1, markers_sent=1, marker_responses_sent=1)
