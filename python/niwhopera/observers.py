"""Churn detection and the counters of a port, beside a system: values of the host's, over the C library."""

from __future__ import annotations

import ctypes
from dataclasses import dataclass

from . import _numbers as c
from ._library import functions
from ._numbers import ChurnState, State
from .errors import check
from .values import Received


@dataclass(frozen=True)
class ChurnMachine:
    """A churn detection machine (6.4.17): its state, for how many ticks its timer has run, and how often it came to CHURN, and to
    NO_CHURN, up to 2^64 - 1 each."""

    state: ChurnState
    waited: int
    churns: int
    synchronizations: int


class Churn:
    """Churn detection of a port (6.4.17), from BEGIN on: whether it is up, and an end of it has not been synchronized for 60 s."""

    def __init__(self) -> None:
        self._c = functions()
        self._churn = c.NiwChurn()

    def tick(self, up: bool, actor: State, partner: State) -> None:
        """A tick of 100 ms, after `System.tick`: whether the link is up, and the state octets of its own side and of its recorded partner,
        as a `View` has them. At the 600th tick in a row that finds the link up and an end out of sync, the state of this end becomes
        CHURN."""
        check(self._c.churn_tick(ctypes.byref(self._churn), up, int(actor), int(partner)))

    @property
    def actor(self) -> ChurnMachine:
        """The machine of the own side."""
        return _machine(self._churn.actor)

    @property
    def partner(self) -> ChurnMachine:
        """The machine of the partner."""
        return _machine(self._churn.partner)


@dataclass(frozen=True)
class PortCounts:
    """The frames of the slow protocols on a port, by kind (7.3.3), up to 2^64 - 1 each. Unknown: of subtype 3 to 10, or to
    01-80-C2-00-00-02 and of another EtherType. Illegal: a badly formed PDU, or subtype 0 or 11 to 255."""

    lacpdus_received: int = 0
    markers_received: int = 0
    marker_responses_received: int = 0
    unknown_received: int = 0
    illegal_received: int = 0
    lacpdus_sent: int = 0
    markers_sent: int = 0
    marker_responses_sent: int = 0


class Counters:
    """The counters of a port (7.3.3), at first all 0. A frame that came or went adds one to one of them, or to none."""

    def __init__(self) -> None:
        self._c = functions()
        self._counters = c.NiwCounters()

    def received(self, frame: bytes, answer: Received) -> None:
        """Counts a frame that came, by what `System.receive` answered. Data, and a frame on a link that is down, count nothing."""
        check(self._c.count_received(ctypes.byref(self._counters), frame, len(frame), int(answer.kind)))

    def sent(self, frame: bytes) -> None:
        """Counts a frame that was sent: one of `System.transmit` or `System.probe`, or a response of `System.receive`."""
        check(self._c.count_sent(ctypes.byref(self._counters), frame, len(frame)))

    def counts(self) -> PortCounts:
        """What was counted."""
        return PortCounts(*(int(getattr(self._counters, name)) for name, *_ in c.NiwCounters._fields_))


def _machine(it: c.NiwChurnMachine) -> ChurnMachine:
    return ChurnMachine(ChurnState(it.state), it.waited, it.churns, it.synchronizations)
