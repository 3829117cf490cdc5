"""What is refused, as exceptions. A call that raises one has changed nothing."""

from __future__ import annotations

from typing import Optional

from ._numbers import REASON_TEXTS, STATUS_TEXTS, Reason, Status, WireFault


class LagError(Exception):
    """A refusal: `status` is its number, and `text` what it means."""

    def __init__(self, status: Status, text: Optional[str] = None) -> None:
        self.status = status
        self.text = STATUS_TEXTS[status] if text is None else text
        super().__init__(f"{int(status)}: {self.text}")


class Held(LagError):
    """The conversation moves, its port stopped distributing, or it is on a port or held in another aggregator than the one that carries:
    offer the frame, or ask for the move, later."""


class BadConfig(LagError):
    """A configuration is refused: `reason` says why. Of PORT_NUMBER, `place` is the place of the port, from 1."""

    def __init__(self, reason: Reason, place: Optional[int]) -> None:
        self.reason, self.place = reason, place
        text = REASON_TEXTS[reason] + (f" (port {place} of the list)" if place else "")
        super().__init__(Status.BAD_CONFIG, text)


class NotResumed(LagError):
    """A warm start is refused: `port` is the number of the port, and `status` STALE or NOT_DISTRIBUTING."""

    def __init__(self, status: Status, port: int) -> None:
        self.port = port
        why = STATUS_TEXTS[status] if status is Status.STALE else "a saved port does not come to distribute as it was saved"
        super().__init__(status, f"{why} (port {port})")


class BadPayload(LagError):
    """A payload is refused: `fault` says why, `at` is the offset of the octet that is wrong, and `found` what stands there. Of SHORT `at`
    is the length of the payload, and `found` 0."""

    def __init__(self, fault: WireFault, at: int, found: int) -> None:
        self.fault, self.at, self.found = fault, at, found
        stands = f"it has {at} octets" if fault is WireFault.SHORT else f"octet {at} is {found}"
        super().__init__(Status.BAD_PAYLOAD, f"{STATUS_TEXTS[Status.BAD_PAYLOAD]}: {fault.name}, {stands}")


class NoMemory(LagError, MemoryError):
    """Memory was refused. `System` and `HeldFrames` alone raise it, when they are made."""


class Closed(LagError):
    """The system was closed, or the held frames were."""


class Full(LagError):
    """As many frames wait as may, of the conversation or in all: the frame is not put."""


_KINDS = {
    Status.HELD: Held,
    Status.NO_MEMORY: NoMemory,
    Status.NO_SYSTEM: Closed,
    Status.NO_QUEUE: Closed,
    Status.CONVERSATION_FULL: Full,
    Status.ALL_FULL: Full,
}


def check(status: int) -> None:
    """Raises what a status refuses."""
    if status != Status.OK:
        known = Status(status)
        raise _KINDS.get(known, LagError)(known)
