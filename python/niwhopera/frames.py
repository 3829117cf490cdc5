"""Frames that wait, as where their conversation is held: a bounded queue for each conversation, over the C library."""

from __future__ import annotations

import ctypes
from dataclasses import dataclass
from typing import Generic, Iterable, Optional, TypeVar

from . import _numbers as c
from ._handle import Handle
from .errors import check
from .values import FrameCounts, within

Frame = TypeVar("Frame")
# The highest value of a size_t.
MOST = ctypes.c_size_t(-1).value


@dataclass(frozen=True)
class Released(Generic[Frame]):
    """A frame that leaves, with its conversation and the port to send it on."""

    conversation: int
    port: int
    frame: Frame


class HeldFrames(Handle, Generic[Frame]):
    """The frames that a host holds back, by their conversations, which are numbered from 0. A frame is what the host puts: its octets,
    or any other value.

    `conversations` is 0 to 65535. At most `in_all` frames wait in all, and at most `each` of each conversation. `close`, or the end of a
    `with`, gives the memory back, and the frames that wait are gone; what is called then raises `Closed`. Only the thread that made it
    calls it; another one gets RuntimeError. A number that has no room in its type of C raises ValueError.
    """

    def __init__(self, conversations: int, in_all: int, each: int) -> None:
        """Makes empty queues. All memory of the library is taken here; raises `NoMemory`."""
        super().__init__(c.NiwQueue())
        self._frames: dict[int, Frame] = {}
        self._put = 0
        count = within("the count of conversations", conversations, 0xFFFF)
        check(self._c.queue_new(self._at(), count, within("in_all", in_all, MOST), within("each", each, MOST)))

    def put(self, conversation: int, frame: Frame) -> None:
        """Puts a frame behind those that wait in its conversation. One that is refused is counted: `Full`, or NOT_ASSIGNED where there is
        no such conversation."""
        check(self._c.queue_put(self._at(), _conversation(conversation), self._put))
        self._frames[self._put] = frame
        self._put += 1

    def next(self, conversation: int) -> Optional[Frame]:
        """Takes the oldest frame of a conversation out, to be sent; None if none waits."""
        return self._taken(self._c.queue_next(self._at(), _conversation(conversation)))

    def drop(self, conversation: int) -> Optional[Frame]:
        """Takes the oldest frame of a conversation out, not to be sent, and counts it; None if none waits."""
        return self._taken(self._c.queue_drop(self._at(), _conversation(conversation)))

    def oldest(self, conversation: int) -> Optional[Frame]:
        """The oldest frame of a conversation, which stays: the one that `next` would take out. None if none waits."""
        oldest = self._c.queue_oldest(self._at(), _conversation(conversation))
        check(oldest.status)
        return self._frames[oldest.frame] if oldest.is_ else None

    def next_released(self, ports: Iterable[Optional[int]]) -> Optional[Released[Frame]]:
        """Takes out the oldest frame of the first conversation that is on a port and has one waiting; None if there is no such one.
        `ports` has for each conversation, by its number, the port that it is on, or None, as `System.conversation_ports` answers.
        Raises NOT_ASSIGNED where there are more than 65536."""
        numbers = [within("the number of the port", port or 0, 0xFFFF) for port in ports]
        left = self._c.queue_next_released(self._at(), (ctypes.c_uint16 * len(numbers))(*numbers), len(numbers))
        check(left.status)
        return Released(left.conversation, left.port, self._frames.pop(left.frame)) if left.is_ else None

    def waiting(self, conversation: int) -> int:
        """How many frames of a conversation wait; 0 if there is no such conversation."""
        it = self._c.queue_waiting(self._at(), _conversation(conversation))
        check(it.status)
        return it.number

    def counts(self) -> FrameCounts:
        """How many frames wait, were dropped and were refused."""
        it = self._c.queue_counts(self._at())
        check(it.status)
        return FrameCounts(it.waiting, it.dropped, it.refused)

    def _taken(self, left: c.NiwQueued) -> Optional[Frame]:
        check(left.status)
        return self._frames.pop(left.frame) if left.is_ else None

    def _free(self) -> int:
        self._frames.clear()
        return self._c.queue_free(self._at())


def _conversation(number: int) -> int:
    return within("the number of the conversation", number, 0xFFFF)
