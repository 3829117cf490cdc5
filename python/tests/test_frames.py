"""Frames that wait, and the next move: worked values."""

from __future__ import annotations

import ctypes
from typing import Iterator, Optional

import pytest
from niwhopera._library import functions
from niwhopera._numbers import NiwQueue
from niwhopera import MOST_CONVERSATIONS, Carried, FrameCounts, Full, HeldFrames, LagError, Move, NoMemory, Released, Status, next_move


def test_frames_leave_in_the_order_in_which_they_came() -> None:
    """Three frames may wait, two of each conversation. The first conversation with a port and a frame goes first, its oldest first."""
    none: list[Optional[int]] = [None, None, None]
    with HeldFrames[bytes](3, 3, 2) as held:
        held.put(1, b"one")
        held.put(1, b"two")
        held.put(2, b"three")
        assert held.counts() == FrameCounts(waiting=3, dropped=0, refused=0)
        assert held.next_released(none) is None and held.next_released([]) is None
        assert held.next_released([1, 2, 1]) == Released(1, 2, b"one")
        assert held.next_released([None, 2, None]) == Released(1, 2, b"two")
        assert held.next_released([None, 2, None]) is None
        held.put(2, b"four")
        assert held.drop(2) == b"three" and held.next(2) == b"four" and held.next(2) is None
        assert held.counts() == FrameCounts(waiting=0, dropped=1, refused=0)


@pytest.fixture
def held() -> Iterator[HeldFrames[str]]:
    """As many frames as may wait, and of conversation 1 as many as may."""
    with HeldFrames[str](3, 3, 2) as made:
        for conversation, frame in ((1, "a"), (1, "b"), (2, "c")):
            made.put(conversation, frame)
        yield made


def test_the_oldest_of_those_that_wait_is_told_and_stays(held: HeldFrames[str]) -> None:
    for _ in range(2):
        assert [held.oldest(conversation) for conversation in (0, 1, 2, 9)] == [None, "a", "c", None]
        assert [held.waiting(conversation) for conversation in (0, 1, 2, 9)] == [0, 2, 1, 0]
    assert held.next(1) == "a" and held.oldest(1) == "b" and held.waiting(1) == 1
    assert held.drop(1) == "b" and held.oldest(1) is None and held.waiting(1) == 0
    assert held.counts() == FrameCounts(waiting=1, dropped=1, refused=0)


def test_a_frame_that_is_refused_is_counted_and_not_put(held: HeldFrames[str]) -> None:
    for conversation, error, status in ((1, Full, Status.CONVERSATION_FULL), (0, Full, Status.ALL_FULL), (3, LagError, Status.NOT_ASSIGNED)):
        with pytest.raises(error) as refused:
            held.put(conversation, "d")
        assert refused.value.status is status
    assert held.counts() == FrameCounts(waiting=3, dropped=0, refused=3)
    assert [held.next(1), held.next(1), held.next(1), held.next(2), held.next(0), held.next(9)] == ["a", "b", None, "c", None, None]


def test_a_list_of_too_many_conversations_is_refused() -> None:
    with HeldFrames[int](1, 1, 1) as held:
        held.put(0, 7)
        with pytest.raises(LagError) as told:
            held.next_released([1] * (MOST_CONVERSATIONS + 1))
        assert told.value.status is Status.NOT_ASSIGNED
        assert held.next_released([1] * MOST_CONVERSATIONS) == Released(0, 1, 7)


def test_a_number_without_room_is_refused_by_python() -> None:
    for numbers in ((65536, 1, 1), (-1, 1, 1), (1, -1, 1), (1, 1, ctypes.c_size_t(-1).value + 1)):
        with pytest.raises(ValueError):
            HeldFrames[int](*numbers)
    with HeldFrames[int](1, 1, 1) as held:
        of_one = (held.next, held.drop, held.oldest, held.waiting, lambda number: held.put(number, 0), lambda number: held.next_released([number]))
        for call in (*of_one, lambda number: next_move([number], []), lambda _: Carried(1, 2**32)):
            with pytest.raises(ValueError):
                call(65536)


def test_more_memory_than_there_is_is_refused() -> None:
    most = ctypes.c_size_t(-1).value
    with pytest.raises(NoMemory):
        HeldFrames[int](65535, most, most)
    with HeldFrames[int](65535, 1, most) as held:
        held.put(65534, 7)
        assert held.next(65534) == 7


def test_a_frame_is_told_by_64_bits() -> None:
    library, queue, frame = functions(), NiwQueue(), 2**64 - 1
    assert library.queue_new(queue, 1, 1, 1) == library.queue_put(queue, 0, frame) == 0
    assert library.queue_oldest(queue, 0).frame == library.queue_next(queue, 0).frame == frame
    assert library.queue_free(queue) == 0


def test_the_next_move_makes_the_loads_more_alike() -> None:
    """Port 1 has the load 11 and port 2 the load 3: of conversations 0 and 1 only the load of the first is less than the difference."""
    assert next_move([1, 2], [Carried(1, 2), Carried(1, 9), Carried(2, 3)]) == Move(conversation=0, port=2)
    assert next_move([1, 2], [Carried(1, 5), Carried(2, 1), Carried(None, 9)]) is None
    assert next_move([], [Carried(1, 2)]) is None and next_move([1, 2], []) is None
    assert next_move([1, 2], [Carried(None, 0)] * MOST_CONVERSATIONS) is None
    with pytest.raises(LagError) as told:
        next_move([1, 2], [Carried(None, 0)] * (MOST_CONVERSATIONS + 1))
    assert told.value.status is Status.NOT_ASSIGNED
