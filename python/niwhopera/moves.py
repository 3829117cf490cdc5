"""The spread of the load over ports, for which no system is wanted."""

from __future__ import annotations

import ctypes
from typing import Iterable, Optional

from . import _numbers as c
from ._library import functions
from .errors import check
from .values import Carried, Move, within


def next_move(ports: Iterable[int], carried: Iterable[Carried]) -> Optional[Move]:
    """The next move that makes the loads of these ports more alike: from a port with the most load to one with the least, of a
    conversation whose load is less than the difference. None if there is no such move. Each conversation stands at its number in
    `carried`; raises NOT_ASSIGNED where there are more than 65536."""
    numbers, rows = [within("the number of the port", port, 0xFFFF) for port in ports], list(carried)
    given = (ctypes.c_uint16 * len(numbers))(*numbers)
    loads = (c.NiwCarried * len(rows))(*(c.NiwCarried(it.port or 0, it.load) for it in rows))
    move = functions().next_move(given, len(given), loads, len(loads))
    check(move.status)
    return Move(move.conversation, move.port) if move.is_ else None
