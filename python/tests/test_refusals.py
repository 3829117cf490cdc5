"""What functions refuse, as docs/USING.md has it: random calls of two systems on cables are refused for nothing else, and for each of these
reasons but memory."""

from __future__ import annotations

import ctypes
import os
import random
import re
from typing import Any, Callable, Iterator

from niwhopera import _numbers as lag
from niwhopera._library import functions

PAGE = os.path.join(os.path.dirname(os.path.abspath(__file__)), "..", "..", "docs", "USING.md")
CALLS, ROUNDS = 80_000, 60
# What ends what goes on in a world.
ENDS = {"new", "free", "restart", "set_link", "configure", "hold", "set_mode", "set_max_links", "set_in_use", "queue_new", "queue_free"}
NUMBERS = (0, 1, 1, 1, 2, 2, 3, 9, 255, 256, 300, 4096, 65535)
LENGTHS = (0, 13, 14, 63, 64, 110, 124, 256, 1518, 1519, 4096)
DATA = bytes(12) + b"\x08\x00" + bytes(1505)
SLOW = bytes(12) + b"\x88\x09" + bytes(1505)
# Lengths of lists of conversations, which are seldom given.
TOO_MANY = (65536, 65537)


def told() -> dict[str, set[str]]:
    """The refusals of each function."""
    with open(PAGE, encoding="utf-8") as it:
        rows = re.search(r"\n\|functions\|refusals, in this order\|\n\|---\|---\|\n((?:\|.*\n)+)", it.read())
    assert rows
    cells = [row.strip("|").split("|") for row in rows[1].splitlines()]
    return {name: set(re.findall(r"NIW_(\w+)", refuses)) for names, refuses in cells for name in re.findall(r"niw_(\w+)", names)}


class World:
    """Two systems whose ports 1 and 2 are joined, and queues. One marker identifier is left, or none."""

    def __init__(self, chance: random.Random) -> None:
        self.chance, self.c = chance, functions()
        self.ends = [lag.NiwSystem(), lag.NiwSystem()]
        self.queue, self.empty, self.none = lag.NiwQueue(), lag.NiwSystem(), lag.NiwQueue()
        for number, end in enumerate(self.ends):
            mac = (ctypes.c_uint8 * 6)(2, 0, 0, 0, 0, number + 1)
            config = lag.NiwConfig(32768, mac, 0, 2**32 - 1, 256, 0, chance.randrange(3))
            ports = (lag.NiwPort * 3)(*(lag.NiwPort(it, 0, mac, 1 if it < 3 else 2, True, True, True) for it in (1, 2, 3)))
            assert self.c.new(end, config, (ctypes.c_uint16 * 2)(1, 2), 2, ports, 3).status == 0
            for port in 1, 2:
                self.c.set_link(end, port, True)
        assert self.c.queue_new(self.queue, 4, 3, 2) == 0
        # The port, aggregator and conversation that are asked most: that of the frames, so that it is held when they are offered.
        self.usual = (1, 2, self.c.conversation(self.ends[0], DATA, 64).number)
        for _ in range(ROUNDS):
            self.round()
        if chance.random() < 0.3:
            port = self.c.offer_conversation(self.ends[0], 1, 9).number
            assert self.c.move_conversation(self.ends[0], 1, 9, 3 - port) == 0
            self.round()

    def round(self) -> None:
        """100 ms, in which all that is sent arrives."""
        frame, reply = (ctypes.c_uint8 * 124)(), (ctypes.c_uint8 * 124)()
        for end, other in zip(self.ends, self.ends[::-1]):
            self.c.tick(end)
            for port in 1, 2:
                while self.c.transmit(end, port, frame, 124).is_:
                    if self.c.receive(other, port, bytes(frame), 124, reply, 124).what == lag.ReceivedKind.RESPOND:
                        self.c.receive(end, port, bytes(reply), 124, frame, 124)

    def slice_of(self, kind: Any) -> tuple[Any, int]:
        length = self.chance.choice(TOO_MANY if self.chance.random() < 0.02 else LENGTHS)
        if kind is ctypes.c_char_p:
            return self.chance.choice((DATA, SLOW))[:length], min(length, 1519)
        return (kind._type_ * max(length, 1))(), length

    def struct_of(self, kind: Any) -> Any:
        pick = self.chance.choice
        if kind is lag.NiwConfig:
            return kind(1, (ctypes.c_uint8 * 6)(), 0, 0, pick((256, 255)), pick((0, 65)), pick((0, 3)))
        if kind is lag.NiwPdu:
            return kind(subtype=pick((1, 2, 3)), tlv_type=pick((1, 2, 3)))
        return kind()

    def arguments(self, kinds: list[Any]) -> Iterator[Any]:
        """Arguments of these types. A pointer before a length is a slice; a handle is sometimes empty."""
        seldom, usual, left = self.chance.random() < 0.2, self.chance.random() < 0.6, list(kinds)
        while left:
            kind = left.pop(0)
            if kind is ctypes.c_char_p or isinstance(kind, type(ctypes.POINTER(ctypes.c_bool))) and left[:1] == [ctypes.c_size_t]:
                left.pop(0)
                yield from self.slice_of(kind)
            elif kind is ctypes.POINTER(lag.NiwSystem):
                yield self.empty if seldom else self.ends[0]
            elif kind is ctypes.POINTER(lag.NiwQueue):
                yield self.none if seldom else self.queue
            elif hasattr(kind, "contents"):
                yield self.struct_of(kind._type_)
            else:
                yield self.chance.choice((False, True) if kind is ctypes.c_bool else (0, 1, 5) if kind is ctypes.c_uint32 else self.usual if usual else NUMBERS)

    def resuming(self) -> Iterator[Any]:
        """Arguments of a warm start of one port, whose frame is no LACPDU."""
        pick = self.chance.choice
        config = lag.NiwConfig(1, (ctypes.c_uint8 * 6)(), 0, 0, pick((256, 255)))
        yield from (pick((self.empty, self.ends[0])), config, (ctypes.c_uint16 * 1)(), 1, (lag.NiwPort * 1)(lag.NiwPort(1)), 1)
        yield from ((lag.NiwSaved * 1)(lag.NiwSaved(port=1, age=pick((0, 900)))), 1)

    def ticking(self) -> Iterator[Any]:
        """Arguments of some ticks, or of too many."""
        yield from (self.chance.choice((self.empty, self.ends[0])), self.chance.choice((0, 1, 5, lag.MOST_TICKS + 1)))


def status_of(answer: Any) -> str:
    return lag.Status(answer if isinstance(answer, int) else answer.status).name


def test_functions_refuse_what_the_page_says_and_nothing_else() -> None:
    chance, wanted = random.Random(1), told()
    calls: dict[str, Callable[..., Any]] = vars(functions())
    assert set(calls) == set(wanted)
    found: dict[str, set[str]] = {name: set() for name in calls}
    world = World(chance)
    often = [name for name in calls if len(wanted[name]) > 3 and name not in ENDS]
    rest = [name for name in calls if name not in ENDS]
    for count in range(CALLS):
        name = chance.choice(sorted(ENDS) if count % 40 == 39 else rest if count % 4 == 0 else often)
        own = {"resume": world.resuming, "ticks": world.ticking}.get(name)
        arguments = own() if own else world.arguments(calls[name].argtypes)  # type: ignore[attr-defined]
        found[name].add(status_of(calls[name](*arguments)))
        if name in ENDS:
            world = World(chance)
        elif count % 10 == 9:
            world.round()
    for name, statuses in found.items():
        assert statuses - {"OK"} == wanted[name] - {"NO_MEMORY"}, name
