"""A device in memory: a stack of LACP at the far end of the links, with a clock that the bench moves. It wants no link, no root and no waiting,
and each run is like the one before.

A maker's stack is a class below `Stack` in a file of Python, or functions of a shared library (examples/conform/device.h). It gets frames and
the time, and sends frames.
"""

from __future__ import annotations

import runpy
import traceback
from collections import deque
from contextlib import contextmanager, nullcontext, suppress
from typing import Any, Callable, Deque, Iterator, Optional, Sequence

from niwhopera import Mac

from .child import NEEDED, Child
from .files import import_beside
from .hanging import limited
from .pdus import COUNT_AT, DATA, SENDERS
from .refusals import Refused
from .wires import UNKNOWN, Answer, Arrival, Broke, Gone

# A frame takes so long from one end of a link to the other, and the first tick comes so long behind a start.
WIRE_SECONDS, PHASE = 0.0005, 0.037
# Flows of the device's client, each of which is sent once between two ticks.
FLOWS = 64
# A stack that broke is started again so many times in a run, and not before what it sent is so old that no limit of 6.4.16 counts it.
MOST_STARTS, DOWN_SECONDS = 20, 1.5


def flow(number: int, count: int = 0) -> bytes:
    """A frame of the client, and the how many-th of its flow it is: UDP from 198.18.0.0/16."""
    ends = bytes([2, 0, 0, 0, 0xF0, number * 37 % 251, 2, 0, 0, 0, 0xF1, number])
    head = b"\x45\x00\x00\x26\x00\x00\x00\x00\x40\x11\x00\x00" + SENDERS + b"\x00" + bytes([number, 198, 19, 0, number])
    return ends + DATA + head + bytes(COUNT_AT - 34) + count.to_bytes(4, "big") + bytes(14)


class Stack:
    """A stack of LACP with a port at each link. What a maker's does not know stays out of its class: the tests that want it are skipped. All names but
    those that stand here are the maker's."""

    # So often `tick` is called.
    tick_seconds = 0.1
    # Where it runs, from its first start on.
    _lagconform: World

    @property
    def now(self) -> float:
        """Seconds since the start of the run."""
        return self._lagconform.clock

    @property
    def links(self) -> range:
        """The numbers of its links."""
        return range(1, len(self._lagconform.names) + 1)

    def send(self, link: int, frame: bytes) -> None:
        """Puts a frame on a link: addresses, type and payload, without the FCS."""
        self._lagconform.emit(link, frame)

    # What a stack does.

    def start(self) -> None:
        """Begins, with each link up, and again after `stop`."""
        raise NotImplementedError

    def take(self, link: int, frame: bytes) -> None:
        """Takes a frame that came on a link."""
        raise NotImplementedError

    def tick(self) -> None:
        """Lets `tick_seconds` pass."""
        raise NotImplementedError

    def stop(self) -> None:
        """Ends: neither takes nor sends until the next start."""
        raise NotImplementedError

    def link(self, link: int, up: bool) -> None:
        """Takes notice that a link went down or came up."""
        raise NotImplementedError

    def data(self, on: bool) -> None:
        """Has the client of its aggregator begin or end to send a frame of each flow with each tick: `flow(0, 1)` to `flow(FLOWS - 1, 1)`, then
        those with 2."""
        raise NotImplementedError


class World:
    """The wire of the bench, and its hook: what it sends the stack gets at once, and time passes where the bench waits."""

    def __init__(self, device: Stack, links: int = 2, started: float = 1.7e9) -> None:
        self.names = [f"link{it}" for it in range(1, links + 1)]
        self.started = started
        self.clock = 0.0
        self.came: Deque[Arrival] = deque()
        self.counts = dict.fromkeys(range(1, links + 1), 0)
        self.device, self.starts = device, 0
        self._start()

    def _start(self) -> None:
        self.device._lagconform = self
        # When time passes for the stack the next time.
        self.due = self.clock + PHASE
        try:
            with self._calling("start"):
                self.device.start()
        except BaseException:
            self._leave()
            raise

    def _leave(self) -> None:
        if isinstance(self.device, Library):
            self.device.leave()

    @contextmanager
    def _calling(self, name: str) -> Iterator[None]:
        """Tells what the stack raises, or that it hangs: it is no fault of the bench, and no test goes on without the stack."""
        try:
            with nullcontext() if isinstance(self.device, Library) else limited(f"in {name}"):
                yield
        except Gone as why:
            raise Broke(str(why), self.again) from why
        except (Exception, SystemExit) as why:
            text = " ".join(str(why).split())
            raise Broke(f"the stack broke by {type(why).__name__} in {name}: {text}\n{traceback.format_exc(limit=-3)}", self.again) from why

    def again(self) -> None:
        """Starts another stack in the place of one that broke, some time later."""
        if self.starts == MOST_STARTS:
            raise Gone(f"the stack broke {MOST_STARTS + 1} times, and is not started again")
        self.starts += 1
        self.close()
        self.clock += DOWN_SECONDS
        self.came.clear()
        with self._calling("its place"):
            self.device = self.device.again() if isinstance(self.device, Library) else type(self.device)()
        self._start()

    @property
    def silence(self) -> str:
        """The usual causes where nothing comes."""
        return "the stack does not call send, or with a number of no link; what it sends has another EtherType than 8809; its ports begin disabled"

    def now(self) -> float:
        """The second of the run."""
        return self.clock

    def source(self, link: int) -> Mac:
        """The address of the bench."""
        return Mac(bytes([2, 0, 0, 0, 0xAA, link]))

    def send(self, link: int, octets: bytes) -> bool:
        """Hands a frame to the stack."""
        with self._calling("take"):
            self.device.take(link, octets)
        return True

    def drops(self) -> int:
        """Nothing is lost here."""
        return 0

    def received(self, link: int) -> int:
        """How many frames the stack has sent on a link."""
        return self.counts[link]

    def close(self) -> None:
        """Ends the stack, if it can."""
        with suppress(Exception), self._calling("stop"):
            self.device.stop()
        self._leave()

    def wait(self, seconds: float) -> list[Arrival]:
        """Moves the clock to the next frame, or so far."""
        limit = self.clock + seconds
        while not self.came and self.clock < limit:
            due = max(self.clock, self.due)
            self.clock = min(limit, due)
            if due <= limit:
                with self._calling("tick"):
                    self.due += self.device.tick_seconds
                    self.device.tick()
        came = list(self.came)
        self.came.clear()
        return came

    def without_carrier(self) -> Sequence[str]:
        """A link in memory has one."""
        return ()

    def flap(self, link: int, up: bool) -> None:
        """Takes a link down or up."""
        self.device.link(link, up)

    def emit(self, link: int, octets: bytes) -> None:
        """A frame of the stack."""
        if link in self.counts:
            self.counts[link] += 1
            self.came.append(Arrival(link, self.clock + WIRE_SECONDS, octets))

    def call(self, words: Sequence[str]) -> Done:
        """The hook."""
        name = {"up": "link", "down": "link"}.get(words[0], words[0])
        device = self.device
        does: dict[str, Callable[[], None]] = {
            "reset": lambda: None, "stop": device.stop, "start": device.start, "link": lambda: device.link(int(words[1]), words[0] == "up"),
            "data": lambda: device.data(words[1] == "start"),
        }  # fmt: skip
        if name not in does:
            return Done(Answer(UNKNOWN, "", "stack"))
        with self._calling(words[0]):
            try:
                does[name]()
            except NotImplementedError:
                return Done(Answer(UNKNOWN, f"it has no function `{name}`", "stack"))
        return Done(Answer(0, "", "stack"))


class Done:
    """A hook that has ended."""

    def __init__(self, answer: Answer) -> None:
        self._answer = answer

    def answer(self) -> Answer:
        """What it said."""
        return self._answer

    def stop(self) -> None:
        """It has ended."""


class Library(Stack):
    """A stack in a shared library, with the functions of examples/conform/device.h, in a process of its own."""

    def __init__(self, path: str) -> None:
        self._path = path
        self._child = Child(path)
        self._on = False
        for name in NEEDED:
            if name not in self._child.names:
                self._child.close()
                raise Refused(f"{path} has no {name}: examples/conform/device.h has what a stack gives")

    def _call(self, name: str, number: int = 0, octets: bytes = b"") -> None:
        if name not in self._child.names:
            raise NotImplementedError
        self._child.call(name, number, octets, self._sent)

    def _sent(self, link: int, frame: bytes) -> None:
        if self._on:
            self.send(link, frame)

    def start(self) -> None:
        """Calls device_start."""
        self._on = True
        self._call("device_start", len(self.links))

    def take(self, link: int, frame: bytes) -> None:
        """Calls device_take."""
        if self._on:
            self._call("device_take", link, frame)

    def tick(self) -> None:
        """Calls device_tick."""
        if self._on:
            self._call("device_tick")

    def stop(self) -> None:
        """Calls device_stop."""
        self._call("device_stop")
        self._on = False

    def link(self, link: int, up: bool) -> None:
        """Calls device_link."""
        self._call("device_link", link << 1 | up)

    def data(self, on: bool) -> None:
        """Calls device_data."""
        self._call("device_data", int(on))

    def leave(self) -> None:
        """Ends the process."""
        self._child.close()

    def again(self) -> Library:
        """The library in another process."""
        return Library(self._path)


def loaded(path: str) -> Stack:
    """The stack of a file: the class `Device` of a file of Python, or a shared library."""
    where = "where it is loaded"
    try:
        if not path.endswith(".py"):
            return Library(path)
        import_beside(path)
        with limited(where):
            kind: Optional[Any] = runpy.run_path(path).get("Device")
        if not isinstance(kind, type) or not issubclass(kind, Stack):
            raise Refused(f"{path} has no class Device below lagconform.memory.Stack")
        where = "where its Device is made"
        with limited(where):
            return kind()
    except OSError as why:
        raise Refused(f"{path}: {why}") from why
    except (Refused, Gone):
        raise
    except (Exception, SystemExit) as why:
        raise Refused(f"{path} breaks {where}, by {type(why).__name__}: {why}") from why
