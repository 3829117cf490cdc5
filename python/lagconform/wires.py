"""What a bench wants of its links: frames, and a clock. Packet sockets have them (`sockets`), and a device in memory has."""

from __future__ import annotations

from typing import Callable, NamedTuple, Optional, Protocol, Sequence

from niwhopera import Mac


class Arrival(NamedTuple):
    """A frame that came on a link, and the second of the run at which it came."""

    link: int
    time: float
    octets: bytes


# The status of a hook that does not know what it is asked for (EX_USAGE of sysexits.h). Any other one but 0 is an error of the hook.
UNKNOWN = 64


class Answer(NamedTuple):
    """What a hook, or a stack in memory, said: status 0 if it did what it was told to."""

    status: int
    said: str
    who: str = "hook"

    def refusal(self, words: Sequence[str]) -> str:
        """That it did not do what these words say, and why not."""
        said = self.said.strip()[-200:]
        does = "does not do" if self.status == UNKNOWN else f"failed with status {self.status} ({UNKNOWN} means: it does not know the words)"
        return f"the {self.who} {does}: {' '.join(words)}{f': {said}' if said else ''}"


class Gone(Exception):
    """An interface is no longer there, and no run goes on; the text says which."""


class Broke(Gone):
    """A stack in memory crashed, raised or hangs; `again` starts another one of its kind, or raises Gone."""

    def __init__(self, text: str, again: Callable[[], None]) -> None:
        super().__init__(text)
        self.again = again


class Wire(Protocol):
    """One to four links. Links go by their numbers, from 1, and times in seconds since the start of the run."""

    @property
    def names(self) -> Sequence[str]:
        """The interfaces, in the order of their links."""

    @property
    def started(self) -> float:
        """The second 0 of the run, in seconds since 1970."""

    @property
    def silence(self) -> str:
        """The usual causes where nothing comes."""

    def now(self) -> float:
        """The time."""

    def source(self, link: int) -> Mac:
        """The address of our interface."""

    def send(self, link: int, octets: bytes) -> bool:
        """Puts a frame on a link; answers whether it went. One that the link refuses is lost."""

    def wait(self, seconds: float) -> list[Arrival]:
        """The frames that came, or some of them; waits for the first one for so long at most."""

    def drops(self) -> int:
        """How many frames came and were lost by this machine since that was asked last."""

    def received(self, link: int) -> int:
        """How many frames have come on a link since ever, those too that no test looks at."""

    def without_carrier(self) -> Sequence[str]:
        """The interfaces that are down, or without carrier, now."""

    def flap(self, link: int, up: bool) -> None:
        """Takes our own end of a link down or up."""

    def close(self) -> None:
        """Gives the links back."""


class Doing(Protocol):
    """A hook that was called."""

    def answer(self) -> Optional[Answer]:
        """What it said, once it has ended."""

    def stop(self) -> None:
        """Ends it."""


class Hook(Protocol):
    """A way to have the device do something."""

    def call(self, words: Sequence[str]) -> Doing:
        """Begins to do what these words say."""
