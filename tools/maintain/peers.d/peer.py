"""What the trials want of a peer."""

from __future__ import annotations

import subprocess
from typing import IO, Protocol

from checking import Failed


class Peer(Protocol):
    """An implementation on two links. It is started and stopped many times, and ended once."""

    @property
    def name(self) -> str: ...

    def start(self) -> None: ...

    def carrying(self) -> set[str]:
        """The links that carry, as it says itself."""

    def stop(self) -> None: ...

    def end(self) -> None: ...


class Stranger(Peer, Protocol):
    """An implementation that is not ours."""

    @property
    def mixes_keys(self) -> bool:
        """Whether it aggregates links of two keys, which is its fault."""

    def version(self) -> str: ...

    def view(self) -> str:
        """What it says of itself, for who reads a failed check."""


def pipes(process: subprocess.Popen[bytes] | None) -> tuple[IO[bytes], IO[bytes]]:
    """The standard input and output of a process that was started with pipes."""
    if not process or not process.stdin or not process.stdout:
        raise Failed("a peer that is asked runs")
    return process.stdin, process.stdout
