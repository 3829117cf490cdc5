"""Ends a call of a stack in the bench's own process that does not return."""

from __future__ import annotations

import signal
import threading
from contextlib import contextmanager
from typing import Iterator

from . import child
from .wires import Gone

# A stack that catches the end of its call gets it again so many seconds later.
AGAIN = 1.0


class Hangs(BaseException):
    """The call takes too long; no `except Exception` of a stack keeps that from the bench."""


def _ends(*_: object) -> None:
    raise Hangs


@contextmanager
def limited(where: str) -> Iterator[None]:
    """Gives what is inside as long as a call of a library has. Code in C that does not return to Python is not ended."""
    if threading.current_thread() is not threading.main_thread():
        yield
        return
    before = signal.signal(signal.SIGALRM, _ends)
    signal.setitimer(signal.ITIMER_REAL, child.CALL_SECONDS, AGAIN)
    try:
        yield
    except Hangs:
        raise Gone(f"the stack hangs {where}: no return in {child.CALL_SECONDS:g} s") from None
    finally:
        signal.setitimer(signal.ITIMER_REAL, 0)
        signal.signal(signal.SIGALRM, before)
