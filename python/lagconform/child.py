"""A stack of a shared library in a process of its own: one that crashes or hangs takes no run with it.

The bench sends a call, and gets the frames that the stack sends within it, and then its end.
"""

from __future__ import annotations

import ctypes
import os
import signal
import socket
import struct
import time
from contextlib import suppress
from typing import Any, Callable, Optional

from .refusals import Refused
from .wires import Gone

# So long a call may take: a stack that needs more hangs.
CALL_SECONDS = 30.0
# The functions of examples/conform/device.h; the first three are those that each stack has.
NEEDED = ("device_start", "device_take", "device_tick")
NAMES = (*NEEDED, "device_stop", "device_link", "device_data")
# Each message begins with its kind: a frame, or the end of a call; a call with the place of its function. A number and octets follow.
HEAD = struct.Struct("=BI")
FRAME, END, BAD = 0, 1, 2
# No frame is longer, and no message.
LONGEST = 65535
SEND = ctypes.CFUNCTYPE(None, ctypes.c_void_p, ctypes.c_uint, ctypes.POINTER(ctypes.c_ubyte), ctypes.c_size_t)
DIES_WITH_PARENT = 1  # PR_SET_PDEATHSIG of prctl(2)
BY_LINES = 1  # _IOLBF of setvbuf(3)


class Child:
    """The process of a stack."""

    def __init__(self, path: str) -> None:
        own, other = socket.socketpair(socket.AF_UNIX, socket.SOCK_SEQPACKET)
        self._pid = os.fork()
        if not self._pid:
            own.close()
            serve(path, other)
        other.close()
        own.settimeout(CALL_SECONDS)
        self._socket: Optional[socket.socket] = own
        kind, _, octets = self._receive("as it was loaded")
        if kind == BAD:
            self.close()
            raise Refused(octets.decode(errors="replace"))
        # What the library has of NAMES.
        self.names = tuple(octets.decode().split())

    def call(self, name: str, number: int, octets: bytes, send: Callable[[int, bytes], None]) -> None:
        """Calls a function of the stack; `send` gets each frame that it sends, and its link."""
        if not self._socket:
            raise Gone("the stack has ended")
        try:
            self._socket.send(HEAD.pack(NAMES.index(name), number) + octets)
        except OSError:
            self._ended(f"before {name}")
        while True:
            kind, link, frame = self._receive(f"in {name}")
            if kind == END:
                return
            send(link, frame)

    def close(self) -> None:
        """Ends the process, in any state."""
        self._finish(0.5)

    def _receive(self, where: str) -> tuple[int, int, bytes]:
        assert self._socket
        try:
            message = self._socket.recv(HEAD.size + LONGEST)
        except socket.timeout:
            self._finish(0)
            raise Gone(f"the stack hangs {where}: no return in {CALL_SECONDS:g} s") from None
        except OSError:
            message = b""
        except BaseException:  # the answer to this call would be taken for one to the next
            self._finish(0)
            raise
        if not message:
            self._ended(where)
        kind, number = HEAD.unpack(message[: HEAD.size])
        return kind, number, message[HEAD.size :]

    def _ended(self, where: str) -> None:
        raise Gone(f"the stack {how(self._finish(0.5))} {where}")

    def _finish(self, seconds: float) -> int:
        """Waits so long for the process, then kills it; answers what waitpid said of it."""
        if not self._socket:
            return 0
        self._socket.close()
        self._socket = None
        until = time.monotonic() + seconds
        try:
            while time.monotonic() < until:
                pid, status = os.waitpid(self._pid, os.WNOHANG)
                if pid:
                    return status
                time.sleep(0.005)
            os.kill(self._pid, signal.SIGKILL)
            return os.waitpid(self._pid, 0)[1]
        except ChildProcessError:  # who started us lets no process be waited for
            return 0


def how(status: int) -> str:
    """How a process ended, of what waitpid said."""
    if os.WIFSIGNALED(status):
        number = os.WTERMSIG(status)
        return f"crashed by {signal.Signals(number).name if number in set(signal.Signals) else f'signal {number}'}"
    return f"ended its process with status {os.WEXITSTATUS(status)}"


def serve(path: str, bench: socket.socket) -> None:
    """The process of the stack, which does not return."""
    try:
        signal.signal(signal.SIGINT, signal.SIG_IGN)  # Ctrl-C is for the bench
        signal.signal(signal.SIGTERM, signal.SIG_DFL)
        own = ctypes.CDLL(None)
        own.prctl(DIES_WITH_PARENT, ctypes.c_ulong(signal.SIGKILL))
        own.setvbuf(ctypes.c_void_p.in_dll(own, "stdout"), None, BY_LINES, ctypes.c_size_t(0))  # what it prints stands before the line of its test
        answer(path, bench)
        own.fflush(None)
    finally:
        os._exit(0)


def answer(path: str, bench: socket.socket) -> None:
    """Loads the library, and does what the bench calls for, until that closes the socket."""
    try:
        library = ctypes.CDLL(os.path.realpath(path))  # a name without a folder would be looked for among the system's
    except OSError as why:
        bench.send(HEAD.pack(BAD, 0) + f"{path}: {why}".encode()[:4096])
        return
    names = [it for it in NAMES if hasattr(library, it)]
    bench.send(HEAD.pack(END, 0) + " ".join(names).encode())

    def send(_: Any, link: int, frame: Any, size: int) -> None:
        with suppress(OSError):
            bench.send(HEAD.pack(FRAME, link) + bytes(frame[: min(size, LONGEST)]))

    kept = SEND(send)  # as long as the library may call it
    while message := bench.recv(HEAD.size + LONGEST):
        place, number = HEAD.unpack(message[: HEAD.size])
        call(getattr(library, NAMES[place]), NAMES[place], number, message[HEAD.size :], kept)
        bench.send(HEAD.pack(END, 0))


def call(function: Any, name: str, number: int, octets: bytes, send: Any) -> None:
    """Calls a function of device.h."""
    if name == "device_start":
        function(ctypes.c_uint(number), send, None)
    elif name == "device_take":
        function(ctypes.c_uint(number), octets, ctypes.c_size_t(len(octets)))
    elif name == "device_link":
        function(ctypes.c_uint(number >> 1), ctypes.c_int(number & 1))
    elif name == "device_data":
        function(ctypes.c_int(number))
    else:
        function()
