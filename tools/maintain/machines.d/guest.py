"""A guest: a Linux of its own whose systemd boots, and a shell in it. Its near end has the links eth1 and eth2, whose far ends are far1 and
far2 in the network namespace `far` of the same guest."""

from __future__ import annotations

import base64
import socket
import subprocess
import time
from typing import Callable, NamedTuple

from checking import Failed

# The links, each with the number of its cable.
PLACES = (("far1", 1), ("eth1", 1), ("eth2", 2), ("far2", 2))
MACS = {name: f"52:54:00:00:{'0b' if name.startswith('far') else '0a'}:0{name[-1]}" for name, _ in PLACES}
# For how many seconds of this machine a boot and a script may take at most.
BOOTS, ANSWERS = 3600, 1800
# How long the guest is left alone between two looks, in seconds: to look takes its processor.
LOOKS = 0.5


class Ended(NamedTuple):
    """How a script in the guest ended, and what it printed."""

    status: int
    text: str


class Line:
    """A connection to a guest, by lines."""

    def __init__(self, opened: socket.socket) -> None:
        self.socket, self.left = opened, b""

    def send(self, text: str) -> None:
        self.socket.sendall(text.encode() + b"\n")

    def receive(self, seconds: float) -> str:
        """The next line; fails where none comes in time."""
        until = time.monotonic() + seconds
        while b"\n" not in self.left:
            self.socket.settimeout(max(until - time.monotonic(), 0.01))
            try:
                got = self.socket.recv(1 << 16)
            except (TimeoutError, OSError) as why:
                raise Failed(f"a line comes within {seconds:.0f} s", why) from why
            if not got:
                raise Failed("the guest goes on", "it ended")
            self.left += got
        line, _, self.left = self.left.partition(b"\n")
        return line.decode(errors="replace")


class Guest:
    """A guest that runs, in a folder of this machine. It has all its links by cards of one kind."""

    process: subprocess.Popen[bytes]
    shell: Line
    late = 0.0  # for how many seconds it waited for a processor while numbered frames went last

    def __init__(self, card: str, folder: str) -> None:
        self.folder, self.card, self.scripts = folder, card, 0

    def waited(self) -> float:
        """For how many seconds it has waited for a processor so far, by its own clock. One that goes on with its instructions waits for none."""
        return 0.0

    def set_link(self, up: bool, *names: str) -> None:
        """Takes the carrier of cards, or gives it back."""
        raise NotImplementedError

    def remove(self, name: str) -> None:
        """Pulls a card."""
        raise NotImplementedError

    def insert(self, name: str) -> None:
        """Plugs a card in, where it was."""
        raise NotImplementedError

    def boots(self) -> float:
        """Waits for the shell; answers how many seconds passed since its kernel began."""
        if self.shell.receive(BOOTS) != "ready":
            raise Failed("the guest boots", self.told())
        return self.clock()

    def clock(self) -> float:
        """How many seconds passed in the guest since its kernel began."""
        return float(self.text("cut -d ' ' -f 1 /proc/uptime"))

    def sleep(self, seconds: float) -> None:
        self.run(f"sleep {seconds}")

    def within(self, seconds: float, holds: Callable[[], object]) -> bool:
        """Waits for a sign, for so many seconds of the guest at most."""
        until = self.clock() + seconds
        while not holds():
            if self.clock() > until:
                return bool(holds())
            self.sleep(LOOKS)
        return True

    def run(self, script: str, seconds: float = ANSWERS) -> Ended:
        """Runs a script of the shell in the guest. What one before it answers, for which nobody waits any more, is not taken for its own."""
        self.scripts += 1
        self.shell.send(f"{self.scripts} {base64.b64encode(script.encode()).decode()}")
        until = time.monotonic() + seconds
        while True:
            number, status, text = self.shell.receive(max(until - time.monotonic(), 0)).split(" ", 2)
            if int(number) == self.scripts:
                return Ended(int(status), base64.b64decode(text).decode(errors="replace").strip())

    def text(self, script: str, seconds: float = ANSWERS) -> str:
        """What a script prints."""
        return self.run(script, seconds).text

    def told(self) -> str:
        """The end of what the guest printed."""
        with open(f"{self.folder}/console", encoding="utf-8", errors="replace") as it:
            return it.read()[-2000:]

    def end(self) -> None:
        self.process.kill()
        self.process.wait()
