"""One daemon `lagd`: its start, its lines, its status and its end."""

from __future__ import annotations

import glob
import json
import os
import re
import signal
import subprocess
from typing import Any, Callable, NoReturn, Protocol, Sequence

from checking import Skipped, check, within
from repository import read_text
from spaces import OURS, THEIRS, inside

SYSTEM, OTHER, KEY = "02:00:00:00:00:aa", "02:00:00:00:00:bb", "23"
# A daemon that is done ends sooner.
ENDS = 20
# What is told of a port while the daemon does not answer.
NOBODY: dict[str, Any] = {"key": None, "port_priority": None, "port": None, "system_priority": None, "system": None, "defaulted": None, "state": []}
NOTHING: dict[str, Any] = {name: None for name in ("link", "status", "address", "aggregator", "receive", "mux", "wait_while", "current_while")}
NOTHING.update(actor=NOBODY, partner=NOBODY, counters={})


class Program(Protocol):
    """A program that runs, its words, and what it printed."""

    words: list[str]
    process: subprocess.Popen[bytes]

    def printed(self) -> str: ...


class Daemon:
    """A daemon, what it printed, and what it says of its ports."""

    def __init__(self, program: str, folder: str, space: str, system: str, key: str, *names: str, options: Sequence[str] = (), before: Sequence[str] = (), out: int | None = None,
                 files: Sequence[int] = (), file: str | None = None) -> None:
        self.space, self.program = space, program
        self.folder = os.path.join(folder, "run")
        self.log = os.path.join(folder, f"{space}-{names[0].partition(':')[0]}")
        bundle = ["--config", file] if file else [*options, key, f"32768,{system}", *names]
        self.words = [*before, program, "--folder", self.folder, *bundle]
        with open(self.log, "w", encoding="utf-8") as log:
            self.process = subprocess.Popen(["ip", "netns", "exec", space, *self.words], stdout=out or log, stderr=log, pass_fds=files)

    def socket(self) -> str:
        """The path of its status socket: the newest, since daemons of other parts that were killed leave theirs."""
        return max(glob.glob(f"{self.folder}/*.sock"), key=os.path.getmtime)

    def busy(self) -> float:
        """For how many seconds it had a processor."""
        return int(read_text(f"/proc/{self.process.pid}/schedstat").split()[0]) / 1e9

    def printed(self) -> str:
        return read_text(self.log)

    def lines(self, name: str) -> list[str]:
        """What it printed of a port, without times."""
        return re.findall(rf"^[-0-9]+T[:0-9]+\.\d\d\dZ port \d+ {name}: (.*)$", self.printed(), re.M)

    def last_line(self, name: str) -> str:
        return (["", *self.lines(name)])[-1]

    def text(self) -> str:
        return inside(self.space, self.program, "--folder", self.folder, "--status").stdout

    def ports(self) -> dict[str, Any]:
        """Each port by its interface, as the status has it; none where no daemon answers, also if asked again."""
        for _ in range(3):
            told = inside(self.space, self.program, "--folder", self.folder, "--status", "--json")
            if told.returncode == 0:
                break
        return {port["interface"]: port for line in told.stdout.splitlines() for port in json.loads(line)["ports"]}

    def port(self, name: str) -> Any:
        """One port, by its interface; of one that is not told of, nothing."""
        return self.ports().get(name, NOTHING)

    def distributes(self, *names: str) -> bool:
        ports = self.ports()
        return all(ports.get(name, NOTHING)["status"] == "it distributes" for name in names)

    def says_it_distributes(self, *names: str) -> bool:
        """Whether its last lines of these ports say that they distribute: it prints at a tick, behind the change."""
        return all(self.last_line(name).startswith("it distributes") for name in names)

    def count(self, name: str, what: str) -> int:
        return int(self.port(name)["counters"].get(what, -1))

    def status(self) -> int | None:
        """How it ended, if it did soon."""
        try:
            return self.process.wait(ENDS)
        except subprocess.TimeoutExpired:
            return None

    def kill(self) -> None:
        """It is gone, and could tell nobody."""
        self.process.kill()
        self.process.wait()

    def leave(self, by: signal.Signals = signal.SIGUSR1) -> None:
        """It hands over to the next one, or ends by another signal."""
        self.process.send_signal(by)
        self.process.wait(ENDS)

    def ends(self, name: str, by: signal.Signals = signal.SIGTERM) -> None:
        """A signal ends it."""
        self.process.send_signal(by)
        check(self.status() == 0, f"{signal.Signals(by).name} ends {name} with status 0", self.printed())


def set_up(daemon: Daemon, device: str) -> None:
    """Sets the device of a daemon up, as soon as it is there: LACP runs while it is. One that is refused has none."""
    up = lambda: inside(daemon.space, "ip", "link", "set", device, "up").returncode == 0
    within(ENDS, lambda: up() or daemon.process.poll() is not None)


def not_built() -> NoReturn:
    """A program that no part of these wants."""
    raise Skipped("it is not built here")


class Part:
    """The daemons of a part, and its other programs; each stands in a list, so that all are ended."""

    def __init__(self, program: str, folder: str, refusing: Callable[[], str] = not_built, minimal: Callable[[], str] = not_built,
                 kernel: Callable[[], str] = not_built, sanitized: bool = False) -> None:
        self.program, self.folder, self.refusing, self.minimal, self.kernel = program, folder, refusing, minimal, kernel
        self.running: list[Program] = []
        self.sanitized = sanitized

    def fewer(self, count: int) -> int:
        """How many there are where a daemon with sanitizers takes more memory and time."""
        return count // 5 if self.sanitized else count

    def unhurried(self) -> None:
        """Ends a part that measures how much a daemon takes, where it has sanitizers."""
        if self.sanitized:
            raise Skipped("the daemon has sanitizers")

    def start(self, space: str, system: str, key: str, *names: str, **more: Any) -> Daemon:
        daemon = Daemon(self.program, self.folder, space, system, key, *names, **more)
        self.running.append(daemon)
        options = list(more.get("options", ()))
        if "--carry" in options:
            set_up(daemon, options[options.index("--carry") + 1])
        return daemon

    def ours(self, *names: str, **more: Any) -> Daemon:
        return self.start(OURS, SYSTEM, KEY, *(names or ("a0", "a1")), **more)

    def theirs(self, *names: str, **more: Any) -> Daemon:
        return self.start(THEIRS, OTHER, "5", *(names or ("b0", "b1")), **more)

    def alone(self, **more: Any) -> Daemon:
        """A daemon of ours at one link, which is up."""
        ours = self.ours("a0", **more)
        within(ENDS, lambda: ours.port("a0")["link"] == "up")
        return ours

    def refused(self, *words: str) -> tuple[int, str]:
        """A daemon that does not start: its status, and its line on standard error."""
        ended = inside(OURS, self.program, "--folder", os.path.join(self.folder, "run"), *words, timeout=ENDS)
        return ended.returncode, ended.stderr

    def end_all(self) -> None:
        """What a part leaves of daemons ends by a signal; none of the others crashed."""
        for it in self.running:
            if not isinstance(it, Daemon):
                continue
            name = "the daemon" if it.space == OURS else "the other daemon"
            status = it.process.poll()
            if status is None:
                it.ends(name)
            elif status < 0 and status != -signal.SIGKILL:
                check(False, f"{name} ended by {signal.Signals(-status).name}", it.printed())

    def drop(self) -> None:
        for each in self.running:
            each.process.kill()
            each.process.wait()
