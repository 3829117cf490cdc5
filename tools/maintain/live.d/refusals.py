"""A library that refuses one function, each in turn, to a daemon that carries data: the daemon ends with status 1 and a line that names the
call, and its peer is told."""

from __future__ import annotations

import contextlib
import os
import signal
import time
from concurrent.futures import ThreadPoolExecutor
from dataclasses import dataclass
from threading import Event, Thread
from typing import Callable, Iterator

from checking import Failed, Skipped, check, within
from daemon import OTHER, SYSTEM, Daemon, Part, set_up
from daemons import COMES_UP
from linking import called, refusable
from repository import read_text, write_text
from spaces import OURS, THEIRS, flap, inside, ip, make_pair, packet_socket

# Those that are refused from the start on: the first call is the one that counts.
AT_ONCE = {"new", "queue_new", "probe"}
# Those of which the peer cannot be told.
UNTOLD = {"configure", "transmit", "due", *AT_ONCE}
# Those that are called by the team driver alone, or only where a daemon goes on from another one: they are not provoked here.
ELSEWHERE = {"offer_conversation", "resume", "adopt"}
# How many daemons are tried at a time.
TOGETHER = 8
# A fault that the sanitizers find is not status 1.
SANITIZERS = ("ASAN_OPTIONS=exitcode=99", "UBSAN_OPTIONS=exitcode=99")
FLOWS = 40


@dataclass
class Trial:
    """A daemon whose library refuses a function, its peer, and frames of its host."""

    refused: str
    place: int  # of its first link
    links: int
    ours: Daemon
    theirs: Daemon | None
    device: str
    quiet: Event

    def is_done(self, seconds: float) -> bool:
        return within(seconds, lambda: self.ours.process.poll() is not None)

    def tell(self, number: signal.Signals) -> None:
        self.ours.process.send_signal(number)

    def tell_peer(self, number: signal.Signals) -> None:
        if self.theirs:
            self.theirs.process.send_signal(number)

    def send(self) -> None:
        """Sends frames of many flows into the device, until there is to be quiet."""
        out = packet_socket(OURS, self.device, 0)
        while not self.quiet.wait(0.002):
            for flow in range(FLOWS):
                with contextlib.suppress(OSError):
                    out.send(bytes.fromhex(f"02bb000000{flow:02x}" "02aa00000000" "88b5") + bytes(50))
        out.close()


def usual(trial: Trial) -> Iterator[float]:
    """Whoever asks, moves, a peer that answers no marker for longer than frames are held, a link that goes and comes, and the end."""
    inside(OURS, trial.ours.program, "--folder", trial.ours.folder, "--status", "--json", timeout=5)
    trial.tell(signal.SIGUSR2)
    yield 0.5
    trial.tell_peer(signal.SIGSTOP)
    trial.tell(signal.SIGUSR2)
    yield 1.7
    trial.tell_peer(signal.SIGCONT)
    yield 0.5
    flap(THEIRS, f"b{trial.place}", 1)
    yield 1.0
    trial.tell(signal.SIGTERM)
    yield 10.0


def silent_peer(trial: Trial) -> Iterator[float]:
    """A peer that answers no marker, for long."""
    trial.tell_peer(signal.SIGSTOP)
    for _ in range(20):
        trial.tell(signal.SIGUSR2)
        yield 1.0


def still_host(trial: Trial) -> Iterator[float]:
    """No frame for longer than one can be on its way, towards a peer that was asked for a second and answers no markers."""
    yield 3.0
    trial.quiet.set()
    yield 5.0


def no_peer(trial: Trial) -> Iterator[float]:
    """A port comes to run on defaults after six seconds, and is started again."""
    yield 15.0


def reloaded(trial: Trial) -> Iterator[float]:
    """The file has another activity, a port that is held, and a limit of links."""
    file = os.path.join(os.path.dirname(trial.ours.folder), "bundle.conf")
    with open(file, "a", encoding="utf-8") as it:
        it.write("activity=passive\nhold=yes\n")
    trial.tell(signal.SIGHUP)
    yield 3.0
    text = read_text(file)
    write_text(file, text.replace("[Bundle]", "[Bundle]\nmax-links=1"))
    trial.tell(signal.SIGHUP)
    yield 10.0


def another_aggregator(trial: Trial) -> Iterator[float]:
    """Another aggregator has two links, beside the one that carries."""
    for number in (1, 2):
        ip(THEIRS, "link", "set", f"b{trial.place + number}", "up")
    yield 20.0


Steps = Callable[[Trial], Iterator[float]]
# What provokes a call that the usual run does not, with what our end and the other one are given.
OTHERS: dict[str, tuple[Steps, list[str], list[str]]] = {
    "force": (silent_peer, ["--timeout", "long"], []),
    "force_port": (silent_peer, [], []),
    "rest": (still_host, [], ["--marker-responses", "0"]),
    "load": (no_peer, ["--partner-required"], []),
    "leave_conversation": (another_aggregator, [], []),
    **{name: (reloaded, [], []) for name in ("hold", "set_mode", "set_max_links")},
}


def steps_of(refused: str) -> tuple[Steps, list[str], list[str]]:
    return OTHERS.get(refused, (usual, [], []))


def write_file(folder: str, names: list[str], keys: dict[str, str]) -> str:
    """Writes the file of a bundle; answers its path."""
    path = os.path.join(folder, "bundle.conf")
    lines = ["[Bundle]", *(f"{name}={value}" for name, value in keys.items()), *(f"[Port {name}]" for name in names), ""]
    write_text(path, "\n".join(lines))
    return path


def begin(part: Part, program: str, refused: str, place: int, way: list[str]) -> Trial:
    """Starts both ends, with two links, or three for two aggregators."""
    _, own, other = steps_of(refused)
    links = 3 if refused == "leave_conversation" else 2
    numbers, device, folder = range(place, place + links), f"lag{place}", os.path.join(part.folder, f"{refused}-refused{''.join(way)}")
    os.makedirs(folder, exist_ok=True)
    for number in numbers:
        make_pair(number)
        if links > 2 and number > place:
            ip(THEIRS, "link", "set", f"b{number}", "down")
    data = ["--carry", device, "--flight", "50"]
    theirs = None
    if refused != "load":
        names = [f"b{number}" + (":key=6" if links > 2 and number > place else "") for number in numbers]
        theirs = Daemon(part.program, folder, THEIRS, OTHER, "5", *names, options=[*data, "--timeout", "long", *other])
        part.running.append(theirs)
    before = ["env", f"REFUSED={refused}", *SANITIZERS, *(["REFUSED_AT_ONCE=1"] if refused in AT_ONCE else [])]
    names = [f"a{number}" for number in numbers]
    if steps_of(refused)[0] is reloaded:
        file = write_file(folder, names, {"key": "23", "system": f"32768,{SYSTEM}", "carry": device, "flight": "50", **{word[2:]: "yes" for word in way}})
        ours = Daemon(program, folder, OURS, SYSTEM, "23", *names, before=before, file=file)
    else:
        ours = Daemon(program, folder, OURS, SYSTEM, "23", *names, options=[*data, *way, *own], before=before)
    part.running.append(ours)
    return Trial(refused, place, links, ours, theirs, device, Event())


def provoke(trial: Trial) -> None:
    """Has the library refuse, once both ends carry, until the daemon ended."""
    carrying = [f"a{trial.place + number}" for number in range(1 if trial.links > 2 else 2)]
    if trial.refused in AT_ONCE:
        for end in filter(None, (trial.theirs, trial.ours) if trial.refused == "probe" else ()):
            set_up(end, trial.device)
        trial.is_done(COMES_UP)
        return
    for end in filter(None, (trial.theirs, trial.ours)):
        set_up(end, trial.device)
    if not within(COMES_UP, lambda: trial.ours.distributes(*carrying) if trial.theirs else bool(trial.ours.ports())):
        raise Failed(f"{trial.refused}: the links carry", trial.ours.printed())
    sender = Thread(target=trial.send)
    sender.start()
    try:
        time.sleep(1)
        trial.tell(signal.SIGURG)
        for seconds in steps_of(trial.refused)[0](trial):
            if trial.is_done(seconds):
                break
    finally:
        trial.quiet.set()
        sender.join()


def judge(trial: Trial) -> list[str]:
    """What is wrong with how the daemon ended."""
    status, printed = trial.ours.process.poll(), trial.ours.printed()
    wrong = [] if status == 1 else [f"status {status}"]
    wrong += [] if f"niw_{trial.refused}: refused with 13" in printed else ["no line names the call"]
    if trial.theirs and trial.refused not in UNTOLD:
        trial.tell_peer(signal.SIGCONT)
        told = within(5, lambda: trial.theirs and not any(port["status"] == "it distributes" for port in trial.theirs.ports().values()))
        wrong += [] if told else ["its peer was not told"]
    return [f"{trial.refused}: {', '.join(wrong)}\n{printed[-3000:]}"] if wrong else []


def try_one(part: Part, program: str, refused: str, place: int, way: list[str]) -> list[str]:
    trial = begin(part, program, refused, place, way)
    try:
        provoke(trial)
        return judge(trial)
    except Failed as why:
        return [" ".join(map(str, why.args))]
    finally:
        for daemon in filter(None, (trial.ours, trial.theirs)):
            if daemon.process.poll() is None:
                daemon.process.kill()
            daemon.process.wait()


def refuse_each(part: Part, way: list[str]) -> None:
    names = refusable()
    check(set(names) == called(), f"each of the {len(names)} functions that the daemon calls can be refused", set(names) ^ called())
    if not os.path.exists("/dev/net/tun"):
        raise Skipped("no /dev/net/tun")
    program = part.refusing()
    with ThreadPoolExecutor(TOGETHER) as pool:
        tried = [pool.submit(try_one, part, program, name, 10 + 3 * at, way) for at, name in enumerate(names) if name not in ELSEWHERE]
        wrong = [line for one in tried for line in one.result()]
    check(not wrong, f"each of them refused, but for {len(ELSEWHERE)}, {' '.join(way) or 'plain'}: the daemon ends with status 1 and a line that names it", *wrong)


PARTS = {"each call refused": lambda part: refuse_each(part, []), "each call refused, fast": lambda part: refuse_each(part, ["--fast"])}
