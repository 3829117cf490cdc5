"""A daemon that hands over to the next one, is killed, or is stopped, while frames flow: what is lost, for how long, and what its peer sees."""

from __future__ import annotations

import contextlib
import fcntl
import glob
import os
import re
import signal
import socket
import time
from array import array
from dataclasses import replace
from functools import partial
from threading import Event, Thread, Timer
from typing import Callable, Iterator, Sequence

from bonds import (COMES_BACK, COMES_UP, DEVICE, DIRECT, FLOWS, MIDDLE, RATE, End, Outcome, Programs, ask_gro, cables, check_none_lost,
                   check_order, late, lay_direct, move_all, run_flows, wait_for_links)
from checking import Failed, check, found, within
from daemon import ENDS, SYSTEM, Daemon
from lateness import LATE
from linking import want_systemd
from repository import read_text
from spaces import OURS, THEIRS, inside, ip

ADDRESS = "192.0.2.1/24"
# After how many seconds the unit starts a daemon that failed.
RESTARTS = 0.2
# How long after a change the state has it, in seconds.
WRITTEN = 1.2
# How long the longest gap of a flow may be in milliseconds, where nothing is lost, on a machine that has other things to do.
SHORT_GAP = 1000
# Links of which one is slower than the other one by nearly a flight, in microseconds; when a daemon is killed, and how many seconds before that
# each conversation is to move: a state is written each second.
UNEQUAL = (0, 700000)
LONG_FLIGHT = ("--flight", "800")
KILLS = (3.0, 8.0, 13.0)
MOVES_AHEAD = 0.2
# What a daemon that is killed had in hand at most: what it had read and not sent.
IN_HAND = 4 * 64
# How many frames wait for a daemon in the device, and frames a second of which no more come while systemd starts it.
HOST_QUEUE = 4096
SLOW_RATE = 4000
# Above the files that a program begins with.
HIGH = 200
# A manager of services that keeps nothing, and what a daemon has that carries no data.
FORGETFUL = ("env", "NOTIFY_SOCKET=@nobody")
UNPRIVILEGED = ("setpriv", "--bounding-set", "-all,+net_raw", "--inh-caps", "-all", "--")
# How many tables the programs of the kernel share with the daemon.
TABLES = 4
WAYS: dict[str, tuple[str, ...]] = {"plain": (), "offload": ("--offload",), "fast": ("--fast",)}


class Manager:
    """What a manager of services does: it keeps the files that a daemon stores, and hands them to the next one."""

    copies = 1  # of each file that it hands over: systemd joins the same ones where the kernel can compare files
    busy = 0.0  # for how many seconds it has other things to do before it closes what it is to keep no more

    def __init__(self, folder: str) -> None:
        want_systemd()
        self.path = os.path.join(folder, "manager")
        self.files: dict[str, int] = {}
        self.settled = Event()
        self.socket = socket.socket(socket.AF_UNIX, socket.SOCK_DGRAM)
        self.socket.bind(self.path)
        self.reader = Thread(target=self.read, daemon=True)
        self.reader.start()

    def read(self) -> None:
        files = array("i")
        while True:
            text, more, _, _ = self.socket.recvmsg(4096, socket.CMSG_SPACE(8 * files.itemsize))
            if text == b"END":
                return
            if text == b"SETTLED":
                self.settled.set()
                continue
            files = array("i", b"".join(octets for _, kind, octets in more if kind == socket.SCM_RIGHTS))
            told = dict(line.partition("=")[::2] for line in text.decode().splitlines())
            name = told.get("FDNAME", "")
            if "FDSTOREREMOVE" in told:
                time.sleep(self.busy)
            if name in self.files and (files or "FDSTOREREMOVE" in told):
                os.close(self.files.pop(name))
            if "FDSTORE" in told and files:
                self.files[name] = fcntl.fcntl(files[0], fcntl.F_DUPFD, HIGH)
            for it in files:
                os.close(it)

    def settle(self) -> None:
        """Does all that it was told so far."""
        self.settled.clear()
        self.socket.sendto(b"SETTLED", self.path)
        self.settled.wait(ENDS)

    def before(self) -> list[str]:
        """What stands before the words of a daemon, so that it gets what is kept."""
        names, files = list(self.files) * self.copies, list(self.files.values()) * self.copies
        text = f"export NOTIFY_SOCKET={self.path} FDSTORE={HIGH}; "
        if self.files:
            text += f"export LISTEN_PID=$$ LISTEN_FDS={len(names)} LISTEN_FDNAMES={':'.join(names)}; "
        moved = " ".join([*(f"{3 + place}<&{file}" for place, file in enumerate(files)), *(f"{file}<&-" for file in self.files.values())])
        return ["bash", "-c", f'{text} exec "$@" {moved}', "bash"]

    def close(self) -> None:
        """Keeps nothing any more, as where its unit is stopped."""
        self.socket.sendto(b"END", self.path) if self.reader.is_alive() else None
        self.reader.join()
        for it in self.files.values():
            os.close(it)
        self.files.clear()
        self.socket.close()
        os.unlink(self.path)


class Kept(End):
    """An end whose daemon is started again; with a manager, that one keeps its files."""

    def __init__(self, programs: Programs, space: str, options: Sequence[str], manager: Manager | None = None, members: Sequence[str] = ()) -> None:
        self.programs, self.at, self.options, self.manager = programs, space, options, manager
        self.members = members
        self.launch()

    def given(self) -> tuple[Sequence[str], list[int]]:
        """What stands before the words of the next daemon, and the files that it gets."""
        if self.manager:
            self.manager.settle()
        return (self.manager.before(), list(self.manager.files.values())) if self.manager else (FORGETFUL, [])

    def launch(self) -> None:
        before, files = self.given()
        super().__init__(self.programs, self.at, options=self.options, before=before, files=files, names=self.members)

    def without_carry(self, rights: Sequence[str] = ()) -> Daemon:
        """Its daemon hands over to one that carries no data."""
        self.leave()
        before, files = self.given()
        return Daemon(self.programs.daemon, self.programs.folder, self.at, SYSTEM, "23", "a0", "a1", before=[*before, *rights], files=files)

    def again(self, by: signal.Signals, after: float = 0.0, between: Callable[[], object] = lambda: None) -> None:
        """Its daemon ends by a signal, and is started again."""
        self.leave(by)
        time.sleep(after)
        between()
        self.launch()


@contextlib.contextmanager
def managed(programs: Programs, options: Sequence[str], *, space: str = OURS, has_manager: bool = True,
            queues: int = 1, delays: Sequence[int] = ()) -> Iterator[tuple[Kept, End]]:
    """Two ends whose links all carry; the daemon of the first one is started again."""
    manager = Manager(programs.folder) if has_manager else None
    try:
        with cables(programs, delays, queues):
            kept = Kept(programs, space, options, manager)
            ends = [kept, End(programs, THEIRS if space == OURS else OURS, options=options)]
            ip(space, "address", "add", ADDRESS, "dev", DEVICE)
            wait_for_links(*ends)
            yield kept, ends[1]
    finally:
        if manager:
            manager.close()


def device_number(space: str = OURS) -> str:
    return inside(space, "cat", f"/sys/class/net/{DEVICE}/ifindex").stdout.strip()


def seen(end: End) -> str:
    """What an end has told of its ports and of its bundle."""
    return "".join(line for line in end.printed().splitlines(True) if " port " in line or " bundle " in line)


def flows_through(programs: Programs, event: Callable[[], object], rate: int = RATE) -> Outcome:
    """What becomes of frames, with an event in the midst of them."""
    def happen() -> None:
        event()

    run_flows(programs, 1)
    return run_flows(programs, 5, [(1.5, happen)], rate=rate)


def check_unseen(what: str, kept: Kept, peer: End, before: tuple[str, str], outcome: Outcome) -> None:
    """The peer saw nothing, and the device is the same one, with its address."""
    told = kept.text(), kept.printed()[-3000:], peer.printed()[-2000:]
    check_order(outcome, what, *told)
    check((seen(peer), device_number(kept.at)) == before, f"{what}: the peer saw nothing, and {DEVICE} is the same device", before, *told)
    check(ADDRESS in inside(kept.at, "ip", "address", "show", "dev", DEVICE).stdout, f"{what}: it has its address", *told)
    check(within(COMES_BACK, lambda: kept.links() == DIRECT), f"{what}: both links carry, and its carrier is on", *told)


def check_lost(outcome: Outcome, most: int, what: str, kept: Kept) -> None:
    """No more frames are lost than a daemon had in hand, also of those that the kernel did not take, nor for long. Where the device had no room for
    all others, and the machine gave its processors so late that this alone can be why, a line says so, and nothing is counted."""
    lost = outcome.sent - outcome.received
    if most < lost <= most + outcome.no_room and outcome.waited >= LATE:
        print(f"inconclusive: {what}: {lost} frames are lost, {outcome.no_room} found no room; {late(outcome)}", flush=True)
        return
    check(lost <= most and outcome.gap_ms < SHORT_GAP, f"{what}: {lost} frames are lost", outcome, kept.text())


def places(kept: Kept) -> list[str]:
    """The conversations, and the interface of each, as the daemon last wrote it."""
    time.sleep(WRITTEN)
    path = max(glob.glob(f"{kept.folder}/*.{'a' if kept.at == OURS else 'b'}0.state"), key=os.path.getmtime)
    return sorted(line for line in read_text(path).splitlines() if line.startswith("on "))


def stay(programs: Programs) -> None:
    """Conversations that moved off the port that the library picks are where they were; no marker and no force takes them there."""
    with managed(programs, WAYS["fast"]) as (kept, _):
        run_flows(programs, 1)
        picked = places(kept)
        run_flows(programs, 2, [(1, move_all(kept))])
        moved = places(kept)
        kept.again(signal.SIGUSR1)
        check(len(set(moved) - set(picked)) >= FLOWS and places(kept) == moved, f"{FLOWS} conversations that had moved stay", picked, moved, kept.text())
        carry = kept.carry()
        check(carry["moves"] == carry["forced"] == carry["markers_sent"] == 0, "with no marker and no move", kept.text())


def killed_in_moves(programs: Programs) -> None:
    """A daemon that was killed right behind moves goes on where each conversation was then: its frames are still on the slower link."""
    with managed(programs, [*WAYS["plain"], *LONG_FLIGHT], delays=UNEQUAL) as (kept, _):
        events: list[tuple[float, Callable[[], None]]] = []
        for kill in KILLS:
            events += [(kill - MOVES_AHEAD, move_all(kept)), (kill, partial(kept.again, signal.SIGKILL))]
        outcome = run_flows(programs, KILLS[-1] + 3, events, rate=SLOW_RATE)
        check_order(outcome, f"plain, killed {len(KILLS)} times behind moves", kept.text(), kept.printed()[-2000:])


def another_hash(programs: Programs) -> None:
    """Another hash has other tables, with which the next daemon goes on."""
    with managed(programs, WAYS["fast"]) as (kept, peer):
        kept.options = [*WAYS["fast"], "--hash", "layer3+4"]
        kept.again(signal.SIGUSR1)
        check_flows(programs, kept, peer, "fast, another hash")
        tables = [name for name in kept.manager.files if name.startswith("map-")] if kept.manager else []
        check(len(tables) == TABLES, f"fast, another hash: {len(tables)} tables are kept", kept.text())
        check_lost(flows_through(programs, partial(kept.again, signal.SIGUSR1)), 0, "fast, another hash, handed over", kept)


def hand_over(programs: Programs, name: str, more: Sequence[str] = (), queues: int = 1) -> None:
    """The daemon of one way hands over under a manager, and is killed: the sending end, twice, and the receiving one. A peer whose partner waited so
    long for a processor that its LACPDU came too late may see it; then a line says so, and order alone is looked at."""
    for space, end, events in (OURS, "sends", ("handed over", "handed over again", "killed")), (THEIRS, "receives", ("handed over", "killed")):
        with managed(programs, [*WAYS[name], *more], space=space, queues=queues) as (kept, peer):
            before = seen(peer), device_number(space)
            for event in events:
                signals = (signal.SIGKILL, RESTARTS) if event == "killed" else (signal.SIGUSR1, 0.0)
                outcome = flows_through(programs, partial(kept.again, *signals))
                what, most = f"{name}, the end that {end} is {event}", IN_HAND if event == "killed" else 0
                if (seen(peer), device_number(space)) != before and outcome.waited >= LATE:
                    check_order(outcome, what, kept.text(), kept.printed()[-3000:])
                    print(f"inconclusive: {what}: the peer saw it; {late(outcome)}", flush=True)
                    wait_for_links(kept, peer)
                    before = seen(peer), device_number(space)
                    continue
                check_unseen(what, kept, peer, before, outcome)
                check_lost(outcome, most, what, kept)


def handover_plain(programs: Programs) -> None:
    hand_over(programs, "plain")


def handover_offload(programs: Programs) -> None:
    hand_over(programs, "offload")


def handover_fast(programs: Programs) -> None:
    stay(programs)
    another_hash(programs)
    hand_over(programs, "fast")


def handover_alone(programs: Programs) -> None:
    """Without a manager the device outlives the daemon, and what comes meanwhile is lost."""
    for name, words in WAYS.items():
        with managed(programs, words, has_manager=False) as (ours, theirs):
            before = seen(theirs), device_number()
            outcome = flows_through(programs, lambda: ours.again(signal.SIGUSR1))
            check_unseen(f"{name}, handed over without a manager", ours, theirs, before, outcome)
            ours.ends("the daemon")
            check(device_number() == "", f"{name}: at a stop the device goes")


def check_flows(programs: Programs, kept: Kept, peer: End, what: str) -> None:
    """Data comes, and nothing else is told where it does not."""
    links = len(kept.members) or DIRECT
    check(within(COMES_UP, lambda: kept.links() == peer.links() == links), f"{what}: each link carries", kept.text(), kept.printed()[-2000:])
    run_flows(programs, 1)
    outcome = run_flows(programs, 2)
    check_order(outcome, what, kept.text(), kept.printed()[-2000:])
    check_none_lost(outcome, kept, peer, f"{what}: {outcome.lost()} frames are lost afterwards")
    if "--fast" in kept.options:
        passed = kept.carry()["fast_conversations"]
        check(passed >= FLOWS // 2, f"{what}: the kernel passes {passed} conversations on", kept.text(), kept.printed()[-2000:])


def remake() -> None:
    """The second interface is deleted, with its other end, and made again, with GRO."""
    ip(OURS, "link", "del", "a1")
    lay_direct(1)
    ask_gro(OURS, "a1", True)


def rename() -> None:
    """The device has another name for a second."""
    ip(OURS, "link", "set", DEVICE, "down", "name", "other0")
    Timer(1, ip, (OURS, "link", "set", "other0", "name", DEVICE, "up")).start()


def change_between(programs: Programs, words: Sequence[str]) -> None:
    """What an administrator does between both daemons: to the device, to a member, to the settings."""
    name = " ".join(words) or "plain"
    with managed(programs, words) as (kept, peer):
        for what, between in (("a member made anew", remake), ("the device deleted", lambda: ip(OURS, "link", "del", DEVICE)),
                              ("the device moved away", lambda: ip(OURS, "link", "set", DEVICE, "netns", MIDDLE)), ("the device renamed", rename)):
            kept.again(signal.SIGUSR1, 0, between)
            check_flows(programs, kept, peer, f"{name}, {what}")
        other, kept.options = kept.options, ["--offload"] if words else ["--fast"]
        kept.again(signal.SIGUSR1)
        said = lambda: "it belongs to other settings" in kept.printed()
        check(within(ENDS, said), f"{name}, another way: a line says so", kept.printed())
        check_flows(programs, kept, peer, f"{name}, another way")
        kept.options, kept.members = other, ("a0",)
        kept.again(signal.SIGUSR1)
        check(within(ENDS, lambda: ask_gro(OURS, "a1")), f"{name}: what is a member no more gets GRO back", kept.printed())
        within(COMES_UP, lambda: peer.links() == 1)
        check_flows(programs, kept, peer, f"{name}, a link that was taken out")
        kept.leave()
        peer.process.kill()
        kept.launch()
        check(within(4.5, lambda: kept.links() == 0), f"{name}: where the peer is gone, the carrier goes in its time", kept.text(), kept.printed())


def handover_changes(programs: Programs) -> None:
    change_between(programs, WAYS["plain"])
    change_between(programs, WAYS["fast"])


def handed_twice(programs: Programs) -> None:
    """A manager hands over each file twice, as where the kernel cannot compare files: what is in use goes on."""
    for name in "plain", "fast":
        with managed(programs, WAYS[name]) as (kept, peer):
            time.sleep(1)
            manager, before = kept.manager, (seen(peer), device_number())
            if not manager:
                raise Failed("there is a manager")
            manager.copies = 2
            for turn in "first", "second":
                outcome = flows_through(programs, lambda: kept.again(signal.SIGUSR1))
                check_unseen(f"{name}, {turn} restart", kept, peer, before, outcome)
                check(outcome.lost() <= IN_HAND, f"{name}, {turn} restart: {outcome.lost()} of {outcome.sent:,} frames are lost", outcome, kept.text(), kept.printed()[-2000:])
            manager.settle()
            check("tap" in " ".join(manager.files), f"{name}: the manager keeps what is in use", manager.files)
            kept.ends("the daemon")


def is_known(kept: Kept) -> bool:
    """Whether it is kept what a1 had."""
    index = inside(OURS, "cat", "/sys/class/net/a1/ifindex").stdout.strip()
    return os.path.exists(f"{kept.folder}/{os.stat(f'/run/netns/{OURS}').st_ino}.{index}.member")


def has_clsact(name: str) -> bool:
    return "clsact" in inside(OURS, "tc", "qdisc", "show", "dev", name).stdout


def released(programs: Programs, name: str) -> None:
    """Where carry is taken out, what was a member gets what it had; else a later daemon sets it back."""
    with managed(programs, ()) as (kept, _):
        kept.again(signal.SIGUSR1, 0, remake)
        check(within(COMES_BACK, lambda: kept.links() == DIRECT) and not ask_gro(OURS, "a1"), f"{name}: a member has no GRO", kept.text())
        plain = kept.without_carry()
        check(within(ENDS, lambda: ask_gro(OURS, "a1") and not is_known(kept)), f"{name}, without carry: it has GRO again", plain.printed())
        check(within(ENDS, lambda: not device_number()) and not has_clsact("a0"), f"{name}, without carry: device and filters are gone", plain.printed())
        plain.ends("it")
        kept.launch()
        kept.links()
        plain = kept.without_carry(UNPRIVILEGED)
        within(ENDS, lambda: "other settings" in plain.printed())
        check(not ask_gro(OURS, "a1") and is_known(kept), f"{name}, without the right: it is known what a member had", plain.printed())
        plain.ends("it")
        kept.launch()
        kept.links()
        kept.ends("the next daemon")
        check(ask_gro(OURS, "a1") and not is_known(kept) and not has_clsact("a0"), f"{name}: one with the right sets it back", kept.printed())


def handover_released(programs: Programs) -> None:
    released(programs, "TCX")
    released(replace(programs, daemon=programs.old_kernel), "clsact")


def lay_elsewhere() -> None:
    """Pairs whose one end has, in another namespace, the name and the number that an interface has in theirs."""
    for number in range(DIRECT):
        index = inside(THEIRS, "cat", f"/sys/class/net/b{number}/ifindex").stdout.strip()
        ip(OURS, "link", "set", f"a{number}", "down", "name", f"old{number}")
        ip(MIDDLE, "link", "add", f"b{number}", "index", index, "type", "veth", "peer", "name", f"a{number}", "netns", OURS)
        ip(MIDDLE, "link", "set", f"b{number}", "up")
        ip(OURS, "link", "set", f"a{number}", "up")


def handover_elsewhere(programs: Programs) -> None:
    """The next daemon has another network namespace, with interfaces of the same numbers, and takes nothing of the old one."""
    for name, words in WAYS.items():
        with managed(programs, words, space=THEIRS) as (kept, peer):
            kept.at = MIDDLE
            kept.again(signal.SIGUSR1, 0, lay_elsewhere)
            ip(MIDDLE, "address", "add", ADDRESS, "dev", DEVICE)
            ip(OURS, "address", "add", "192.0.2.2/24", "dev", DEVICE)
            both = lambda: kept.links() == peer.links() == DIRECT
            check(within(COMES_UP, both), f"{name}, another namespace: both links carry", kept.text(), kept.printed()[-2000:])
            pinged = lambda: inside(MIDDLE, "ping", "-c", "3", "-W", "1", "192.0.2.2").returncode == 0
            check(within(ENDS, pinged), f"{name}, another namespace: data comes and goes", kept.text(), peer.text(), kept.printed()[-2000:])


def tells_of_device(path: str) -> bool:
    """Whether a state is whole, and of the device that is there."""
    if not os.path.exists(path):
        return False
    lines = read_text(path).splitlines()
    return "end" in lines and any(line.startswith(f"tap {device_number()} ") for line in lines)


def handover_anew(programs: Programs) -> None:
    """A namespace that is made anew may have the number of one that is gone, and the device that is made there has its number: it is set up, too."""
    for _ in range(2):
        with cables(programs, ()):
            own = f"{programs.folder}/run/{os.stat(f'/run/netns/{OURS}').st_ino}.a0.state"
            for path in glob.glob(f"{programs.folder}/run/*.a0.state"):
                os.rename(path, own)
            ours = End(programs, OURS)
            check(within(ENDS, lambda: tells_of_device(own)), "the state tells of the device", ours.printed())
            told = inside(OURS, "ip", "link", "show", DEVICE).stdout
            check(SYSTEM in told and f"qlen {HOST_QUEUE}" in told, f"{DEVICE} has its address, and room for {HOST_QUEUE} frames", told, ours.printed())


def handover_foreign(programs: Programs) -> None:
    """A namespace that is made anew may have the number of one that is gone, and a device of others the number of the one that was left there."""
    left = f"{programs.folder}/run/{{}}.a0.state"
    with cables(programs, ()):
        ours = End(programs, OURS)
        path = left.format(os.stat(f"/run/netns/{OURS}").st_ino)
        check(within(ENDS, lambda: tells_of_device(path)), "the state tells of the device", ours.printed())
        ours.kill()
    with cables(programs, ()):
        ip(OURS, "tuntap", "add", "foreign0", "mode", "tap")
        number = inside(OURS, "cat", "/sys/class/net/foreign0/ifindex").stdout.strip()
        with open(path, encoding="ascii") as state:
            text = re.sub(r"^tap \d+ \d", f"tap {number} 1", state.read(), flags=re.M)
        os.remove(path)
        with open(left.format(os.stat(f"/run/netns/{OURS}").st_ino), "w", encoding="ascii", opener=lambda name, flags: os.open(name, flags, 0o600)) as state:
            state.write(text)
        ours = End(programs, OURS, options=("--fast",))
        said = within(ENDS, lambda: "of another network namespace" in ours.printed())
        check(said, "a line says that the state is of another network namespace", ours.printed())
        check(inside(OURS, "ip", "link", "show", "foreign0").returncode == 0, "the device of others is still there", ours.printed())


def handover_old_kernel(programs: Programs) -> None:
    """A kernel that gives the device a carrier as it is opened: it has none while nothing flows."""
    with managed(replace(programs, daemon=programs.old_kernel), (), has_manager=False) as (kept, peer):
        kept.leave()
        peer.process.kill()
        time.sleep(4)
        kept.launch()
        kept.links()
        carrier = inside(OURS, "cat", f"/sys/class/net/{DEVICE}/carrier").stdout.strip()
        check(carrier == "0", "an old kernel: there is no carrier where the peer is gone", carrier, kept.text())


PARTS = {it.__name__: it for it in (handover_plain, handover_offload, handover_fast, handover_alone, handover_changes, handover_released, killed_in_moves,
                                   handover_elsewhere, handover_anew, handover_foreign, handover_old_kernel, handed_twice)}
