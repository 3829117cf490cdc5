"""What is tried of members that come and go while a daemon runs, of a daemon that is started again with fewer of them, and of other timeouts."""

from __future__ import annotations

import contextlib
import signal
import subprocess
import time
from threading import Event, Thread
from typing import Callable

from bonds import COMES_UP, DEVICE, FLIGHT, RATE, End, Outcome, Programs, cables, check_order, kernel_count, late, lay_direct, run_flows, wait_for_links
from checking import Failed, check, within
from daemon import SYSTEM
from lateness import LATE
from repository import read_text, write_text
from restarting import WAYS, Kept, Manager, managed, seen
from spaces import OURS, THEIRS, inside, ip

# How many links there are, and how many changes.
LINKS, CHANGES = 4, 50
# How many of a peer's frames may be on their way as a link is held: of a hundredth of a second, on a machine that has other things to do of five.
ON_THEIR_WAY = RATE // 20


def order(end: End, *words: str) -> subprocess.CompletedProcess[str]:
    """Has a daemon change its bundle."""
    return inside(end.space, end.program, "--folder", end.folder, *words)


def carried(end: End) -> dict[str, int]:
    """The ports that carry, and their numbers."""
    return {port["interface"]: port["port"] for port in end.told()["ports"] if port["status"] == "it distributes"}


def change_often(end: End, names: list[str], failed: list[str], ended: Event) -> None:
    """Has interfaces join and leave, in turns."""
    for _ in range(CHANGES // (2 * len(names)) + 1):
        for word in "--add", "--remove":
            for name in names:
                done = order(end, word, name)
                if done.returncode:
                    failed.append(f"{word} {name}: {done.stderr}")
            if word == "--add" and not within(COMES_UP, lambda: set(names) <= carried(end).keys()):
                failed.append(f"{names} carry")
    ended.set()


def backlog_lost() -> int:
    """What the kernel dropped, of all devices of this machine, since no processor took it in time."""
    return sum(int(line.split()[1], 16) for line in read_text("/proc/net/softnet_stat").splitlines())


def check_changed(failed: list[str], whole: Outcome, what: str, end: End) -> None:
    """Each interface joined and left. Where a daemon did not answer in time, on a machine that gave its processors so late that this alone can be why,
    a line says so, and nothing is counted."""
    if failed and all("does not answer" in it for it in failed) and whole.waited >= LATE:
        print(f"inconclusive: {what}: {len(failed)} orders had no answer in time; {late(whole)}", flush=True)
    else:
        check(not failed, f"{what}: {CHANGES} interfaces join and leave", failed, end.printed()[-2000:])


def check_lost(outcome: Outcome, most: int, what: str, *told: str, waits: bool = False) -> None:
    """No more frames are lost than so many. Where the kernel dropped all others, as no processor took them in time, a line says so; and where they `wait` at a
    daemon that a peer sends to, and are no more than came while daemons and cables waited for a processor."""
    held = int(RATE * outcome.waited) if waits and outcome.waited >= LATE else 0
    if most < outcome.lost() <= most + outcome.no_room:
        print(f"inconclusive: {what}; no processor took {outcome.no_room:,} frames in time", flush=True)
    elif most < outcome.lost() <= most + outcome.no_room + held:
        print(f"inconclusive: {what}; {late(outcome)}", flush=True)
    else:
        check(outcome.lost() <= most, what, outcome, *told)


def kernel_lost() -> int:
    """What the devices of both ends had no room for."""
    return kernel_count(OURS, DEVICE, "tx_dropped") + kernel_count(THEIRS, DEVICE, "rx_dropped")


def flow_while(programs: Programs, end: End, names: list[str], what: str) -> Outcome:
    """What becomes of frames while members of one end come and go."""
    failed: list[str] = []
    ended = Event()
    thread = Thread(target=change_often, args=(end, names, failed, ended))
    thread.start()
    whole, before, dropped = Outcome(), kernel_lost(), backlog_lost()
    while not ended.is_set():
        part = run_flows(programs, 10)
        for field in ("sent", "refused", "received", "twice", "overtaken", "strange", "lost_here", "waited"):
            setattr(whole, field, getattr(whole, field) + getattr(part, field))
        whole.gap_ms = max(whole.gap_ms, part.gap_ms)
    thread.join()
    whole.refused += kernel_lost() - before  # what the device had no room for, while the daemon was kept from its processor
    whole.no_room = backlog_lost() - dropped
    check_changed(failed, whole, what, end)
    check_order(whole, f"{what}: through {CHANGES} changes", end.text())
    return whole


def changes(programs: Programs) -> None:
    """Interfaces join and leave, of either end, under a load: others lose nothing."""
    for way, options in (*WAYS.items(), ("queues=all", ("--fast", "--queues", "all"))):
        with cables(programs, ()):
            for number in range(2, LINKS):
                lay_direct(number)
            ours, theirs = End(programs, OURS, options=options, links=2), End(programs, THEIRS, options=options, links=LINKS)
            wait_for_links(ours, theirs)
            outcome = flow_while(programs, ours, ["a2", "a3"], f"{way}, at the sending end")
            what = f"{outcome.sent - outcome.received} of {outcome.sent:,} frames are lost, {outcome.refused} of them before the daemon"
            check_lost(outcome, outcome.lost_here, f"{way}: {what}", ours.text(), theirs.text())
            check(carried(ours) == {"a0": 1, "a1": 2} and ours.links() == 2, f"{way}: two ports are left", ours.text())
            changed = [ours.count(name, "distributed") for name in ("a0", "a1")]
            check(changed == [1, 1], f"{way}: they distribute since the start", changed, ours.printed())
            order(ours, "--add", "a2")
            order(ours, "--add", "a3")
            if not within(COMES_UP, lambda: theirs.links() == LINKS):
                raise Failed("four links carry", theirs.text())
            for name in "b2", "b3":
                order(theirs, "--remove", name)
            outcome = flow_while(programs, theirs, ["b2", "b3"], f"{way}, at the receiving end")
            what = f"{outcome.lost()} of {outcome.sent:,} frames were on their way on links that left"
            check_lost(outcome, CHANGES // 2 * ON_THEIR_WAY, f"{way}: {what}", ours.text(), theirs.text(), waits=True)
            ours.ends("the daemon")
            theirs.ends("the other one")


def fewer(programs: Programs) -> None:
    """A daemon is started again with a member gone, and with that one again: the other ports keep their numbers, and their peers see nothing."""
    for way, options in WAYS.items():
        with contextlib.closing(Manager(programs.folder)) as manager, cables(programs, ()):
            lay_direct(2)
            kept = Kept(programs, OURS, options, manager, ("a0", "a1", "a2"))
            theirs = End(programs, THEIRS, options=options, links=3)
            wait_for_links(kept, theirs, count=3)
            time.sleep(1)
            before = len(theirs.printed())
            kept.members = ("a0", "a2")
            outcome = run_flows(programs, 6, [(1, lambda: kept.again(signal.SIGUSR1))])
            check_order(outcome, f"{way}: without a1", kept.text())
            check(carried(kept) == {"a0": 1, "a2": 3}, f"{way}: the others keep their numbers", kept.text())
            lines = [line for line in theirs.printed()[before:].splitlines() if " port " in line and (" b0:" in line or " b2:" in line)]
            check(not lines, f"{way}: their peers saw nothing", *lines)
            check("b1: the partner is not synchronized" in theirs.printed()[before:], f"{way}: that of a1 was told", theirs.printed()[before:])
            check("a1: it left the bundle" in kept.printed() and len(kept.told()["ports"]) == 2, f"{way}: it left", kept.text(), kept.printed())
            check(outcome.lost() <= 4 * 64, f"{way}: {outcome.lost()} of {outcome.sent:,} frames were in hand", outcome, kept.text())
            kept.members = ("a0", "a1", "a2")
            kept.again(signal.SIGUSR1)
            check(within(COMES_UP, lambda: carried(kept) == {"a0": 1, "a1": 2, "a2": 3}), f"{way}: with a1 again", kept.text())
            for name in "b0", "b2":
                check(theirs.count(name, "distributed") == 1, f"{way}: {name} distributes since the start", theirs.printed())
            kept.ends("the daemon")


def none_left(programs: Programs) -> None:
    """All members leave, and come back: with fewer than min-links the bundle is down."""
    with cables(programs, ()):
        ours, theirs = End(programs, OURS, options=["--min-links", "2"], links=1), End(programs, THEIRS)
        check(within(COMES_UP, lambda: carried(ours) == {"a0": 1}) and ours.told()["state"] == "down", "one link of two that are wanted is down", ours.text())
        order(ours, "--add", "a1")
        check(within(COMES_UP, lambda: ours.told()["state"] == "up"), "two are up", ours.text())
        for name in "a1", "a0":
            check(order(ours, "--remove", name).returncode == 0, f"{name} leaves", ours.printed())
        told = ours.told()
        check(told["state"] == "down" and not told["ports"] and not told["carry"]["carrier"], "without a port it is down", told)
        check(not theirs.carry()["carrier"], "and so is the other end", theirs.text())
        for name in "a1", "a0":
            order(ours, "--add", name)
        check(within(COMES_UP, lambda: ours.links() == theirs.links() == 2), "both come back", ours.text())
        ip(OURS, "link", "set", "a0", "down")
        time.sleep(1)
        check(order(ours, "--remove", "a0").returncode == 0, "one whose link is down leaves at once", ours.printed())
        refused = order(ours, "--remove", "a0")
        check(refused.returncode == 1 and "it is no port of this bundle" in refused.stderr, "once", refused)
        nobody = inside(OURS, "setpriv", "--reuid", "65534", "--clear-groups", ours.program, "--folder", ours.folder, "--remove", "a1")
        check(nobody.returncode == 1 and carried(ours) == {"a1": 1}, "and only for root", nobody, ours.text())
        ours.ends("the daemon")


def timeouts(programs: Programs) -> None:
    """The file of a daemon has other timeouts, long ones and short ones again: no frame is lost, and no port changes."""
    for way, keys in {"plain": "", "fast": "fast=yes\n"}.items():
        with cables(programs, ()):
            path = f"{programs.folder}/timeouts.conf"

            def give(timeout: str) -> None:
                text = f"[Bundle]\nkey=23\nsystem=32768,{SYSTEM}\ncarry={DEVICE}\nflight={FLIGHT}\n{keys}timeout={timeout}\n[Port a0]\n[Port a1]\n"
                write_text(path, text)

            def change(timeout: str) -> None:
                give(timeout)
                ours.process.send_signal(signal.SIGHUP)

            give("short")
            ours, theirs = End(programs, OURS, file=path), End(programs, THEIRS, options=WAYS[way])
            wait_for_links(ours, theirs)
            run_flows(programs, 1)
            before = seen(ours), seen(theirs)
            outcome = run_flows(programs, 9, [(1, lambda: change("long")), (7, lambda: change("short"))])
            check_order(outcome, f"{way}: long timeouts, and short ones", ours.text())
            check_lost(outcome, outcome.lost_here, f"{way}: {outcome.sent - outcome.received} of {outcome.sent:,} frames are lost", ours.text(), theirs.text())
            check(ours.printed().count("read again, 2 ports changed") == 2, f"{way}: the timeouts changed twice", ours.printed())
            check((seen(ours), seen(theirs)) == before, f"{way}: no port and no bundle changed", ours.printed(), theirs.printed())
            ours.ends("the daemon")
            theirs.ends("the other one")


def removed_and_added(programs: Programs) -> None:
    """A port is added as soon as it was removed, under a manager that closes the lock of its interface a moment later."""
    with managed(programs, ()) as (kept, peer):
        if not kept.manager:
            raise Failed("there is a manager")
        kept.manager.settle()
        kept.manager.busy = 0.2
        check(order(kept, "--remove", "a1").returncode == 0, "a port is removed", kept.printed())
        added = order(kept, "--add", "a1")
        check(added.returncode == 0, "and added at once, before the manager has closed its lock", added.stderr, kept.printed())
        kept.manager.busy = 0.0
        wait_for_links(kept, peer)


PARTS: dict[str, Callable[[Programs], None]] = {it.__name__: it for it in (changes, fewer, none_left, timeouts, removed_and_added)}
