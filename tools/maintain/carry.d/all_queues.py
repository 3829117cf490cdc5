"""What is tried of members that keep all their queues: by which queue a frame goes, and the order through moves, restarts and changes of the
queues."""

from __future__ import annotations

import contextlib
import os
import select
import signal
import socket
import time
from functools import partial
from typing import Callable, Iterator

from bonds import (COMES_BACK, COMES_UP, DEVICE, FLOWS, MIDDLE, End, Outcome, Programs, ask_gro, cables, check_end, check_none_lost, check_order, every,
                   late, lay_direct, move_all, pair, run_flows, several)
from checking import Skipped, check, within
from lateness import LATE
from restarting import RESTARTS, hand_over, managed
from spaces import OURS, THEIRS, inside, ip, packet_socket

QUEUES = 4
ALL = ("--queues", "all")
RATE, SECONDS = 20000, 6
# Of linux/if_packet.h: each socket of a group has the frames of a queue.
SOL_PACKET, FANOUT, BY_QUEUE = 263, 18, 5
SLOW, MARKER = b"\x88\x09", 2
# How long the daemon takes to see that its queues were changed.
FOLLOWS = 3


def setting(space: str, name: str, what: str) -> str:
    return inside(space, "cat", f"/sys/class/net/{name}/queues/{what}").stdout.strip()


def settings_of(space: str, name: str) -> list[str]:
    """RPS and XPS of each queue."""
    return [setting(space, name, f"{what}") for queue in range(QUEUES) for what in (f"rx-{queue}/rps_cpus", f"tx-{queue}/xps_cpus")]


@contextlib.contextmanager
def by_queue(space: str, name: str) -> Iterator[list[socket.socket]]:
    """A socket for each queue by which frames come."""
    with contextlib.ExitStack() as kept:
        found = []
        for _ in range(QUEUES):
            it = kept.enter_context(packet_socket(space, name, 3))
            it.setsockopt(SOL_PACKET, FANOUT, BY_QUEUE << 16 | os.getpid() & 0xFFFF)
            found.append(it)
        yield found


def seen_by_queue(sockets: list[socket.socket]) -> tuple[set[tuple[int, int]], set[tuple[int, int]]]:
    """The conversations, and the queues in markers, each with the queue by which a frame came."""
    data, markers = set(), set()
    for queue, it in enumerate(sockets):
        while select.select([it], [], [], 0)[0]:
            frame = it.recv(2048)
            if frame[12:14] == SLOW and frame[14] == MARKER and frame[16] == 1:
                markers.add((frame[26] >> 4, queue))
            elif frame[1] == 0xBB:
                data.add(((frame[5] ^ frame[11]) % QUEUES, queue))
    return data, markers


def name_of(way: tuple[str, ...]) -> str:
    return way[0] if way else "plain"


def try_queues(programs: Programs, way: tuple[str, ...]) -> None:
    """Each conversation has a queue, by which its frames come, and each queue its markers; RPS and XPS are as they were, behind it."""
    name = name_of(way)
    with pair(programs, delays=(), options=[*way, *ALL], queues=QUEUES) as (_, ours, theirs):
        had = setting(OURS, "a0", "tx-1/xps_cpus")
        check(not had.strip("0,"), f"{name}: XPS of a member is off", had)
        with by_queue(THEIRS, "b0") as sockets:
            run_flows(programs, 3, [(1, move_all(ours)), (2, move_all(ours))], rate=200)
            data, markers = seen_by_queue(sockets)
        own = {(queue, queue) for queue in range(QUEUES)}
        check(data == own, f"{name}: each conversation comes by its queue", data)
        check(markers == own, f"{name}: each queue has markers of its own", markers)
        used = [port["data"]["queues"] for port in ours.told()["ports"]]
        check(used == [QUEUES, QUEUES], f"{name}: the status tells of {used} queues", ours.text())


def try_order(programs: Programs, way: tuple[str, ...], queues: str) -> None:
    name = f"{name_of(way)}, queues={queues}"
    with pair(programs, delays=(), options=[*way, "--queues", queues], queues=QUEUES) as (_, ours, theirs):
        outcome = run_flows(programs, SECONDS, every(0.5, SECONDS - 1, move_all(ours)), rate=RATE)
        moves = ours.carry()["moves"]
        check(moves >= 5 * FLOWS, f"{name}: {moves} moves were made", ours.text())
        check_order(outcome, name, ours.text(), theirs.text())
        check_end(ours, "the sending end")
        check_end(theirs, "the receiving end")


def queues_all(programs: Programs) -> None:
    """Conversations move between members of four queues, beside those that are cut to one; and over cables with a delay."""
    for way in (), ("--fast",):
        try_queues(programs, way)
        for queues in ("one", "all"):
            try_order(programs, way, queues)
        with pair(programs, options=[*way, *ALL], queues=QUEUES) as (_, ours, theirs):
            outcome = run_flows(programs, SECONDS, every(1, SECONDS - 1, move_all(ours)))
            check_order(outcome, f"{name_of(way)}, over cables", ours.text(), theirs.text())
            check_none_lost(outcome, ours, theirs, f"{name_of(way)}: none was lost")


def queues_kept(programs: Programs) -> None:
    """What the queues and GRO had is there again behind the daemon, also behind one that was killed; GRO stays on with `fast` alone."""
    for way in (), ("--fast",):
        name = name_of(way)
        with cables(programs, (), QUEUES):
            ask_gro(OURS, "a0", True)
            inside(OURS, "sh", "-c", "echo 2 >/sys/class/net/a0/queues/tx-1/xps_cpus; echo 3 >/sys/class/net/a0/queues/rx-2/rps_cpus")
            before = settings_of(OURS, "a0")
            ours = End(programs, OURS, options=[*way, *ALL])
            check(within(FOLLOWS, lambda: ours.told()["ports"][0]["data"]["queues"] == QUEUES), f"{name}: a member has its queues", ours.printed())
            check(settings_of(OURS, "a0") != before, f"{name}: RPS and XPS are changed", before)
            check(ask_gro(OURS, "a0") == bool(way), f"{name}: GRO is {'on' if way else 'off'}", ours.printed())
            ours.kill()
            ours = End(programs, OURS, options=[*way, *ALL])
            ours.ends("the daemon")
            check(settings_of(OURS, "a0") == before and ask_gro(OURS, "a0"), f"{name}: they are as they were", before, settings_of(OURS, "a0"))
            ours = End(programs, OURS, options=[*way, "--queues", "one"])
            one = lambda: setting(OURS, "a0", "tx-1/xps_cpus") == ""
            check(within(FOLLOWS, one), f"{name}: one queue is left", ours.printed())
            ours.kill()
            ours = End(programs, OURS, options=[*way, *ALL])
            check(within(FOLLOWS, lambda: not one()), f"{name}: the next daemon gives all back", ours.printed())
            check("gets one queue" not in ours.printed(), f"{name}: and keeps them", ours.printed())


def queues_restarted(programs: Programs) -> None:
    """Both ends hand over, and are killed, while frames flow by four queues: no more is lost than with one, and none is overtaken."""
    for name in "plain", "fast":
        hand_over(programs, name, ALL, QUEUES)


def check_forced(outcome: Outcome, what: str, sender: End) -> None:
    """No frame was forced, and no more are lost than a daemon held. Where the device had no room for the others, and the machine gave its processors so
    late that this alone can be why, a line says so, and nothing is counted."""
    lost, most, forced = outcome.lost(), RATE // 10, sender.carry()["forced"]
    if forced == 0 and most <= lost < most + outcome.no_room and outcome.waited >= LATE:
        print(f"inconclusive: {what}: {lost} frames are lost, {outcome.no_room} found no room; {late(outcome)}", flush=True)
        return
    check(forced == 0 and lost < most, f"{what}: {lost} frames are lost, and {forced} are forced", outcome, sender.text())


def queues_moved(programs: Programs) -> None:
    """Either end hands over, and is killed, while conversations move: what it held is lost, and nothing is overtaken."""
    for way in (), ("--fast",):
        for space, end in (OURS, "sends"), (THEIRS, "receives"):
            with managed(programs, [*way, *ALL], space=space, queues=QUEUES) as (kept, peer):
                sender = kept if space == OURS else peer
                for by, what in (signal.SIGUSR1, "handed over"), (signal.SIGKILL, "killed"):
                    events = every(0.3, 6, lambda: sender.process.send_signal(signal.SIGUSR2))
                    events += every(6, 4, lambda: kept.again(by, RESTARTS), 3.1)
                    events.sort(key=lambda event: event[0])
                    outcome = run_flows(programs, 7, events, rate=RATE // 2)
                    name = f"{name_of(way)}, the end that {end} is {what} amid moves"
                    check_order(outcome, name, sender.text(), kept.printed()[-1500:])
                    check_forced(outcome, name, sender)


def queues_unlike(programs: Programs) -> None:
    """The queues of one member are slow, each in its own way: a conversation that leaves it waits for those that it went by. A daemon whose moves
    are forced turns frames round there, so this machine can tell."""
    tried: list[tuple[tuple[str, ...], str]] = [((), ""), (("--fast",), ""), ((), programs.forcing)]
    for way, program in tried:
        with given_queues(programs, way, program) as (ours, _):
            for queue in range(1, QUEUES):
                words = ("parent", f"6c61:{queue + 1}", "tbf", "rate", f"{1000 + 300 * queue}kbit", "burst", "2000", "limit", "20000")
                if inside(OURS, "tc", "qdisc", "replace", "dev", "a0", *words).returncode:
                    raise Skipped("tc slows no queue (tbf)")
            outcome = run_flows(programs, SECONDS, every(0.5, SECONDS - 1, move_all(ours)), rate=RATE // 2)
            if not program:
                check_order(outcome, f"{name_of(way)}, slow queues", ours.text())
            else:
                check(outcome.overtaken > 0, f"moves that are forced turn {outcome.overtaken} frames round", outcome)


def channels(count: int, name: str = "a0") -> None:
    inside(OURS, "ethtool", "-L", name, "rx", str(count), "tx", str(count))


def queues_changed(programs: Programs) -> None:
    """Others change the queues of a member, or what chooses them; a member goes, and comes with fewer queues."""
    for way in (), ("--fast",):
        name = name_of(way)
        with pair(programs, delays=(), options=[*way, *ALL], queues=QUEUES) as (_, ours, theirs):
            def remake() -> None:
                ip(OURS, "link", "del", "a1")
                lay_direct(1, 2)

            def spoil() -> None:
                inside(OURS, "sh", "-c", "for it in /sys/class/net/a0/queues/tx-*/xps_cpus; do echo 3 >$it; done")

            count = lambda: [port["data"]["queues"] for port in ours.told()["ports"]]
            events: list[tuple[str, Callable[[], None], list[int]]] = [
                ("two queues", partial(channels, 2), [2, QUEUES]), ("four again", partial(channels, QUEUES), [QUEUES, QUEUES]),
                ("XPS", spoil, [QUEUES, QUEUES]), ("a member with two", remake, [QUEUES, 2])]
            for what, event, wanted in events:
                event()
                time.sleep(1.5)
                check(within(COMES_BACK, lambda: count() == wanted and ours.links() == 2), f"{name}, {what}: it has {wanted} queues", count(),
                      ours.printed())
                outcome = run_flows(programs, 4, every(0.5, 3, move_all(ours)), rate=RATE)
                check_order(outcome, f"{name}, {what}", ours.text(), ours.printed()[-1500:])
            check(ours.printed().count("its queues were changed") >= 3, f"{name}: a line tells of each", ours.printed())
            check(not setting(OURS, "a0", "tx-1/xps_cpus").strip("0,"), f"{name}: XPS is off again", ours.printed())


def queues_answered(programs: Programs) -> None:
    """A peer that answers the markers of some queues; one that sends a thousand markers a second; and data where the answers are lost."""
    with pair(programs, delays=(0, 0), options=ALL, queues=QUEUES) as (laid, ours, theirs):
        for number in range(2):
            laid.tell("dumb", number)
        outcome = run_flows(programs, 10, every(1, 9, move_all(ours)), rate=RATE // 4)
        check_order(outcome, "half of the queues are answered", ours.text())
        check(ours.carry()["markers"] == "not answered", "the peer counts as one that answers none", ours.text(), ours.printed())
        check_end(ours, "the sending end")
    with pair(programs, delays=(), options=ALL, queues=QUEUES) as (_, ours, theirs):
        try_flood(ours, theirs)
        outcome = run_flows(programs, 4, every(0.5, 3, move_all(ours)), rate=RATE)
        check_order(outcome, "behind a flood of markers", ours.text())


def try_flood(ours: End, theirs: End) -> None:
    """Markers of the other end, a thousand in a second."""
    theirs.process.send_signal(signal.SIGSTOP)
    source = bytes.fromhex(inside(THEIRS, "cat", "/sys/class/net/b0/address").stdout.strip().replace(":", ""))
    pdu = bytes.fromhex("0180c2000002") + source + SLOW + bytes((2, 1, 1, 16)) + bytes.fromhex("0001" "0200000000bb")
    with packet_socket(THEIRS, "b0", 0) as it:
        for number in range(1000):
            it.send(pdu + number.to_bytes(4, "big") + bytes(94))
            time.sleep(0.0008)
    theirs.process.send_signal(signal.SIGCONT)
    told = lambda: (ours.count("a0", "marker_responses_sent"), ours.count("a0", "marker_responses_unsent"))
    within(FOLLOWS, lambda: sum(told()) >= 1000)
    sent, unsent = told()
    check(100 <= sent <= 500 and 1000 <= sent + unsent <= 1100, f"of 1,000 markers within a second {sent} are answered, and {unsent} are counted", ours.text())


def queues_refused(programs: Programs) -> None:
    """A kernel without TCX; a member that stands on another interface, or whose discipline does not keep the order; /sys that is read-only."""
    with cables(programs, (), QUEUES):
        told = inside(OURS, "timeout", "5", programs.old_kernel, "--folder", f"{programs.folder}/old", "--carry", DEVICE, *ALL, "9",
                      "32768,02:00:00:00:00:cc", "a0")
        line = "queues=all: no program of an interface, which Linux has from 6.6 on"
        check(told.returncode == 1 and line in told.stderr, "a kernel without TCX: the daemon refuses to start", told)
        ip(OURS, "link", "add", "link", "a1", "name", "m0", "type", "macvlan")
        ip(OURS, "link", "set", "m0", "up")
        inside(OURS, "tc", "qdisc", "replace", "dev", "a0", "root", "pfifo_fast")
        ours = End(programs, OURS, names=("a0", "m0"), options=ALL)
        lines = ("a0: it gets one queue: its queueing discipline is neither", "m0: it gets one queue: it stands on another interface")
        check(within(FOLLOWS, lambda: all(line in ours.printed() for line in lines)), "members that cannot keep their queues get one", ours.printed())
        check([port["data"]["queues"] for port in ours.told()["ports"]] == [1, 1], "the status says so", ours.text())
        ours.kill()
        inside(OURS, "tc", "qdisc", "del", "dev", "a0", "root")
        sealed = ("sh", "-c", 'mount -o remount,bind,ro /sys && exec "$@"', "sh")
        channels(QUEUES)
        ours = End(programs, OURS, names=("a0",), options=ALL, before=sealed)
        line = "a0: it gets one queue: RPS or XPS of its queues cannot be set"
        check(within(FOLLOWS, lambda: line in ours.printed()), "where /sys is read-only it gets one", ours.printed())


def queues_disciplines(programs: Programs) -> None:
    """A member whose queues the kernel gave disciplines: each gets one that keeps the order, and the former ones are back behind it."""
    with cables(programs, ()):
        if inside(OURS, "ip", "link", "add", "q0", *several(QUEUES), "type", "ifb").returncode:
            raise Skipped("there is no ifb")
        ip(OURS, "link", "set", "q0", "up")
        shown = lambda: inside(OURS, "tc", "qdisc", "show", "dev", "q0").stdout
        before = shown()
        ours = End(programs, OURS, names=("q0",), options=ALL)
        given = lambda: "qdisc mq 6c61: root" in shown() and shown().count("qdisc bfifo") == QUEUES
        check(within(FOLLOWS, given), "each queue has a discipline that keeps the order", shown(), ours.printed())
        check("gets one queue" not in ours.printed(), "the member keeps its queues", ours.printed())
        ours.ends("the daemon")
        check(shown() == before, "the former disciplines are back", before, shown())


@contextlib.contextmanager
def given_queues(programs: Programs, way: tuple[str, ...] = (), program: str = "") -> Iterator[tuple[End, End]]:
    """Two ends, of which one has at a0 an mq with the handle of the daemon: a veth gets none by itself."""
    with cables(programs, (), QUEUES):
        if inside(OURS, "tc", "qdisc", "add", "dev", "a0", "root", "handle", "6c61:", "mq").returncode:
            raise Skipped("tc gives no queue a discipline of its own")
        ours, theirs = (End(programs, space, program=program, options=[*way, *ALL]) for space in (OURS, THEIRS))
        ready = lambda: all(end.links() == 2 and end.carry()["markers"] == "answered" for end in (ours, theirs))
        check(within(COMES_UP, ready), "two links carry", ours.text(), ours.printed())
        yield ours, theirs


def give_classes(parent: str, handle: str) -> None:
    """A queue gets an htb, in which data is slow and a marker is not: so it keeps no order."""
    row = ("parent", f"{handle}:", "protocol", "0x8809", "prio", "1", "u32", "match", "u32", "0", "0", "flowid", f"{handle}:2")
    for words in (("qdisc", "replace", "dev", "a0", "parent", parent, "handle", f"{handle}:", "htb", "default", "1"),
                  ("class", "add", "dev", "a0", "parent", f"{handle}:", "classid", f"{handle}:1", "htb", "rate", "1mbit"),
                  ("class", "add", "dev", "a0", "parent", f"{handle}:", "classid", f"{handle}:2", "htb", "rate", "100mbit"),
                  ("filter", "add", "dev", "a0", *row)):
        inside(OURS, "tc", *words)


def queues_foreign(programs: Programs) -> None:
    """Somebody puts an mq whose queues keep no order in the place of that of the daemon, or such a discipline in that of one queue; and one that
    keeps the order, which stays."""
    def replace_all() -> None:
        inside(OURS, "tc", "qdisc", "replace", "dev", "a0", "root", "handle", "1:", "mq")
        for queue in range(QUEUES):
            give_classes(f"1:{queue + 1}", str(queue + 10))

    shown = lambda: inside(OURS, "tc", "qdisc", "show", "dev", "a0").stdout
    events: tuple[tuple[str, Callable[[], None]], ...] = (("each queue", replace_all), ("one queue", partial(give_classes, "6c61:2", "10")))
    for way in (), ("--fast",):
        for what, event in events:
            with given_queues(programs, way) as (ours, _):
                event()
                name = f"{name_of(way)}, {what}"
                line = "a0: it gets one queue: its queueing discipline is neither"
                check(within(FOLLOWS, lambda: line in ours.printed()), f"{name}: a line tells", ours.printed())
                check(ours.told()["ports"][0]["data"]["queues"] == 1, f"{name}: the status tells", ours.text())
                check(within(COMES_BACK, lambda: ours.links() == 2), f"{name}: two links carry", ours.text())
                outcome = run_flows(programs, SECONDS, every(0.5, SECONDS - 1, move_all(ours)), rate=RATE // 2)
                check_order(outcome, name, ours.text(), ours.printed()[-1500:])
                check("htb 10:" in shown(), f"{name}: what somebody set stays")
    with given_queues(programs) as (ours, _):
        inside(OURS, "tc", "qdisc", "replace", "dev", "a0", "parent", "6c61:2", "pfifo", "limit", "77")
        time.sleep(FOLLOWS)
        ip(OURS, "link", "set", "a0", "down")
        check(within(COMES_BACK, lambda: ours.links() == 1), "the link goes", ours.text())
        ip(OURS, "link", "set", "a0", "up")
        check(within(COMES_UP, lambda: ours.links() == 2), "the link comes back", ours.text())
        check("gets one queue" not in ours.printed(), "a member with pfifo at one queue keeps all", ours.printed())
        check("limit 77p" in shown(), "and the pfifo stays", shown())
        inside(OURS, "tc", "qdisc", "del", "dev", "a0", "parent", "6c61:3")
        check(within(FOLLOWS, lambda: shown().count("bfifo") == QUEUES - 1), "a queue whose discipline was taken gets one", shown())


def set_discipline(*words: str) -> None:
    inside(OURS, "tc", "qdisc", "replace" if words else "del", "dev", "a0", "root", *words)


SLOW_ROW = ("tbf", "rate", "1gbit", "burst", "100k", "limit", "1m")


def move_away() -> None:
    """A member goes to a namespace where its number is free, and comes back."""
    ip(OURS, "link", "set", "a0", "netns", MIDDLE)
    time.sleep(1)
    ip(MIDDLE, "link", "set", "a0", "netns", OURS)
    ip(OURS, "link", "set", "a0", "up")


def queues_back(programs: Programs) -> None:
    """The queues, and what they had, are there again behind the daemon, whatever happened meanwhile."""
    new_address = lambda: ip(OURS, "link", "set", "a0", "address", "02:11:22:33:44:55")
    slow, other = partial(set_discipline, *SLOW_ROW), partial(set_discipline, "handle", "5:", "htb")
    tried: tuple[tuple[str, bool, int, tuple[Callable[[], None], ...]], ...] = (
        ("another MAC address", False, QUEUES, (new_address,)), ("another one, and a kill", True, QUEUES, (new_address,)),
        ("a slow discipline", False, 1, (slow,)), ("and another one", False, 1, (slow, other)), ("and none", False, QUEUES, (slow, set_discipline)),
        ("another namespace", False, QUEUES, (move_away,)))
    for name, killed, queues, events in tried:
        with cables(programs, (), QUEUES):
            for queue in range(QUEUES):
                inside(OURS, "sh", "-c", f"cd /sys/class/net/a0/queues; echo 2 >tx-{queue}/xps_cpus; echo 3 >rx-{queue}/rps_cpus")
            before = settings_of(OURS, "a0")
            ours = End(programs, OURS, options=ALL)
            used = lambda: ours.told()["ports"][0]["data"]["queues"]
            check(within(FOLLOWS, lambda: used() == QUEUES and settings_of(OURS, "a0") != before), f"{name}: RPS and XPS are changed", before)
            for event in events:
                event()
                time.sleep(2)
            check(within(COMES_BACK, lambda: used() == queues), f"{name}: {queues} queues are used", used(), ours.printed())
            if killed:
                ours.kill()
                ours = End(programs, OURS, options=ALL)
            ours.ends("the daemon")
            check(settings_of(OURS, "a0") == before, f"{name}: they are as they were", before, settings_of(OURS, "a0"), ours.printed())


def queues_steady(programs: Programs) -> None:
    """A member that cannot keep its queues has its link up while the daemon is started again."""
    with cables(programs, (), QUEUES):
        set_discipline(*SLOW_ROW)
        ours = End(programs, OURS, options=ALL)
        changes = lambda: inside(OURS, "cat", "/sys/class/net/a0/carrier_changes").stdout
        check(within(FOLLOWS, lambda: "a0: it gets one queue" in ours.printed()), "a member gets one queue", ours.printed())
        time.sleep(1)
        before = changes()
        for by in signal.SIGUSR1, signal.SIGKILL:
            ours.leave(by)
            ours = End(programs, OURS, options=ALL)
            check(within(FOLLOWS, lambda: "a0: it gets one queue" in ours.printed()), f"{by.name}: the next daemon leaves it one", ours.printed())
            check(changes() == before, f"{by.name}: the link stays up", before, changes())


def queues_fewer(programs: Programs) -> None:
    """All members have fewer queues from now on: the kernel passes data on by them again."""
    with pair(programs, delays=(), options=["--fast", *ALL], queues=QUEUES) as (_, ours, theirs):
        for name in "a0", "a1":
            channels(2, name)
            time.sleep(FOLLOWS)
        check(within(COMES_UP, lambda: ours.links() == 2 and theirs.links() == 2), "two links carry", ours.printed())
        passed = lambda: [port["data"]["passed_on"] for port in ours.told()["ports"]]
        before = passed()
        outcome = run_flows(programs, SECONDS, every(1, SECONDS - 1, move_all(ours)), rate=RATE)
        check_order(outcome, "fewer queues", ours.text(), ours.printed()[-1500:])
        check(all(now > then for then, now in zip(before, passed())), "the kernel passes data on by both", before, passed(), ours.printed())
        inside(OURS, "sh", "-c", "for it in /sys/class/net/a0/queues/rx-*/rps_cpus; do echo 3 >$it; done")
        check(within(2 * FOLLOWS, lambda: setting(OURS, "a0", "rx-0/rps_cpus").strip("0,") in ("1", "2", "4", "8")), "RPS names one processor again", ours.printed())


PARTS: dict[str, Callable[[Programs], None]] = {it.__name__: it for it in
    (queues_all, queues_kept, queues_restarted, queues_moved, queues_unlike, queues_changed, queues_answered, queues_refused, queues_disciplines, queues_foreign,
     queues_back, queues_steady, queues_fewer)}
