"""What is tried: each part is a function of the programs."""

from __future__ import annotations

import shutil
import signal
import subprocess
import time
from typing import Callable

import above
import all_queues
import changing
import forged
import guests
import halted
import member_parts
import restarting
import restoring
import selecting
import stream_parts
from announced import announced
from bonds import (COMES_UP, DEVICE, FLOWS, PEERS, RIGHTS, Cables, Carry, End, Event, Programs, ask_gro, cables, check_end,
                   check_none_lost, check_order, check_through, check_whole, every, lay_direct, move_all, pair, run_flows)
from fast_parts import (fast, fast_away, fast_ends, fast_filtered, fast_hash, fast_overload, fast_refused, fast_requeued, fast_troubles, fast_unfit,
                        fast_unwaited, offload)
from models import model
from rows import rows
from checking import Skipped, check, within
from fetching import Packages
from openvswitch import OpenVSwitch
from tap_parts import administered, fast_moved, fast_outage, fast_queues, fast_start, gone, long_frames, queues, segments, speed
from spaces import OURS, THEIRS, inside, ip, packet_socket

# Frames a second of an overload.
FLOOD = 400000
# How long the kernel may keep a carrier that is on from a device, in seconds.
LINKWATCH = 1.2
# What a silent link costs at most: the standard's own three seconds, the flight and a turn of the clock.
SILENCE_MS = 3500
# Frames of a run without markers that are overtaken at least, so that the order can be told of.
TELLS = 5


def moves(programs: Programs) -> None:
    """Each conversation moves ten times, behind markers; and without them, by which the machine is judged."""
    with pair(programs) as (_, ours, theirs):
        outcome = run_flows(programs, 11, every(1, 10, move_all(ours)))
        moved = ours.carry()["moves"]
        check(moved >= 9 * FLOWS, f"{moved} moves were made")
        check_order(outcome, "with markers", ours.text())
        check_none_lost(outcome, ours, theirs)
        check_whole(outcome, ours, theirs, cables_lose=False)
        busy = ours.busy_conversations()
        check(max(busy) - min(busy) <= 1, f"the links have {busy} busy conversations", ours.text())
    with pair(programs, program=programs.forcing) as (_, ours, theirs):
        forced = run_flows(programs, 5, every(1, 4, move_all(ours)))
        if forced.overtaken < TELLS:
            raise Skipped(f"without markers {forced.overtaken} frames were overtaken, so this machine cannot tell of the order")
        check(True, f"without markers {forced.overtaken} of {forced.sent:,} frames were overtaken, so this machine can tell of the order")


def cuts(programs: Programs) -> None:
    """Each link is cut for 2 s, and joined."""
    with pair(programs) as (laid, ours, theirs):
        events = [(1, lambda: laid.tell("cut", 1)), (3, lambda: laid.tell("join", 1)), (8, lambda: laid.tell("cut", 0)),
                  (10, lambda: laid.tell("join", 0))]
        check_through(programs, ours, theirs, 14, events, "through two cuts")
        carry = ours.carry()
        check(carry["moves"] > 0, f"{carry['moves']} conversations moved to the links that came back", ours.text())


def silence(programs: Programs) -> None:
    """Each link is silent for 5 s, and is heard again."""
    with pair(programs, options=["--flight", "200"]) as (laid, ours, theirs):
        events = [(1, lambda: laid.tell("silence", 1)), (6, lambda: laid.tell("hear", 1)), (10, lambda: laid.tell("silence", 0)),
                  (15, lambda: laid.tell("hear", 0))]
        outcome = check_through(programs, ours, theirs, 18, events, "through two silences")
        check(outcome.gap_ms <= SILENCE_MS, f"a silent link cost {outcome.gap_ms} ms, {SILENCE_MS} at most", ours.printed())


def switches(programs: Programs) -> None:
    """Two groups of two links, by two keys of the other end, which has other numbers for their aggregators: data goes by the group that has
    more links, and by the same one at both ends. Where both have as many, it stays while the other end sends there."""
    with cables(programs, (0, 20000, 5000, 0)) as laid:
        ours, theirs = End(programs, OURS, links=4), End(programs, THEIRS, names=("b2:key=6", "b3:key=6", "b0", "b1"))
        two = lambda: ours.links() == theirs.links() == 2 and ours.carry()["markers"] == "answered"
        check(within(COMES_UP, two), "two of four links carry", ours.text(), theirs.text())
        time.sleep(LINKWATCH)
        first, before = ours.carry()["aggregator"], ours.carry()
        outcome = run_flows(programs, 10, [(1, lambda: laid.tell("cut", 0)), (4, lambda: laid.tell("join", 0))])
        carry = ours.carry()
        told = f"it switched {carry['switches'] - before['switches']} times, and is at aggregator {first} again"
        check(carry["switches"] - before["switches"] == 2 and carry["aggregator"] == first, told, ours.printed())
        freed = carry["rested"] - before["rested"] + carry["forced"] - before["forced"]
        check(freed == 0, "conversations left the other one behind markers, none after a rest or by force", ours.text())
        check_order(outcome, "through two switches of the aggregator", ours.text())
        check_whole(outcome, ours, theirs, cables_lose=True)
        stays_while_heard(programs, laid, ours, theirs)


def stays_while_heard(programs: Programs, laid: Cables, ours: End, theirs: End) -> None:
    """With data from the other end, a group that has as many links again does not get the data back."""
    first, before = ours.carry()["aggregator"], ours.carry()["switches"]
    back = subprocess.Popen(["ip", "netns", "exec", THEIRS, programs.flows, "send", DEVICE, "1000", "8", "20", "macs"], stdout=subprocess.DEVNULL)
    try:
        seen: list[Carry] = []
        events: list[Event] = [(1, lambda: laid.tell("cut", 0)), (3, lambda: laid.tell("join", 0)), (8, lambda: seen.append(ours.carry()))]
        outcome = run_flows(programs, 9, events)
        told = f"it switched {seen[0]['switches'] - before} times, and is not at aggregator {first}"
        check(seen[0]["switches"] - before == 1 and seen[0]["aggregator"] != first, told, ours.printed())
        check_order(outcome, "with data in both directions", ours.text())
        outcome = run_flows(programs, 6, [(1, lambda: laid.tell("cut", 2)), (3, lambda: laid.tell("join", 2))])
        check(ours.carry()["aggregator"] == first, f"a cut there brings it back to aggregator {first}", ours.printed())
        check_order(outcome, "with data in both directions, and back", ours.text())
    finally:
        back.kill()
        back.wait()


def away(programs: Programs) -> None:
    """A pair of interfaces vanishes, and is there again."""
    with pair(programs, delays=()) as (_, ours, theirs):
        events: list[Event] = [(1, lambda: ip(OURS, "link", "del", "a1")), (4, lambda: lay_direct(1))]
        check_through(programs, ours, theirs, 8, events, "through an interface that vanishes")


def restarts(programs: Programs) -> None:
    """The receiving end is ended and killed, and starts again."""
    with pair(programs) as (_, ours, theirs):
        for by, what in (signal.SIGTERM, "ended"), (signal.SIGKILL, "killed"):
            theirs.process.send_signal(by)
            theirs.process.wait(10)
            check(theirs.process.returncode == (0 if by == signal.SIGTERM else -by), f"the receiving end is {what}", theirs.printed())
            theirs.__init__(programs, THEIRS)  # type: ignore[misc]
            again = within(COMES_UP, lambda: ours.links() == theirs.links() == 2)
            check(again, "both links carry again", ours.text(), theirs.text())
            time.sleep(LINKWATCH)
            check_order(run_flows(programs, 4, every(1, 3, move_all(ours))), f"after it was {what}", ours.text())
            check_end(ours, "the sending end")
        ours.process.send_signal(signal.SIGTERM)
        check(ours.process.wait(10) == 0, "SIGTERM ends the sending end with status 0", ours.printed())
        gone = inside(OURS, "ip", "link", "show", DEVICE).returncode != 0
        no_carrier = within(5, lambda: not theirs.carry()["carrier"])
        check(gone and no_carrier, f"its {DEVICE} is gone, and the other end has no carrier", theirs.text())


def stops(programs: Programs) -> None:
    """Either end is stopped for a second, while conversations move."""
    with pair(programs) as (_, ours, theirs):
        def pauses(end: End) -> list[Event]:
            begin = 2 if end is ours else 6
            return [(begin, lambda: end.process.send_signal(signal.SIGSTOP)), (begin + 1, lambda: end.process.send_signal(signal.SIGCONT))]

        events = sorted([*pauses(ours), *pauses(theirs), *every(0.7, 10, move_all(ours))], key=lambda event: event[0])
        outcome = run_flows(programs, 12, events)
        check_order(outcome, "through two stops", ours.text(), theirs.text())
        check_whole(outcome, ours, theirs, cables_lose=False)


def overload(programs: Programs) -> None:
    """More frames come from the host than a daemon can carry: no port notices."""
    with pair(programs, delays=()) as (_, ours, theirs):
        outcome = run_flows(programs, 4, rate=FLOOD)
        text = f"{outcome.received:,} of {outcome.sent:,} frames came, {outcome.overtaken} overtaken, {outcome.twice} twice"
        check(outcome.overtaken == outcome.twice == 0 < outcome.received, f"{FLOOD:,} frames a second: {text}", outcome, ours.text())
        for end in ours, theirs:
            changes = [end.count(port["interface"], "distributed") for port in end.told()["ports"]]
            check(changes == [1, 1], "each port distributes since the start", end.printed())
        check_whole(outcome, ours, theirs, cables_lose=True)


def hashes(programs: Programs) -> None:
    """Flows that differ by a port of UDP alone: of one conversation by layer2, and of many by layer3+4."""
    for hash_name, spread in (("layer2", False), ("layer3+4", True)):
        with pair(programs, options=["--hash", hash_name]) as (_, ours, theirs):
            outcome = run_flows(programs, 4, every(1, 3, move_all(ours)), kind="ports")
            busy = ours.busy_conversations()
            check((min(busy) > 5) == spread and sum(busy) >= 1, f"{hash_name}: the links have {busy} busy conversations", ours.text())
            check_order(outcome, hash_name, ours.text())
            check_whole(outcome, ours, theirs, cables_lose=False)


def mute(programs: Programs) -> None:
    """A peer that answers no markers."""
    with cables(programs) as laid:
        for number in range(2):
            laid.tell("mute", number)
        ours, theirs = End(programs, OURS), End(programs, THEIRS)
        known = lambda: ours.carry()["markers"] == "not answered"
        check(within(COMES_UP, known), "the daemon finds out that the peer answers no markers", ours.text())
        line = "the peer answers no markers"
        check(within(2, lambda: line in ours.printed()), "and says so", ours.printed())
        outcome = run_flows(programs, 6, every(1, 5, move_all(ours)))
        check_order(outcome, "towards a peer that answers no markers", ours.text())
        carry = ours.carry()
        check(carry["moves"] == carry["forced"] == 0, "nothing is moved or forced", ours.text())
        check(within(3, lambda: ours.carry()["rested"] >= FLOWS), "conversations are free once they rested", ours.text())
        check_whole(outcome, ours, theirs, cables_lose=False)


def open_vswitch(programs: Programs) -> None:
    """A bond of Open vSwitch receives."""
    packages = Packages(PEERS, True)
    with cables(programs) as laid:
        peer = OpenVSwitch(packages, programs.folder)
        ours = End(programs, OURS)
        try:
            peer.start()
            both = within(2 * COMES_UP, lambda: ours.links() == 2 and peer.carrying() == {"b0", "b1"})
            check(both, f"both links carry to Open vSwitch {peer.version()}", ours.text(), peer.view())
            ip(THEIRS, "link", "set", "br0", "up")
            found = within(COMES_UP, lambda: ours.carry()["markers"] in ("answered", "not answered"))
            check(found, f"it has {ours.carry()['markers']} a marker", ours.text())
            events = [(3, lambda: laid.tell("cut", 1)), (5, lambda: laid.tell("join", 1))]
            check_order(run_flows(programs, 10, events, devices=(DEVICE, "br0")), "to Open vSwitch, with a cut", ours.text())
            check_end(ours, "the sending end")
        finally:
            ours.kill()
            peer.end()


def frames(programs: Programs) -> None:
    """Frames with a tag, of the longest kind, too long and of the slow protocols; and the MTU."""
    with cables(programs, ()):
        ours, theirs = End(programs, OURS), End(programs, THEIRS)
        check(within(COMES_UP, lambda: ours.links() == theirs.links() == 2), "two links without delay carry", ours.text())
        try_frames(ours, theirs)


def try_frames(ours: End, theirs: End) -> None:
    header = bytes.fromhex("02bb00000001" "02aa00000000")
    sent = packet_socket(OURS, DEVICE, 0x88B5)
    seen = packet_socket(THEIRS, DEVICE, 3)
    seen.settimeout(2)
    plain = header + bytes.fromhex("88b5")
    tagged = header + bytes.fromhex("8100" "0064" "88b5")
    arrives = {"a frame of 1514 octets": plain + bytes(1500), "one of 14": plain, "one of 1518 with a tag": tagged + bytes(1500)}
    for what, frame in arrives.items():
        before = theirs.carry()["handed_up"]
        sent.send(frame)
        check(within(3, lambda: theirs.carry()["handed_up"] == before + 1), f"{what} is carried", theirs.text())
        check(any(seen.recv(2048)[:12] == header for _ in range(3)), f"{what} comes")
    for what, frame in ("one of the slow protocols", header + bytes.fromhex("8809") + bytes(50)),:
        before = ours.carry()["unfit"]
        sent.send(frame)
        check(within(3, lambda: ours.carry()["unfit"] == before + 1), f"{what} is refused", ours.text())
    sent.close()
    seen.close()
    mtu = lambda: inside(OURS, "cat", f"/sys/class/net/{DEVICE}/mtu").stdout.strip()
    ip(OURS, "link", "set", "a1", "mtu", "1400")
    check(within(3, lambda: mtu() == "1400"), f"the MTU of {DEVICE} is the least of its members", mtu())
    ip(OURS, "link", "set", "a1", "mtu", "1500")
    check(within(3, lambda: mtu() == "1500"), "and follows it", mtu())
    before = ours.data("wrong_length")
    ip(OURS, "link", "set", "a0", "mtu", "3000")
    ip(THEIRS, "link", "set", "b0", "mtu", "4000")
    long, up = packet_socket(THEIRS, "b0", 0x88B5), ours.carry()["handed_up"]
    long.send(plain + bytes(3000))
    check(within(3, lambda: ours.carry()["handed_up"] == up + 1), "one of 3014 octets is handed up where the member takes it", ours.text())
    long.send(plain + bytes(3001))
    long.close()
    check(within(3, lambda: ours.data("wrong_length") == before + 1), "a longer one is counted, and not handed up", ours.text())


def effective_rights(end: End) -> str:
    with open(f"/proc/{end.process.pid}/status", encoding="utf-8") as status:
        return next(line.split()[1] for line in status if line.startswith("CapEff"))


def rights(programs: Programs) -> None:
    """What the daemon may do, what it changes at its members, and what it leaves."""
    with cables(programs, ()):
        ask_gro(OURS, "a0", True)
        ours = End(programs, OURS, options=["--min-links", "2"], before=RIGHTS if shutil.which("setpriv") else ())
        alone = lambda: effective_rights(ours) == f"{1 << 12 | 1 << 13:016x}"
        check(within(COMES_UP, alone), "it has CAP_NET_RAW and CAP_NET_ADMIN alone", effective_rights(ours))
        check(not ask_gro(OURS, "a0"), "GRO of a member is off", ours.printed())
        check("network stack has" not in ours.printed(), "and no member hands frames to its own network stack", ours.printed())
        check(not ours.carry()["carrier"], "with fewer links than min-links there is no carrier", ours.text())
        taken = inside(OURS, "timeout", "3", programs.daemon, "--folder", f"{programs.folder}/other", "--carry", DEVICE, "9",
                       "32768,02:00:00:00:00:cc", "lo")
        check(taken.returncode == 1 and DEVICE in taken.stderr, "a device that another one has is refused", taken.stderr)
        text, told = ours.text(), inside(OURS, programs.daemon, "--folder", ours.folder, "--metrics").stdout
        check(f"carry: {DEVICE}, carrier off, hash layer2" in text, "the status tells of the data", text)
        check("lagd_carry_from_host_total" in told and "lagd_port_data_sent_total" in told, "so do the metrics", told[:2000])
        ours.ends("the daemon")
        check(ask_gro(OURS, "a0"), "GRO of a member that had it is on again")


PARTS: dict[str, Callable[[Programs], None]] = {it.__name__: it for it in
    (rows, moves, cuts, silence, switches, away, restarts, stops, overload, hashes, mute, frames, rights, open_vswitch, offload,
     model, fast, fast_hash, fast_troubles, fast_overload, fast_refused, fast_requeued, fast_unfit, fast_unwaited, fast_away,
     fast_ends, fast_filtered, fast_outage, fast_start, fast_moved, fast_queues, gone, administered, long_frames,
     queues, segments, speed, announced)}
for module in (changing, forged, guests, halted, member_parts, restoring, selecting, above, restarting, all_queues, stream_parts):
    PARTS.update(module.PARTS)
