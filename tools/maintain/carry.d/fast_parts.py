"""What is tried of frames of several segments, and of data that the kernel passes on by itself."""

from __future__ import annotations

import contextlib
import ctypes
import shutil
import signal
import socket
import struct
import time
from typing import Any, ContextManager

from bonds import (COMES_UP, DEVICE, FLOWS, RIGHTS, Cables, End, Event, Programs, cables, check_end, check_none_lost, check_order, check_taken,
                   check_through, check_whole, every, kernel_count, lay_direct, move_all, pair, run_flows, wait_for_links)
from checking import Skipped, check, within
from packets import host_socket, packet_to_cut
from spaces import OURS, THEIRS, inside, ip, packet_socket, within_space
from streams import run_stream

# Frames a second of a run by the kernel, and the least share of them that the kernel passes on, while all conversations move each second.
FAST, PASSED = 20000, 0.1
# Of several segments: the least part of a run that comes in one frame with others.
SEGMENTED = 1000
# bpf(2), its BPF_PROG_QUERY, and where programs of TCX stand: as an interface receives, and as it sends.
BPF, QUERY, TCX, ASKED_OCTETS, COUNT_AT = 321, 16, (46, 47), 64, 24


def count_programs(space: str, device: str) -> int:
    """How many programs the kernel runs for the frames of an interface."""
    count = 0
    with within_space(space):
        for where in TCX:
            asked = ctypes.create_string_buffer(struct.pack("=II", socket.if_nametoindex(device), where), ASKED_OCTETS)
            if ctypes.CDLL(None, use_errno=True).syscall(BPF, QUERY, asked, ASKED_OCTETS) == 0:
                count += struct.unpack_from("=I", asked.raw, COUNT_AT)[0]
    return count


def check_fast(end: End, count: int = 1) -> None:
    """The kernel passes on the conversations of a run."""
    fast = end.carry()["fast_conversations"]
    check(fast >= count, f"the kernel passes on {fast} conversations", end.text(), end.printed())


def offload(programs: Programs) -> None:
    """Frames of several segments: a stream of TCP, flows in order, and what is told of it."""
    with pair(programs, delays=(), options=["--offload", "--hash", "layer3+4"]) as (_, ours, theirs):
        stream = run_stream(3)
        told = ours.carry()["segmented"]
        check(stream.bits > 0 and told > SEGMENTED, f"a stream of {stream.bits / 1e9:.1f} Gb/s went in {told:,} frames of several segments", ours.text())
        check("offload" in ours.text().split("carry:")[1].splitlines()[0], "the status tells of it", ours.text())
    with pair(programs, options=["--offload"]) as (_, ours, theirs):
        outcome = run_flows(programs, 6, every(1, 5, move_all(ours)))
        check(ours.carry()["moves"] >= 4 * FLOWS, f"{ours.carry()['moves']} moves were made", ours.text())
        check_order(outcome, "with heads before the frames", ours.text())
        check_none_lost(outcome, ours, theirs)
        check_whole(outcome, ours, theirs, cables_lose=False)


def fast_pair(programs: Programs, **more: Any) -> ContextManager[tuple[Cables, End, End]]:
    """Two ends that both let the kernel pass data on."""
    return pair(programs, options=["--fast", *more.pop("options", [])], **more)


def fast(programs: Programs) -> None:
    """The kernel passes on while conversations move behind markers, without a cable and over cables with a delay."""
    with fast_pair(programs, delays=()) as (_, ours, theirs):
        outcome = run_flows(programs, 8, every(1, 7, move_all(ours)), rate=FAST)
        check_fast(ours)
        check(ours.carry()["moves"] >= 6 * FLOWS, f"{ours.carry()['moves']} moves were made", ours.text())
        check_order(outcome, f"{FAST:,} frames a second by the kernel, without a cable", ours.text())
        passed = ours.data("passed_on")
        check(passed > outcome.sent * PASSED, f"the kernel passed on {passed:,} of {outcome.sent:,} frames", ours.text())
        check_whole(outcome, ours, theirs, cables_lose=True)
    with fast_pair(programs) as (_, ours, theirs):
        outcome = run_flows(programs, 11, every(1, 10, move_all(ours)))
        check_fast(ours)
        check(ours.carry()["moves"] >= 9 * FLOWS, f"{ours.carry()['moves']} moves were made", ours.text())
        check_order(outcome, "by the kernel, over cables", ours.text())
        check_none_lost(outcome, ours, theirs)
        check_whole(outcome, ours, theirs, cables_lose=False)


def fast_hash(programs: Programs) -> None:
    """Flows that differ by a port of UDP alone, by layer3+4; and one that hashes by addresses of MAC, which are equal."""
    with fast_pair(programs, delays=(), options=["--hash", "layer3+4"]) as (_, ours, theirs):
        outcome = run_flows(programs, 5, every(1, 4, move_all(ours)), kind="ports")
        check_fast(ours)
        check_order(outcome, "by layer3+4", ours.text())
        check_whole(outcome, ours, theirs, cables_lose=True)


def fast_troubles(programs: Programs) -> None:
    """Links are cut, silent, and heard again; the peer is ended and comes again."""
    with fast_pair(programs, options=["--flight", "200"]) as (laid, ours, theirs):
        events = [(1, lambda: laid.tell("cut", 1)), (3, lambda: laid.tell("join", 1)), (8, lambda: laid.tell("cut", 0)),
                  (10, lambda: laid.tell("join", 0)), (15, lambda: laid.tell("silence", 1)), (20, lambda: laid.tell("hear", 1))]
        check_through(programs, ours, theirs, 24, events, "by the kernel, through cuts and a silence")


def fast_overload(programs: Programs) -> None:
    """More frames than the daemon takes come before the kernel passes them on, and then go by the kernel."""
    with fast_pair(programs, delays=()) as (_, ours, theirs):
        outcome = run_flows(programs, 4, every(1, 3, move_all(ours), 1), rate=400000, flows=200)
        check_order(outcome, "in an overload", ours.text())
        check_end(ours, "the sending end")
        check_taken(outcome, ours)
        check_fast(ours)


def fast_ends(programs: Programs) -> None:
    """What the kernel runs ends with the daemon, however that ends."""
    with cables(programs, ()):
        ip(OURS, "tuntap", "add", DEVICE, "mode", "tap", "vnet_hdr")
        ours, theirs = End(programs, OURS, options=["--fast"]), End(programs, THEIRS, options=["--fast"])
        wait_for_links(ours, theirs)
        run_flows(programs, 2)
        check_fast(ours)
        check(count_programs(OURS, DEVICE) > 0, "the kernel runs programs at the TAP device")
        ours.kill()
        time.sleep(0.5)
        check(count_programs(OURS, DEVICE) == count_programs(OURS, "a0") == 0, "with the daemon killed it runs none")
        before = [kernel_count(OURS, name, "tx_packets") for name in ("a0", "a1")]
        run_flows(programs, 1)
        after = [kernel_count(OURS, name, "tx_packets") for name in ("a0", "a1")]
        check(before == after, "and passes nothing on", before, after)


def fast_away(programs: Programs) -> None:
    """A pair of interfaces vanishes and is there again, with the rights that the daemon has left then; and a MAC address that changes."""
    with fast_pair(programs, delays=(), before=RIGHTS if shutil.which("setpriv") else ()) as (_, ours, theirs):
        events: list[Event] = [(1, lambda: ip(OURS, "link", "del", "a1")), (4, lambda: lay_direct(1))]
        check_through(programs, ours, theirs, 8, events, "by the kernel, through an interface that vanishes")
        before = ours.told()["ports"][1]["data"]["passed_on"]
        run_flows(programs, 4, [(0.5, move_all(ours)), (1.5, move_all(ours))])
        passed = ours.told()["ports"][1]["data"]["passed_on"] - before
        check(passed > 0, f"the kernel passes on {passed:,} frames there", ours.text(), ours.printed())
        check("stays with the daemon" not in ours.printed(), "no member is left to the daemon", ours.printed())
        ip(THEIRS, "link", "set", DEVICE, "address", "02:00:00:00:00:cc")
        stream = run_stream(2)
        check(stream.bits > 0, f"a stream of {stream.bits / 1e9:.1f} Gb/s goes to a TAP device whose MAC address was changed", theirs.text())


def fast_refused(programs: Programs) -> None:
    """A member whose queues would let a marker go by data is left to the daemon, with a reason."""
    with cables(programs, ()):
        if inside(OURS, "tc", "qdisc", "replace", "dev", "a1", "root", "pfifo_fast").returncode:
            raise Skipped("tc sets no queueing discipline")
        ours, theirs = End(programs, OURS, options=["--fast"]), End(programs, THEIRS, options=["--fast"])
        line = "a1: its data stays with the daemon: its queueing discipline is neither noqueue, bfifo nor pfifo"
        check(within(COMES_UP, lambda: line in ours.printed()), "a member with pfifo_fast is left to the daemon", ours.printed())
        wait_for_links(ours, theirs)
        outcome = run_flows(programs, 5, every(1, 4, move_all(ours)))
        check_order(outcome, "by the kernel on one link, by the daemon on the other", ours.text())
        check_whole(outcome, ours, theirs, cables_lose=True)
        passed = [port["data"]["passed_on"] for port in ours.told()["ports"]]
        check(passed[0] > 0 and passed[1] == 0, f"the kernel passed on {passed}", ours.text())


def fast_requeued(programs: Programs) -> None:
    """A member gets another queueing discipline, and the former one again: its other settings stay, which would cost its link."""
    with cables(programs, ()):
        ip(OURS, "link", "del", "a0")
        lay_direct(0, 2)
        had = inside(OURS, "ethtool", "-l", "a0").stdout
        ours, theirs = End(programs, OURS, options=["--fast"]), End(programs, THEIRS, options=["--fast"])
        wait_for_links(ours, theirs)
        changes = lambda: inside(OURS, "cat", "/sys/class/net/a0/carrier_changes").stdout
        before, line = changes(), "a0: its data stays with the daemon"
        if inside(OURS, "tc", "qdisc", "replace", "dev", "a0", "root", "pfifo_fast").returncode:
            raise Skipped("tc sets no queueing discipline")
        check(within(3, lambda: line in ours.printed()), "a member that gets pfifo_fast is left to the daemon", ours.printed())
        inside(OURS, "tc", "qdisc", "del", "dev", "a0", "root")
        time.sleep(1)
        check(changes() == before, "its carrier stays on meanwhile", before, changes(), ours.printed())
        check_order(run_flows(programs, 3, every(1, 2, move_all(ours))), "by the kernel on both links again", ours.text())
        passed = [port["data"]["passed_on"] for port in ours.told()["ports"]]
        check(min(passed) > 0 and ours.printed().count(line) == 1, f"the kernel passed on {passed}", ours.text(), ours.printed())
        ours.ends("the daemon")
        check(inside(OURS, "ethtool", "-l", "a0").stdout == had, "it has the queues back that it had before the daemon", had)


def fast_unfit(programs: Programs) -> None:
    """A guest sends segments that are longer than the members take, which no bridge looks at: none comes behind later frames."""
    with fast_pair(programs, delays=()) as (_, ours, theirs):
        for space, name in (OURS, "a0"), (OURS, "a1"), (THEIRS, "b0"), (THEIRS, "b1"):
            ip(space, "link", "set", name, "mtu", "1400")
        time.sleep(1)
        sent, seen = host_socket(), packet_socket(THEIRS, DEVICE, 3)
        seen.settimeout(1)
        header, plain = bytes.fromhex("0200000000070200000000dd"), bytes(10)
        for _ in range(20):
            sent.send(plain + header + bytes.fromhex("88b5") + bytes(46))
            time.sleep(0.05)
        check_fast(ours)
        before = ours.carry()["unfit"]
        with contextlib.suppress(OSError):  # the kernel tells who sends that it is lost
            sent.send(packet_to_cut(3000, 1448, header))
        for _ in range(20):
            sent.send(plain + header + bytes.fromhex("88b5") + bytes(46))
        check(within(3, lambda: ours.carry()["unfit"] == before + 1), "a frame of segments that are too long is lost, and counted", ours.text())
        kinds = [frame[12:14] for frame in all_of(seen) if frame[:12] == header]
        check(kinds == [b"\x88\xb5"] * 40, f"{len(kinds)} frames of its conversation come, and none of those segments", kinds)
        sent.send(packet_to_cut(3000, 1300, header))
        check(any(frame[12:14] == b"\x08\x00" for frame in all_of(seen)), "one of segments that fit comes", ours.text())
        sent.close()
        seen.close()


def all_of(seen: socket.socket) -> list[bytes]:
    """The frames that come until none does for a second."""
    found = []
    with contextlib.suppress(TimeoutError):
        while True:
            found.append(seen.recv(65536))
    return found


def fast_unwaited(programs: Programs) -> None:
    """Where the kernel waits for its programs no longer, a row whose frames do not come is believed no more: the daemon ends, and tells."""
    with fast_pair(programs, delays=(), program=programs.without_wait) as (_, ours, theirs):
        ip(OURS, "link", "set", DEVICE, "txqueuelen", "2")
        sent = packet_socket(OURS, DEVICE, 0)
        ours.process.send_signal(signal.SIGSTOP)
        for _ in range(50):
            with contextlib.suppress(OSError):  # the kernel tells who sends that it is lost
                sent.send(bytes.fromhex("0200000000070200000000dd88b5") + bytes(46))
        ours.process.send_signal(signal.SIGCONT)
        sent.close()
        check(within(4, lambda: ours.process.poll() is not None), "the daemon ends", ours.printed())
        check("fast: the kernel waits no longer for its programs" in ours.printed(), "with a line", ours.printed())
        check(within(2.5, lambda: not theirs.carry()["carrier"]), "and its peer is told", theirs.text())


def drop_slow_frames() -> str:
    """An administrator loses frames of the slow protocols that come in at the device of the other end; answers by what."""
    rules = f"table netdev t {{ chain c {{ type filter hook ingress device {DEVICE} priority 0; ether type 0x8809 counter drop; }}; }}"
    if shutil.which("nft") and inside(THEIRS, "nft", rules).returncode == 0:
        return "nftables"
    inside(THEIRS, "tc", "qdisc", "add", "dev", DEVICE, "clsact")
    if inside(THEIRS, "tc", "filter", "add", "dev", DEVICE, "ingress", "pref", "1", "protocol", "0x8809", "matchall", "action", "drop").returncode:
        raise Skipped("neither nft nor tc filters what comes in")
    return "tc"


def fast_filtered(programs: Programs) -> None:
    """Filters of an administrator at the device of the other end, and a bridge above it, take none of its markers away."""
    with fast_pair(programs, delays=()) as (_, ours, theirs):
        by = drop_slow_frames()
        outcome = run_flows(programs, 8, every(1, 7, move_all(ours)))
        check_none_lost(outcome, ours, theirs, f"{by} loses frames of the slow protocols at {DEVICE}: none of {outcome.sent:,} frames is lost")
        check_order(outcome, f"{by} loses frames of the slow protocols", ours.text())
        carry = ours.carry()
        check(carry["markers"] == "answered" and carry["forced"] == 0 and carry["moves"] >= 6 * FLOWS, f"each of {carry['moves']} moves was answered", ours.text(), ours.printed())
