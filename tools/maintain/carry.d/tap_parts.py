"""What is tried of the TAP device: its host sends while it has no carrier, and an administrator deletes it, moves it, renames it, or sets it
up in another way."""

from __future__ import annotations

import contextlib
import errno
import shutil
import signal
import socket
import subprocess
import time
from typing import Iterator

from bonds import (COMES_BACK, COMES_UP, DEVICE, FLOWS, MIDDLE, RATE, End, Event, Programs, cables, check_end, check_order, every, move_all, pair, run_flows,
                   wait_for_links)
from checking import Skipped, check, within
from fast_parts import check_fast, fast_pair
from packets import host_socket, packet_to_cut
from speeds import FULL, Cable, Settings, make_tap, renew
from spaces import OURS, THEIRS, inside, ip, packet_socket
from streams import run_stream

# More frames than the daemon may be left with.
MANY = 6000
# Of a daemon that ends: how long it takes at most, and how long its peer does to know it.
ENDS, KNOWN = 4, 2.5
# After how many seconds nothing is passed on any more for a daemon that is stopped.
STOPPED = 3.2
# How long the daemon takes to follow what an administrator sets.
FOLLOWS = 3
UNKNOWN_SPEED = 0xFFFFFFFF


def send_many(programs: Programs, rate: int = 5000) -> None:
    """Has the host send more frames than wait."""
    inside(OURS, programs.flows, "send", DEVICE, str(rate), str(FLOWS), str(MANY / rate), "macs", timeout=30)


def set_links(*state: str) -> None:
    for name in ("a0", "a1"):
        ip(OURS, "link", "set", name, *state)


def check_alive(programs: Programs, ours: End, what: str) -> None:
    """Data comes, and the kernel passes it on."""
    check(within(COMES_BACK, lambda: ours.links() == 2), f"{what}: both links carry", ours.text(), ours.printed())
    run_flows(programs, 1)
    outcome = run_flows(programs, 3)
    share = outcome.received / max(1, outcome.sent)
    check(share > 0.95, f"{what}: {outcome.received:,} of {outcome.sent:,} frames come", outcome, ours.text())
    check_order(outcome, what, ours.text())
    check_fast(ours, FLOWS // 2)


def fast_outage(programs: Programs) -> None:
    """The host sends while nothing carries: later frames come all the same, and go by the kernel."""
    with fast_pair(programs, delays=()) as (_, ours, theirs):
        set_links("down")
        check(within(COMES_BACK, lambda: not ours.carry()["carrier"]), "with both links down there is no carrier", ours.text())
        send_many(programs)
        set_links("up")
        check_alive(programs, ours, f"{MANY:,} frames were sent with both links down")
        events: list[Event] = [(1, lambda: set_links("down")), (3, lambda: set_links("up"))]
        run_flows(programs, 9, events)
        check_fast(ours, FLOWS // 2)
        check_end(ours, "the sending end")
        restart = [(0.5, theirs.kill), (4.0, lambda: theirs.__init__(programs, THEIRS, options=["--fast"]))]  # type: ignore[misc]
        run_flows(programs, 5, restart)
        check_alive(programs, ours, "the peer was killed, and started again, under a load")


def fast_start(programs: Programs) -> None:
    """The host sends before the daemon is there."""
    with cables(programs, ()):
        ip(OURS, "tuntap", "add", DEVICE, "mode", "tap", "vnet_hdr")
        ip(OURS, "link", "set", DEVICE, "up")
        words = ["ip", "netns", "exec", OURS, programs.flows, "send", DEVICE, str(RATE), str(FLOWS), "10", "macs"]
        sender = subprocess.Popen(words, stdout=subprocess.DEVNULL)
        try:
            ends = [End(programs, space, options=["--fast"]) for space in (OURS, THEIRS)]
            wait_for_links(*ends)
            sender.wait(30)
            check_alive(programs, ends[0], "the daemon was started while its host sent")
        finally:
            sender.kill()
            sender.wait()


@contextlib.contextmanager
def foreign(space: str) -> Iterator[list[str]]:
    """Two interfaces of another namespace, whose numbers are those of the members."""
    names = []
    for name in ("a0", "a1"):
        number = inside(OURS, "cat", f"/sys/class/net/{name}/ifindex").stdout.strip()
        names.append(f"c{name[1]}")
        ip(space, "link", "add", names[-1], "index", number, "type", "veth", "peer", "name", f"d{name[1]}", "index", f"9{number}")
        for end in names[-1], f"d{name[1]}":
            ip(space, "link", "set", end, "up")
    yield names


def check_deleted(ours: End, theirs: End, what: str) -> None:
    """The daemon tells its peer, and ends so that it is started again."""
    begin = time.monotonic()
    told = within(KNOWN, lambda: not theirs.carry()["carrier"])
    check(told, f"{what}: {time.monotonic() - begin:.1f} s later the peer sends nothing more", theirs.text())
    with contextlib.suppress(subprocess.TimeoutExpired):
        ours.process.wait(ENDS)
    check(ours.process.returncode == 1, f"{what}: the daemon ends with status 1", ours.process.returncode, ours.printed()[-2000:])
    check("the device was deleted, or moved" in ours.printed(), f"{what}: a line tells of it", ours.printed())


def gone(programs: Programs) -> None:
    """The TAP device is deleted, or moved to another namespace."""
    ways: tuple[list[str], ...] = ([], ["--fast"])
    for options in ways:
        name = options[0] if options else "plain"
        with pair(programs, delays=(), options=options) as (_, ours, theirs):
            run_flows(programs, 2, [(0.7, lambda: ip(OURS, "link", "del", DEVICE))])
            check_deleted(ours, theirs, f"{name}, {DEVICE} was deleted")
        with pair(programs, delays=(), options=options) as (_, ours, theirs):
            run_flows(programs, 1)
            ip(OURS, "link", "set", DEVICE, "netns", MIDDLE)
            check_deleted(ours, theirs, f"{name}, {DEVICE} was moved")


def fast_moved(programs: Programs) -> None:
    """What is sent to a TAP device in another namespace leaves by none of its interfaces; while the daemon is stopped, after three seconds."""
    for stopped in False, True:
        with fast_pair(programs, delays=()) as (_, ours, theirs), foreign(MIDDLE) as names:
            run_flows(programs, 2)
            check_fast(ours)
            if stopped:
                ours.process.send_signal(signal.SIGSTOP)
                time.sleep(STOPPED)
            ip(OURS, "link", "set", DEVICE, "netns", MIDDLE)
            ip(MIDDLE, "link", "set", DEVICE, "up")
            inside(MIDDLE, programs.flows, "send", DEVICE, str(RATE), str(FLOWS), "1", "macs", timeout=30)
            left = [int(inside(MIDDLE, "cat", f"/sys/class/net/{name}/statistics/tx_packets").stdout) for name in names]
            check(max(left) < 100, f"with the daemon {'stopped' if stopped else 'there'}, {left} frames left by interfaces of another namespace")
            ours.process.send_signal(signal.SIGCONT)


def set_queue(device: str, *words: str) -> None:
    if inside(OURS, "tc", "qdisc", "replace", "dev", device, "root", *words).returncode:
        raise Skipped(f"tc sets no {words[0]}")


def fast_queues(programs: Programs) -> None:
    """The queueing disciplines of the TAP device and of a member change while data goes by the kernel."""
    with fast_pair(programs, delays=()) as (_, ours, theirs):
        kind = inside(OURS, "tc", "qdisc", "show", "dev", DEVICE).stdout
        check("noqueue" in kind, f"{DEVICE} has no queueing discipline", kind)
        run_flows(programs, 2)
        check_fast(ours)
        set_queue(DEVICE, "tbf", "rate", "500kbit", "burst", "3000", "limit", "1000000")
        line = "its queueing discipline is tbf: its data stays with the daemon"
        check(within(FOLLOWS, lambda: line in ours.printed()), "one that holds frames has a line", ours.printed())
        outcome = run_flows(programs, 6, every(1, 5, move_all(ours)), rate=640)
        check_order(outcome, "through a discipline that holds frames", ours.text())
        check(ours.carry()["fast_conversations"] == 0, "the kernel passes nothing on then", ours.text())
        set_queue(DEVICE, "pfifo")
        check(within(FOLLOWS, lambda: "its data may go by the kernel" in ours.printed()), "one that holds none has a line", ours.printed())
        time.sleep(1)
        check_alive(programs, ours, "with pfifo")


def mtu_of(device: str) -> str:
    return inside(OURS, "cat", f"/sys/class/net/{device}/mtu").stdout.strip()


def carries(frame: bytes) -> bool:
    """Whether a frame of the host comes out at the other end as it went in."""
    sent, seen = packet_socket(OURS, DEVICE, 0), packet_socket(THEIRS, DEVICE, 3)
    seen.settimeout(0.5)
    found = False
    with sent, seen, contextlib.suppress(TimeoutError):
        sent.send(frame)
        while not found:
            came = seen.recv(65536)  # without the tag that the kernel keeps beside it
            found = came[:12] == frame[:12] and len(came) >= len(frame) - 4
    return found


def long_frames(programs: Programs) -> None:
    """Frames as long as all members take, in each way; a member that takes less, and one that goes."""
    header = bytes.fromhex("0200000000070200000000dd")
    frames = {"9216 octets": header + bytes.fromhex("88b5") + bytes(9216),
              "9216 octets behind a tag": header + bytes.fromhex("8100 0064 88b5") + bytes(9216),
              "9212 octets behind two tags": header + bytes.fromhex("8100 0065 8100 0064 88b5") + bytes(9212)}
    for name in "plain", "--offload", "--fast":
        way = [] if name == "plain" else [name]
        with pair(programs, delays=(), options=way) as (_, ours, theirs):
            for space, member in (OURS, "a0"), (OURS, "a1"), (THEIRS, "b0"), (THEIRS, "b1"):
                ip(space, "link", "set", member, "mtu", "9216")
            check(within(FOLLOWS, lambda: mtu_of(DEVICE) == "9216"), f"{name}: the device takes what all members take", mtu_of(DEVICE))
            time.sleep(1)
            for what, frame in frames.items():
                check(all(carries(frame) for _ in range(20)), f"{name}: 20 frames of {what} are carried", ours.text(), theirs.text())
            if name == "--fast":
                check_fast(ours)
            if shutil.which("iperf3"):
                stream = run_stream(2)
                check(stream.bits > 1e6, f"{name}: a stream of {stream.bits / 1e9:.1f} Gb/s goes", ours.text())
            wrong = ours.data("wrong_length") + theirs.data("wrong_length") + ours.carry()["unfit"]
            check(wrong == 0, f"{name}: no frame has a wrong length", ours.text(), theirs.text())
            ip(OURS, "link", "set", "a1", "mtu", "1500")
            check(within(FOLLOWS, lambda: mtu_of(DEVICE) == "1500"), f"{name}: with a smaller member it takes less", mtu_of(DEVICE))
            check(carries(header + bytes.fromhex("88b5") + bytes(1500)), f"{name}: and carries that", ours.text())
            ip(OURS, "link", "del", "a1")
            check(within(FOLLOWS, lambda: mtu_of(DEVICE) == "9216"), f"{name}: once that is gone, it takes the former", mtu_of(DEVICE))
            check(within(COMES_BACK, lambda: carries(frames["9216 octets"])), f"{name}: and carries it on the other", ours.text())


def administered(programs: Programs) -> None:
    """An administrator sets the MTU of the TAP device, takes its carrier away, and renames it; and a member with a low MTU goes."""
    with pair(programs, delays=(), options=["--fast"]) as (_, ours, theirs):
        ip(OURS, "link", "set", DEVICE, "mtu", "9000")
        check(within(FOLLOWS, lambda: mtu_of(DEVICE) == "1500"), "an MTU that no member takes is set back", mtu_of(DEVICE))
        check(within(1, lambda: "its members take no MTU of 9000" in ours.printed()), "a line tells of it", ours.printed())
        if shutil.which("iperf3"):
            stream = run_stream(1)
            check(stream.bits > 1e6, f"a stream of {stream.bits / 1e9:.1f} Gb/s goes", ours.text())
        for wanted, by in ("1300", DEVICE), ("1280", "a1"):
            ip(OURS, "link", "set", by, "mtu", wanted)
            check(within(FOLLOWS, lambda: mtu_of(DEVICE) == wanted), f"with {wanted} of {by} it has that", mtu_of(DEVICE))
        ip(OURS, "link", "del", "a1")
        check(within(FOLLOWS, lambda: mtu_of(DEVICE) == "1300"), "with the smallest member gone it has what was set", mtu_of(DEVICE))
        ip(OURS, "link", "set", DEVICE, "mtu", "1500")
        ip(OURS, "link", "set", "a0", "mtu", "1400")
        check(within(FOLLOWS, lambda: mtu_of(DEVICE) == "1400"), "the MTU follows again", mtu_of(DEVICE))
        ip(OURS, "link", "set", DEVICE, "carrier", "off")
        check(within(FOLLOWS, lambda: not ours.carry()["carrier"]), "without its carrier, the status says so", ours.text())
        check(within(FOLLOWS, lambda: "it has no carrier, though links carry" in ours.printed()), "and a line", ours.printed())
        check(within(FOLLOWS, lambda: "  status: down, " in ours.text()), "and the bundle is down, since nothing of the host goes", ours.text())
        ip(OURS, "link", "set", DEVICE, "carrier", "on")
        check(within(FOLLOWS, lambda: ours.carry()["carrier"]), "with its carrier, too", ours.text())
        check(within(FOLLOWS, lambda: "  status: down, " not in ours.text()), "and the bundle is no longer down", ours.text())
        ip(OURS, "link", "set", DEVICE, "name", "other0")
        ip(OURS, "link", "set", "a0", "mtu", "1500")
        check(within(FOLLOWS, lambda: mtu_of("other0") == "1500"), "with another name it follows its members", mtu_of("other0"))
        ip(OURS, "link", "set", "other0", "name", DEVICE)


def speed_of(device: str) -> int:
    return Settings(OURS, device).speed()


def speed(programs: Programs) -> None:
    """The TAP device is as fast as the members that carry are together, while one gets another speed, or one that nobody knows, or goes."""
    with cables(programs, ()):
        lines = [Cable(make_tap(OURS, name), make_tap(THEIRS, f"u{name[1:]}")) for name in ("t0", "t1")]
        try:
            renew(0, 1000, FULL)
            renew(1, 2500, FULL)
            ends = [End(programs, space, names=names) for space, names in ((OURS, ("t0", "t1")), (THEIRS, ("u0", "u1")))]
            ours, begun = ends[0], speed_of(DEVICE)
            check(begun in (UNKNOWN_SPEED, 1000, 2500), "it has none before both links carry", begun)
            check(within(COMES_UP, lambda: all(end.links() == 2 for end in ends)), "two links carry", ours.text())
            check(within(FOLLOWS, lambda: speed_of(DEVICE) == 3500), "members of 1000 and 2500 Mb/s are 3500", speed_of(DEVICE), ours.text())
            for now, wanted in (100, 1100), (UNKNOWN_SPEED, 1000):
                renew(1, now, FULL)
                check(within(COMES_BACK, lambda: ours.links() == 2), f"both carry, one of which has {now}", ours.text())
                check(within(FOLLOWS, lambda: speed_of(DEVICE) == wanted), f"they are {wanted}", speed_of(DEVICE))
            check_order(run_flows(programs, 2, rate=640), "over members with a speed and without", ours.text())
            ip(OURS, "link", "set", DEVICE, "name", "other0")
            ip(OURS, "link", "set", "t0", "down")
            check(within(FOLLOWS, lambda: speed_of("other0") == UNKNOWN_SPEED), "with another name, the first one's goes with its link",
                  speed_of("other0"))
            check("its speed stays" not in ours.printed(), "no line tells of a kernel that refuses", ours.printed())
        finally:
            for line in lines:
                line.cut()


def queues(programs: Programs) -> None:
    """Members with several queues of which no driver tells, and that stand on another interface; and RPS of the TAP device."""
    lines = {"": ("q0: it has several queues, and markers may overtake data", "m0: it stands on another interface, whose queues are not seen"),
             "--fast": ("q0: its data stays with the daemon: it has several queues", "m0: its data stays with the daemon: it stands on another")}
    with cables(programs, ()):
        for words in ("q0", "numtxqueues", "4", "numrxqueues", "4", "type", "ifb"), ("link", "a1", "name", "m0", "type", "macvlan"):
            if inside(OURS, "ip", "link", "add", *words).returncode:
                raise Skipped(f"there is no {words[-1]}")
        for name in "q0", "m0":
            ip(OURS, "link", "set", name, "up")
        inside(OURS, "sysctl", "-qw", "net.core.rps_default_mask=3")
        for option, wanted in lines.items():
            end = End(programs, OURS, names=("q0", "m0"), options=[option] if option else [])
            check(within(FOLLOWS, lambda: all(line in end.printed() for line in wanted)), f"{option or 'plain'}: each has a line", end.printed())
            mask = inside(OURS, "cat", f"/sys/class/net/{DEVICE}/queues/rx-0/rps_cpus").stdout.strip()
            check(set(mask) <= set("0,"), f"{option or 'plain'}: RPS spreads nothing at {DEVICE}", mask)
            end.kill()


def send_or_lose(sent: socket.socket, packet: bytes) -> None:
    """Sends a packet. The kernel tells its sender of one that the program at the TAP device lost."""
    try:
        sent.send(packet)
    except OSError as why:
        if why.errno != errno.ENOBUFS:
            raise


def segments(programs: Programs) -> None:
    """Frames whose segments have, with their headers, as many octets as a frame may have, and one more."""
    for option in "--offload", "--fast":
        with pair(programs, delays=(), options=[option]) as (_, ours, theirs), host_socket() as sent:
            for octets, unfit in (1460, 0), (1461, 3):
                before = ours.carry()["from_host"]
                for _ in range(3):
                    send_or_lose(sent, packet_to_cut(4000, octets))
                    time.sleep(0.3)
                told = ours.carry()
                holds = told["from_host"] == before + 3 and told["unfit"] == unfit
                check(holds, f"{option}: of three frames with segments of {octets + 54} octets {told['unfit']} are unfit", ours.text())
