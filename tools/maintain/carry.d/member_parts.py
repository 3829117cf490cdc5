"""What is tried of the members: what their own network stacks have, what is left to their cards, and what queues them."""

from __future__ import annotations

import fcntl
import functools
import os
import re
import select
import socket
import struct
import time
from typing import Callable

from bonds import COMES_UP, DEVICE, End, Programs, cables, wait_for_links
from checking import Skipped, check, command, within
from daemon import SYSTEM
from repository import write_text
from spaces import OURS, THEIRS, inside, ip, octets, packet_socket, within_space
from stream_parts import ADDRESSES6, give_both_addresses
from streams import ADDRESSES, give_addresses, run_stream

# Who asks for the address of our end.
ASKER = "02:00:00:00:00:77"
ARP, ANSWER = 0x0806, 2
# How much is sent each way.
OCTETS = 300000
# Of linux/if_tun.h: a request, and IFF_TAP with IFF_NO_PI.
SET_DEVICE, TAP_PLAIN = 0x400454CA, 0x1002
# How the daemon's queue looks, and what a kernel gives a TAP device.
OWN_QUEUE = "bfifo 6c61: "


def answers_of_arp(seconds: float = 1.0) -> list[str]:
    """The MAC addresses by which our end answers who has its address, in the order in which they come."""
    with_us, with_them = (socket.inet_aton(address) for address in ADDRESSES)
    asks = bytes.fromhex("ffffffffffff") + octets(ASKER) + ARP.to_bytes(2, "big") + bytes.fromhex("0001080006040001")
    asks += octets(ASKER) + with_them + bytes(6) + with_us
    found, until = [], time.monotonic() + seconds
    with packet_socket(THEIRS, DEVICE, ARP) as wire:
        wire.send(asks)
        while select.select([wire], [], [], max(0.0, until - time.monotonic()))[0]:
            frame = wire.recv(2048)
            if frame[20:22] == ANSWER.to_bytes(2, "big") and frame[28:32] == with_us:
                found.append(frame[22:28].hex(":"))
    return found


def filters(name: str) -> tuple[int, bool]:
    """How many filters look at what an interface receives, and whether they have a place there."""
    shown = inside(OURS, "tc", "filter", "show", "dev", name, "ingress").stdout
    return shown.count(" handle "), "clsact" in inside(OURS, "tc", "qdisc", "show", "dev", name).stdout


def asks_kernel(programs: Programs) -> None:
    """lagd --check tells what a file wants and the kernel lacks."""
    path = os.path.join(programs.folder, "asked.conf")
    write_text(path, "[Bundle]\nkey=1\nsystem=1,02:00:00:00:00:01\ncarry=lag0\nfast=yes\n[Port a0]\n")
    lacks = f"lagd: {path}:5: fast: the kernel has no program of an interface, which Linux has from 6.6 on\n"
    for program, wanted in (programs.old_kernel, (1, lacks)), (programs.daemon, (0, "")):
        ended = command(program, "--check", path)
        check((ended.returncode, ended.stderr) == wanted, f"a kernel {'with' if program == programs.daemon else 'without'} TCX: --check says so", ended)


def stacks(programs: Programs) -> None:
    """The stack of a member does not answer for the address of the bundle, on a kernel without TCX, either: a filter keeps it from that."""
    with cables(programs, ()):
        if inside(OURS, "tc", "qdisc", "add", "dev", "a1", "clsact").returncode:
            raise Skipped("tc sets no clsact")
        start = functools.partial(End, programs, OURS, program=programs.old_kernel)
        ours, theirs = start(), End(programs, THEIRS)
        wait_for_links(ours, theirs)
        give_addresses((DEVICE, DEVICE))
        answers = answers_of_arp()
        check(answers == [SYSTEM], f"{len(answers)} answers who has the address of {DEVICE}", answers, ours.printed())
        check("a1: it has a clsact already" in ours.printed() and "a0: it has" not in ours.printed(),
              "a line tells of filters of others", ours.printed())
        ours.kill()
        check(filters("a0") == filters("a1") == (1, True), "a killed daemon leaves its filters", filters("a0"), filters("a1"))
        ours = start()
        wait_for_links(ours, theirs)
        check(filters("a0") == filters("a1") == (1, True), "the next one takes them over", filters("a0"), filters("a1"))
        ours.ends("the daemon")
        check(filters("a0") == (0, False), "and takes them away, as it ends", filters("a0"))
        check(filters("a1") == (0, True), "but not the place that an administrator made", filters("a1"))
        for way in "ingress", "egress":
            ours = start()
            check(within(COMES_UP, lambda: filters("a0") == (1, True)), "the daemon makes a place", filters("a0"))
            inside(OURS, "tc", "filter", "add", "dev", "a0", way, "protocol", "ip", "pref", "7", "u32", "match", "u32", "0", "0")
            ours.ends("the daemon")
            stays = "u32" in inside(OURS, "tc", "filter", "show", "dev", "a0", way).stdout
            check(stays, f"a filter of others stays where the daemon made the place, for {way}")
            check(filters("a0") == (0, True), "and that of the daemon goes", filters("a0"))
            inside(OURS, "tc", "qdisc", "del", "dev", "a0", "clsact")


def carries_both_ways(kind: socket.SocketKind, family: socket.AddressFamily, hosts: tuple[str, str]) -> bool:
    """Whether what the other end sends comes to ours, and comes back."""
    payload, count = bytes(range(256)) * 5, OCTETS // 1280 if kind == socket.SOCK_STREAM else 1
    with within_space(OURS):
        server = socket.socket(family, kind)
    with within_space(THEIRS):
        client = socket.socket(family, kind)
    with server, client:
        server.settimeout(5)
        client.settimeout(5)
        server.bind((hosts[0], 7000))
        try:
            if kind == socket.SOCK_DGRAM:
                client.sendto(payload, (hosts[0], 7000))
                got, sender = server.recvfrom(2048)
                server.sendto(got, sender)
                return client.recv(2048) == payload
            server.listen(1)
            client.connect((hosts[0], 7000))
            with server.accept()[0] as taken:
                return passes(client, taken, payload * count) and passes(taken, client, payload * count)
        except TimeoutError:
            return False


def passes(sender: socket.socket, receiver: socket.socket, payload: bytes) -> bool:
    sender.sendall(payload)
    receiver.settimeout(5)
    got = b""
    while len(got) < len(payload):
        more = receiver.recv(1 << 20)
        if not more:
            return False
        got += more
    return got == payload


def sums(programs: Programs) -> None:
    """The other end leaves checksums, and segments, to cards that there are none: ours, without `offload`, hands up what comes."""
    with cables(programs, ()):
        ours, theirs = End(programs, OURS), End(programs, THEIRS, options=["--offload"])
        wait_for_links(ours, theirs)
        give_both_addresses()
        for family, hosts, version in (socket.AF_INET, ADDRESSES, 4), (socket.AF_INET6, ADDRESSES6, 6):
            for kind, name in (socket.SOCK_DGRAM, "UDP"), (socket.SOCK_STREAM, "TCP"):
                check(carries_both_ways(kind, family, hosts), f"{name} over IPv{version} goes both ways", ours.text(), theirs.text())
        check(ours.data("without_sums") > 0, f"{ours.data('without_sums')} frames came without their sums", ours.text())


def set_features(*words: str) -> None:
    """Both members of ours can do this, or cannot."""
    for name in "a0", "a1":
        if inside(OURS, "ethtool", "-K", name, *words).returncode:
            raise Skipped(f"no ethtool sets {' '.join(words)} of {name} (Debian: ethtool)")


def uncut(programs: Programs) -> None:
    """Frames of several segments, over members that cannot cut them; before the start, and while it runs."""
    for way in "--offload", "--fast":
        with cables(programs, ()):
            set_features("tso", "off", "gso", "off")
            ours, theirs = End(programs, OURS, options=[way, "--hash", "layer3+4"]), End(programs, THEIRS, options=[way])
            wait_for_links(ours, theirs)
            stream = run_stream(2)
            unsent, cut = ours.data("data_unsent"), ours.carry()["segmented"]
            check(unsent == 0, f"{way}: {stream.bits / 1e9:.2f} Gb/s, {unsent} of {cut:,} frames of several segments lost", ours.text())
            check(cut > 0 or way == "--fast", f"{way}: {cut:,} frames of several segments came to the daemon", ours.text())
            set_features("tso", "on", "gso", "on")
            stream = run_stream(1)
            check(ours.data("data_unsent") == 0, f"{way}: {stream.bits / 1e9:.2f} Gb/s once they can", ours.text())
            set_features("tx", "off")
            stream = run_stream(1)
            check(ours.data("data_unsent") == 0, f"{way}: {stream.bits / 1e9:.2f} Gb/s where they leave the sums to the kernel, too", ours.text())


def discipline_of(name: str) -> str:
    """The queueing discipline of an interface of ours, with its handle."""
    found = re.search(r"qdisc (\S+ \S+: )", inside(OURS, "tc", "qdisc", "show", "dev", name, "root").stdout)
    return found[1] if found else ""


def disciplines(programs: Programs) -> None:
    """A member that the kernel gave a queueing discipline gets one that keeps the order, for `offload` and `fast`, and the former one
    back; one that an administrator gave another discipline keeps that."""
    with cables(programs, ()):
        for name in "t0", "t1":
            ip(OURS, "tuntap", "add", name, "mode", "tap")
            ip(OURS, "link", "set", name, "up")
        usual = discipline_of("t0")
        if not usual or "noqueue" in usual or inside(OURS, "tc", "qdisc", "add", "dev", "t1", "root", "handle", "7:", "tbf", "rate", "1gbit",
                                                    "burst", "100k", "latency", "1s").returncode:
            raise Skipped(f"tc shows no queueing discipline, or sets none: {usual}")
        for way in "--fast", "--offload":
            start = functools.partial(End, programs, OURS, options=[way], names=("t0", "t1"))
            ours = start()
            check(within(COMES_UP, lambda: discipline_of("t0") == OWN_QUEUE), f"{way}: {usual} gives way to one that keeps the order", discipline_of("t0"))
            check(discipline_of("t1") == "tbf 7: ", "what an administrator set stays", discipline_of("t1"), ours.printed())
            check("t1: its queueing discipline is neither" in ours.printed() and "t0: its" not in ours.printed(), "with a line", ours.printed())
            ours.kill()
            check(discipline_of("t0") == OWN_QUEUE, "a killed daemon leaves it", discipline_of("t0"))
            ours = start()
            check(within(COMES_UP, lambda: bool(ours.told())) and discipline_of("t0") == OWN_QUEUE, "the next one takes it over", discipline_of("t0"))
            ours.ends("the daemon")
            check(discipline_of("t0") == usual, f"and {usual} is back, as it ends", discipline_of("t0"))
            check(discipline_of("t1") == "tbf 7: ", "what an administrator set stays", discipline_of("t1"))


def octets_of(name: str) -> int:
    """How many octets wait at an interface of ours at most."""
    found = re.search(r" limit (\d+)([KM]?)b", inside(OURS, "tc", "qdisc", "show", "dev", name, "root").stdout)
    return int(found[1]) * {"": 1, "K": 1 << 10, "M": 1 << 20}[found[2]] if found else 0


def rooms(programs: Programs) -> None:
    """What waits at a member has as many octets as its link sends in 50 ms: with the speed that it has as it comes up."""
    with cables(programs, ()):
        ip(OURS, "tuntap", "add", "t0", "mode", "tap")
        ip(OURS, "link", "set", "t0", "up")
        ours = End(programs, OURS, options=["--offload"], names=("t0",))
        check(within(COMES_UP, lambda: discipline_of("t0") == OWN_QUEUE), "a member gets a queue", discipline_of("t0"))
        for speed, octets_queued in (10, 64 * 1514), (100, 625000), (10000, 4 << 20):
            if inside(OURS, "ethtool", "-s", "t0", "speed", str(speed), "duplex", "full").returncode:
                raise Skipped("no ethtool sets the speed of a TAP device (Debian: ethtool)")
            with within_space(OURS):
                device = os.open("/dev/net/tun", os.O_RDWR)
            try:
                fcntl.ioctl(device, SET_DEVICE, struct.pack("16sH22x", b"t0", TAP_PLAIN))
                right = within(COMES_UP, lambda: abs(octets_of("t0") - octets_queued) < 1024)
                check(right, f"at {speed} Mb/s {octets_queued:,} octets wait", octets_of("t0"), ours.text())
            finally:
                os.close(device)
            check(within(COMES_UP, lambda: "NO-CARRIER" in inside(OURS, "ip", "link", "show", "t0").stdout), "its link goes down")
            time.sleep(1.5)


PARTS: dict[str, Callable[[Programs], None]] = {it.__name__: it for it in (asks_kernel, stacks, sums, uncut, disciplines, rooms)}
