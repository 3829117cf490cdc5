"""What is tried of streams of TCP, whose segments the daemon cuts, and puts together: what is on the cables, what comes, and what becomes of a
stream where a member, the memory or the device goes."""

from __future__ import annotations

import contextlib
import hashlib
import os
import signal
import socket
import subprocess
import threading
import time
from typing import Callable, Iterator

from bonds import ANSWERS, COMES_BACK, DEVICE, End, Event, Programs, check_end, kernel_count, pair
from checking import Failed, check, within
from packets import PORT, host_socket, internet_sum, packet_to_cut
from spaces import OURS, THEIRS, inside, ip, packet_socket, within_space
from streams import ADDRESSES, give_addresses
from tap_parts import check_deleted

ADDRESSES6 = ("2001:db8::1", "2001:db8::2")
OCTETS_AT_ONCE = 1 << 16
# How many octets a stream has, and in how many seconds it has to come, whatever happens meanwhile.
OCTETS, COMES_WITHIN = 40_000_000, 90
# The most frames of a stream that are looked at on a cable.
MOST_FRAMES = 2000
# Packets that a program has cut, how many octets each has, and those of the smallest segments (TCP_MIN_SND_MSS of Linux).
SMALL_PACKETS, SMALL_OCTETS, SMALLEST = 4, 65000, 48


def is_complete(frame: bytes) -> bool:
    """Whether a frame of TCP has the lengths and the checksums that it has by itself."""
    packet, six = frame[14:], frame[12:14] == b"\x86\xdd"
    header = packet[:40] if six else packet[:20]
    length = int.from_bytes(header[4:6], "big") + 40 if six else int.from_bytes(header[2:4], "big")
    tcp, addresses = packet[len(header):length], header[8:] if six else header[12:]
    sum_holds = internet_sum(addresses + len(tcp).to_bytes(4, "big") + (6).to_bytes(4, "big") + tcp) == 0xFFFF
    return len(frame) <= 1514 and len(packet) >= length and sum_holds and (six or internet_sum(header) == 0xFFFF)


@contextlib.contextmanager
def checking_frames(complete: list[bool], space: str, name: str) -> Iterator[None]:
    """Tells of each frame of TCP with a payload that an interface receives whether it is complete."""
    ended = threading.Event()
    wire = packet_socket(space, name, 3)
    wire.settimeout(0.2)

    def look() -> None:
        while not ended.is_set() and len(complete) < MOST_FRAMES:
            with contextlib.suppress(TimeoutError):
                frame = wire.recv(70000)
                protocol = frame[20] if frame[12:14] == b"\x86\xdd" else frame[23] if frame[12:14] == b"\x08\x00" else 0
                if protocol == 6 and len(frame) > 200:
                    complete.append(is_complete(frame))

    thread = threading.Thread(target=look)
    thread.start()
    try:
        yield
    finally:
        ended.set()
        thread.join()
        wire.close()


def stream_comes(address: str, events: list[Event], octets: int = OCTETS) -> bool:
    """Whether a stream to an address of the other end comes as it was sent, while events happen."""
    family = socket.AF_INET6 if ":" in address else socket.AF_INET
    with within_space(THEIRS):
        server = socket.create_server((address, PORT), family=family)
    with within_space(OURS):
        client = socket.socket(family)
    digests: list[str] = []

    def receive() -> None:
        received = hashlib.sha256()
        with server, contextlib.suppress(OSError):
            server.settimeout(COMES_WITHIN)
            connection = server.accept()[0]
            connection.settimeout(COMES_WITHIN)
            with connection:
                while part := connection.recv(1 << 20):
                    received.update(part)
        digests.append(received.hexdigest())

    def have_events() -> None:
        begin = time.monotonic()
        for at, event in events:
            time.sleep(max(0.0, begin + at - time.monotonic()))
            event()

    threads = [threading.Thread(target=receive), threading.Thread(target=have_events)]
    sent = hashlib.sha256()
    for thread in threads:
        thread.start()
    with client, contextlib.suppress(OSError):
        client.settimeout(COMES_WITHIN)
        client.connect((address, PORT))
        for _ in range(octets // OCTETS_AT_ONCE):
            part = os.urandom(OCTETS_AT_ONCE)
            sent.update(part)
            client.sendall(part)
    for thread in threads:
        thread.join(COMES_WITHIN)
    return digests == [sent.hexdigest()]


def give_both_addresses(ends: tuple[str, str] = (DEVICE, DEVICE)) -> None:
    """Both ends get addresses of IPv4 and IPv6."""
    give_addresses(ends)
    for space, device, address in zip((OURS, THEIRS), ends, ADDRESSES6):
        inside(space, "sysctl", "-qw", f"net.ipv6.conf.{device}.disable_ipv6=0")
        ip(space, "address", "replace", f"{address}/64", "dev", device, "nodad")


def streams(programs: Programs) -> None:
    """A stream has frames on the cables as each card takes them, comes as it was sent, and each of its frames is counted."""
    with pair(programs, delays=(), options=["--hash", "layer3+4"]) as (_, ours, theirs):
        give_both_addresses()
        for address in ADDRESSES[1], ADDRESSES6[1]:
            complete: list[bool] = []
            before, up = theirs.carry()["handed_up"], kernel_count(THEIRS, DEVICE, "rx_packets")
            with checking_frames(complete, THEIRS, "b0"), checking_frames(complete, THEIRS, "b1"):
                check(stream_comes(address, []), f"a stream to {address} comes as it was sent", ours.text(), theirs.text())
            check(len(complete) > 100 and all(complete), f"{len(complete)} frames of it have their lengths and checksums on the cables",
                  complete.count(False))
            frames, packets = theirs.carry()["handed_up"] - before, kernel_count(THEIRS, DEVICE, "rx_packets") - up
            check(packets < frames / 2, f"its {frames:,} frames go up as {packets:,} packets", theirs.text())
        check(ours.carry()["segmented"] > 0, f"{ours.carry()['segmented']:,} packets of several segments came from the host", ours.text())
        check_end(ours, "the sending end")
        check_end(theirs, "the receiving end")


def small_segments(programs: Programs) -> None:
    """Packets of the smallest segments that Linux makes are cut, and one of smaller ones is unfit."""
    with pair(programs, delays=()) as (_, ours, theirs):
        before, frames = ours.carry(), SMALL_PACKETS * -(-SMALL_OCTETS // SMALLEST)
        with host_socket() as host:
            for size in (*[SMALLEST] * SMALL_PACKETS, SMALLEST - 1):
                host.send(packet_to_cut(SMALL_OCTETS, size))

        def taken() -> list[int]:
            now = ours.carry()
            return [now["from_host"] - before["from_host"], now["unfit"] - before["unfit"]]

        check(within(COMES_WITHIN, lambda: taken() == [frames + 1, 1]), f"{frames:,} segments are cut of {SMALL_PACKETS} packets, and none of one with smaller ones",
              taken(), ours.text())
        check_end(ours, "the sending end")
    with pair(programs, delays=()) as (_, ours, theirs):
        with host_socket() as host:
            host.send(packet_to_cut(3000, 1000, tags=b"\x88\xa8\x00\x05" + b"\x81\x00\x00\x05" * 2))
        check(within(ANSWERS, lambda: theirs.carry()["handed_up"] == 3), "a packet with three tags is cut, too", ours.text())


def stream_troubles(programs: Programs) -> None:
    """A stream goes on where a member goes down, takes less, or is full, where a daemon is stopped, and where there is no memory."""
    def moves_of(end: End) -> list[Event]:
        return [(0.2 * turn, lambda: end.process.send_signal(signal.SIGUSR2)) for turn in range(1, 20)]

    with pair(programs, delays=(), program=programs.little_memory, options=["--hash", "layer3+4"]) as (_, ours, theirs):
        give_both_addresses()
        check(stream_comes(ADDRESSES[1], []), "without memory for packets of several segments a stream comes", theirs.text())
        check(theirs.carry()["host_untaken"] == 0, "and each of its frames goes up", theirs.text())
        check_end(theirs, "the receiving end")
    with pair(programs, delays=(), options=["--hash", "layer3+4"]) as (_, ours, theirs):
        give_both_addresses()
        check(stream_comes(ADDRESSES[1], moves_of(ours)), "a stream that moves comes as it was sent", ours.text())
        for name in "a0", "a1":
            events: list[Event] = [(0.3, lambda: ip(OURS, "link", "set", name, "down")), (2, lambda: ip(OURS, "link", "set", name, "up"))]
            check(stream_comes(ADDRESSES[1], events, 4 * OCTETS), f"so does one while {name} goes down and comes", ours.text())
            if not within(COMES_BACK, lambda: ours.links() == theirs.links() == 2):
                raise Failed("both links come back", ours.text())
        for end, name in (ours, "sending"), (theirs, "receiving"):
            events = [(0.3, lambda: end.process.send_signal(signal.SIGSTOP)), (1.0, lambda: end.process.send_signal(signal.SIGCONT))]
            check(stream_comes(ADDRESSES6[1], events), f"and one while the {name} daemon is stopped", ours.text())
        events = [(0.3, lambda: ip(OURS, "link", "set", "a0", "mtu", "1300")), (1.0, lambda: ip(OURS, "link", "set", "a0", "mtu", "1500"))]
        check(stream_comes(ADDRESSES[1], events, 4 * OCTETS), "and one while a member takes less", ours.text())
        check_end(ours, "the sending end")
        check_end(theirs, "the receiving end")
        delete_device(ours, theirs)


def delete_device(ours: End, theirs: End) -> None:
    """The device of the receiving end is deleted while a stream goes up there."""
    words = ["ip", "netns", "exec", OURS, "python3", "-c", f"import socket; it = socket.create_connection(('{ADDRESSES[1]}', {PORT}))\n"
             "while True: it.sendall(bytes(1 << 16))"]
    with within_space(THEIRS):
        server = socket.create_server((ADDRESSES[1], PORT))
    sender = subprocess.Popen(words, stderr=subprocess.DEVNULL)
    with server, server.accept()[0] as connection:
        connection.settimeout(2)
        threading.Timer(0.5, lambda: ip(THEIRS, "link", "del", DEVICE)).start()
        with contextlib.suppress(OSError):
            while connection.recv(1 << 20):
                pass
    sender.kill()
    sender.wait()
    check_deleted(theirs, ours, f"{DEVICE} was deleted while a stream went up")


PARTS: dict[str, Callable[[Programs], None]] = {it.__name__: it for it in (streams, small_segments, stream_troubles)}
