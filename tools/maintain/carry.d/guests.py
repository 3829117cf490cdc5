"""What is tried of a guest behind a bridge with the device, which sends what no honest host does."""

from __future__ import annotations

import fcntl
import os
import struct
import time
from threading import Thread
from typing import Callable

from bonds import DEVICE, End, Programs, check_end, pair, run_flows
from checking import check
from packets import packet_to_cut
from spaces import OURS, ip, within_space

# Of linux/if_tun.h: a request, IFF_TAP with IFF_NO_PI and IFF_VNET_HDR, and what the guest takes of segments and sums.
SET_DEVICE, SET_OFFLOAD, TAP_SEGMENTS, ALL_OFFLOADS = 0x400454CA, 0x400454D0, 0x5002, 0x0F
# The bridge, the device of the guest, and how many octets it sends at once.
BRIDGE, GUEST, OCTETS = "br0", "vm0", 64000
# Frames a second of others, and for how many seconds.
OTHERS, SECONDS = 2000, 5
# How many packets of the guest a second, with segments of so many octets, and whether these are fit.
ROWS = (20, 1, False), (200, 8, False), (200, 47, False), (100, 48, True), (400, 48, True), (200, 536, True)


def send_packets(guest: int, rate: int, size: int, seconds: float) -> None:
    packet, begin, sent = packet_to_cut(OCTETS, size, bytes.fromhex("02bb00000001" "0200000000cc")), time.monotonic(), 0
    while time.monotonic() < begin + seconds:
        if sent > (time.monotonic() - begin) * rate:
            time.sleep(0.002)
            continue
        sent += 1
        try:
            os.write(guest, packet)
        except OSError:
            continue


def try_row(programs: Programs, ours: End, guest: int, rate: int, size: int, fit: bool) -> None:
    """What others send comes, whatever the guest does."""
    before = ours.carry()["unfit"]
    thread = Thread(target=send_packets, args=(guest, rate, size, SECONDS))
    thread.start()
    outcome = run_flows(programs, SECONDS, rate=OTHERS, devices=(BRIDGE, DEVICE))
    thread.join()
    what = f"{rate} packets a second of segments of {size} octets"
    most = outcome.sent // 2 if fit and rate * OCTETS // size > 100000 else 0  # so many small frames are more than the other end takes
    check(outcome.lost() <= most and outcome.overtaken == outcome.twice == 0, f"{what}: {outcome.received:,} of {outcome.sent:,} frames of others come, gap {outcome.gap_ms} ms",
          outcome, ours.text())
    check((ours.carry()["unfit"] > before) != fit, f"{what} are {'sent' if fit else 'unfit'}", ours.text())
    check(ours.count("a0", "distributed") == ours.count("a1", "distributed") == 1, f"{what}: both ports carry since the start", ours.printed())


def guest_segments(programs: Programs) -> None:
    """A guest sends packets that are cut into many frames: each conversation of others, and LACP, goes on."""
    with pair(programs, delays=(), options=["--hash", "layer3+4"]) as (_, ours, _theirs):
        ip(OURS, "link", "add", BRIDGE, "type", "bridge")
        ip(OURS, "link", "set", BRIDGE, "up")
        ip(OURS, "link", "set", DEVICE, "master", BRIDGE)
        with within_space(OURS):
            guest = os.open("/dev/net/tun", os.O_RDWR | os.O_NONBLOCK)
            fcntl.ioctl(guest, SET_DEVICE, struct.pack("16sH22x", GUEST.encode(), TAP_SEGMENTS))
        fcntl.ioctl(guest, SET_OFFLOAD, ALL_OFFLOADS)
        ip(OURS, "link", "set", GUEST, "master", BRIDGE, "up")
        try:
            for rate, size, fit in ROWS:
                try_row(programs, ours, guest, rate, size, fit)
            check_end(ours, "the sending end")
        finally:
            os.close(guest)


PARTS: dict[str, Callable[[Programs], None]] = {it.__name__: it for it in (guest_segments,)}
