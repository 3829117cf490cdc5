"""The table of speeds: two interfaces without a bond, the daemon's three ways, and Open vSwitch, in one run."""

from __future__ import annotations

import re
from dataclasses import dataclass
from typing import Callable, Sequence

from beside import print_rows, switches
from bonds import DEVICE, Programs, cables, pair, run_flows
from checking import Failed, Skipped, check
from measuring import seconds_of
from spaces import OURS, THEIRS, inside
from streams import ADDRESSES, run_stream

HEADINGS = ("way", "one stream, Gb/s", "of veth", "of Open vSwitch", "four streams, Gb/s", "of veth", "frames of 200 octets, 1/s", "of Open vSwitch",
            "processor a frame, us", "of Open vSwitch", "ping, ms")
# For how many seconds each is measured; how many small frames are offered, and how many where the processor's time is taken.
SECONDS, OFFERED, MEASURED = 4, 400000, 50000


@dataclass
class Speed:
    name: str
    one: float = 0.0
    four: float = 0.0
    frames: float = 0.0
    took: float = 0.0  # microseconds of a processor for each frame, of both ends; 0: none
    ping: float = 0.0


def ping_of() -> float:
    told = inside(OURS, "ping", "-q", "-i", "0.02", "-c", "100", ADDRESSES[1]).stdout
    found = re.search(r"= [\d.]+/([\d.]+)/", told)
    return float(found[1]) if found else 0.0


def measure(name: str, programs: Programs, devices: tuple[str, str], processes: Sequence[int] = ()) -> Speed:
    """All columns of one way."""
    speed = Speed(name)
    speed.one = run_stream(SECONDS, devices=devices).bits / 1e9
    speed.four = run_stream(SECONDS, devices=devices, streams=4).bits / 1e9
    speed.ping = ping_of()
    speed.frames = run_flows(programs, SECONDS, rate=OFFERED, devices=devices).received / SECONDS
    before = sum(map(seconds_of, processes))
    received = run_flows(programs, SECONDS, rate=MEASURED, devices=devices).received
    speed.took = (sum(map(seconds_of, processes)) - before) * 1e6 / max(received, 1)
    return speed


def measure_veth(programs: Programs) -> Speed:
    with cables(programs, ()):
        return measure("veth, no bond", programs, ("a0", "b0"))


def measure_lagd(programs: Programs, name: str, *options: str) -> Speed:
    with pair(programs, delays=(), options=["--hash", "layer3+4", *options]) as (_, ours, theirs):
        return measure(name, programs, (DEVICE, DEVICE), [ours.process.pid, theirs.process.pid])


def measure_open_vswitch(programs: Programs) -> Speed:
    with switches(programs, ()) as (_, name, processes):
        for space in OURS, THEIRS:
            inside(space, "sysctl", "-qw", "net.ipv4.conf.all.arp_ignore=1")
        return measure(name, programs, ("br0", "br0"), processes)


def part_of(one: float, other: float) -> str:
    return f"{one / other:.2f}" if other > 0 and one > 0 else "-"


def cells_of(speed: Speed, veth: Speed, switch: Speed) -> list[str]:
    return [speed.name, f"{speed.one:.2f}", part_of(speed.one, veth.one), part_of(speed.one, switch.one), f"{speed.four:.2f}",
            part_of(speed.four, veth.four), f"{speed.frames:,.0f}", part_of(speed.frames, switch.frames),
            f"{speed.took:.2f}" if speed.took else "-", part_of(speed.took, switch.took), f"{speed.ping:.2f}"]


def print_speeds(programs: Programs) -> None:
    ways: list[Callable[[], Speed]] = [
        lambda: measure_veth(programs), lambda: measure_lagd(programs, "lagd"), lambda: measure_lagd(programs, "lagd --offload", "--offload"),
        lambda: measure_lagd(programs, "lagd --fast", "--fast"), lambda: measure_open_vswitch(programs)]
    speeds = []
    for way in ways:
        try:
            speeds.append(way())
        except (Skipped, Failed) as why:
            print(f"skipped: {why}", flush=True)
            speeds.append(Speed("-"))
    print(f"two links of veth without a delay, hash layer3+4; {SECONDS} s each; frames of 200 octets in 64 flows: {OFFERED:,} a second are offered, and "
          f"{MEASURED:,} where the processor's time of both ends is taken")
    print_rows(HEADINGS, [cells_of(speed, speeds[0], speeds[-1]) for speed in speeds if speed.name != "-"])
    check(all(speed.one > 0 for speed in speeds[:4]), "each way of the daemon carries a stream")
