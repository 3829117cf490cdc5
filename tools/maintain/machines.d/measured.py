"""The ways of the daemon beside the kernel's bonding, teamd and Open vSwitch: speed, latency, processor, failover, restart and memory.

The clock of a guest goes on with its instructions, so each time is a count of them: what passes data on in fewer is faster, and the load of
this machine is not in it. Cards and wires take none. So ways may be measured in several guests side by side, and beside each other. Speeds and
frames are told as parts of those of one bare link."""

from __future__ import annotations

import json
import re
import statistics
import sys
from functools import partial
from typing import NamedTuple, Sequence

from checking import Failed, check
from deployments import Task
from ends import COMES_UP, FAR_AT, OVER, journal, traffic, up_again
from guest import Guest
from ways import BARE, SETTLES, WAYS, Way, end_daemon

# How many guests share the ways.
GUESTS = 2
# Octets of TCP take some tens of milliseconds of that clock.
MTUS, STREAMS, OCTETS = (1500, 9000), (1, 64), 8 << 20
HEADERS = 28
# How many numbered frames go in a second while a link goes, or a daemon is started again.
RATE = 1000
# Frames of 64 octets, with what the card adds, of 64 conversations: as many as the processor makes, and so many in a second for some seconds.
SMALL, FLOWS, PACED, PACED_SECONDS = 60, 64, 2000, 2
# How many pings go, and the time between two in seconds.
PINGS, PAUSE = 200, 0.01
# The kernel's generator of frames sends so many from a device, with so many nanoseconds from one to the next. The far end drops them.
GENERATE = """modprobe pktgen
echo rem_device_all >/proc/net/pktgen/kpktgend_0
echo "add_device {near}" >/proc/net/pktgen/kpktgend_0
for word in 'flag !SHARED' 'xmit_mode queue_xmit' 'flag UDPSRC_RND' "count {count}" "delay {delay}" "pkt_size {octets}" 'dst 198.18.0.1' 'udp_src_min 10000' \\
    "udp_src_max {last}" "dst_mac $(ip -n far -j link show {far} | grep -o '"address":"[^"]*"' | cut -d '"' -f 4)"; do
    echo "$word" >/proc/net/pktgen/{near}
done
"""
# Prints a time, and how many packets came to the IP of the far end until then.
CAME = "{ read -r _; read -r _ _ _ n _; } </proc/net/snmp; echo $EPOCHREALTIME $n"
# Prints that twice while the generator runs, which is stopped then.
FLOOD = """echo start >/proc/net/pktgen/pgctrl &
sleep 0.1
ip netns exec far bash -c '{came}; sleep 0.3; {came}'
echo stop >/proc/net/pktgen/pgctrl
wait
echo rem_device_all >/proc/net/pktgen/kpktgend_0
"""
# Prints the time and that of all idle processors, in ms, thrice: before and after the frames, and after as long without any.
PACE = """look() {{ awk '/^now at/ {{ now = $3 / 1e6 }} /idle_sleeptime/ {{ idle += $3 / 1e6 }} END {{ printf "%.6f %.6f\\n", now, idle }}' /proc/timer_list; }}
ip netns exec far bash -c '{came}'
look
echo start >/proc/net/pktgen/pgctrl
look
sleep {seconds}
look
ip netns exec far bash -c '{came}'
echo rem_device_all >/proc/net/pktgen/kpktgend_0
"""


class Cells(NamedTuple):
    """What is measured of a way."""

    speeds: dict[str, float]
    frames: float
    median_us: float
    late_us: float
    processor_us: float
    failures: list[str]
    memory: str


COLUMNS = ["1 stream, 1,500", "64, 1,500", "1, 9,000", "64, 9,000", "64-octet frames", "ping, us", "99th", "processor a frame, us", "cable pulled: lost", "gap, ms",
           "started again: lost", "gap, ms", "memory, MB"]  # fmt: skip


def set_mtu(guest: Guest, mtu: int, near: str = "eth1", far: str = "far1") -> None:
    """Links, and devices that are made of them, take packets of this size."""
    guest.run(f"for n in 1 2; do ip link set eth$n mtu {mtu}; ip -n far link set far$n mtu {mtu}; done")
    guest.run(f"sleep 0.5; ip link set {near} mtu {mtu}; ip -n far link set {far} mtu {mtu}; sleep 1")


def stream(guest: Guest, streams: int) -> float:
    """So many octets by streams of TCP to the far end, in Mbit/s as that had them."""
    guest.run("setsid ip netns exec far iperf3 -s -1 >/dev/null 2>&1 & sleep 1")
    told = guest.text(f"iperf3 -c {FAR_AT} -n {OCTETS} -P {streams} -J")
    try:
        return float(json.loads(told)["end"]["sum_received"]["bits_per_second"]) / 1e6
    except (ValueError, KeyError) as why:
        raise Failed(f"{streams} streams of TCP run", told[-600:], journal(guest)) from why


def speeds(guest: Guest, way: Way, mtu: int) -> dict[str, float]:
    """Mbit/s of TCP by packets of a size."""
    set_mtu(guest, mtu, *way.devices)
    if not guest.within(COMES_UP, lambda: guest.run(f"ping -q -c 1 -W 1 -M do -s {mtu - HEADERS} {FAR_AT}").status == 0):
        raise Failed(f"packets of {mtu} octets go", guest.text("ip -br link; ip -n far -br link"))
    guest.sleep(SETTLES)
    return {f"{mtu} {streams}": stream(guest, streams) for streams in STREAMS}


def generate(guest: Guest, way: Way, script: str, count: int, delay: int) -> list[str]:
    """The words that a script prints while the generator runs."""
    near, far = way.devices
    given = dict(near=near, far=far, count=count, delay=delay, octets=SMALL, last=10000 + FLOWS - 1, seconds=PACED_SECONDS, came=CAME)
    told = guest.text((GENERATE + script).format(**given))
    if not re.fullmatch(r"[0-9.\s]+", told):
        raise Failed(f"frames are generated on {near}", told[-600:])
    return told.split()


def frames(guest: Guest, way: Way) -> float:
    """How many frames of 64 octets come to the far end in a second, where the near end sends as many as it can."""
    begun, one, ended, two = map(float, generate(guest, way, FLOOD, 0, 0))
    return (two - one) / (ended - begun)


def processor(guest: Guest, way: Way) -> float:
    """The time of the processor for a frame, of both ends, in us; that without frames is taken off."""
    _, one, *looks, _, two = map(float, generate(guest, way, PACE, PACED * PACED_SECONDS, 10**9 // PACED))
    if two - one < PACED * PACED_SECONDS * 0.9:
        raise Failed("the frames come", f"{two - one:.0f} of {PACED * PACED_SECONDS}")
    first, second, third = zip(looks[::2], looks[1::2])
    busy, took = second[0] - first[0] - (second[1] - first[1]), second[0] - first[0]
    quiet = third[0] - second[0] - (third[1] - second[1])
    return 1000 * (busy - quiet * took / (third[0] - second[0])) / (two - one)


def latency(guest: Guest) -> tuple[float, float]:
    """The time from a ping to its answer, in us: the median, and what 99 of 100 have at most."""
    told = guest.text(f"ping -c {PINGS} -i {PAUSE} -W 1 {FAR_AT}")
    times = sorted(1000 * float(it) for it in re.findall(r"time=([0-9.]+) ms", told))
    if len(times) < PINGS * 0.99:
        raise Failed("pings are answered", told[-600:])
    return statistics.median(times), times[len(times) * 99 // 100]


def memory(guest: Guest, way: Way) -> str:
    """The most memory that the process of the near end has had, in MB (VmHWM)."""
    told = guest.text(f"grep -h VmHWM /proc/$(pgrep -o -x {way.process})/status") if way.process else ""
    return f"{int(told.split()[1]) / 1000:.1f}" if told else "-"


def failures(guest: Guest, way: Way) -> list[str]:
    """What is lost to the far end where a cable goes, and where the near end is started again."""
    cells = []
    for again in False, True:
        if way.devices[0] == "eth1" or (again and not way.again):
            cells += ["-", "-"]
            continue

        def event(again: bool = again) -> None:
            if again:
                guest.run(way.again)
            else:
                guest.set_link(False, "eth1", "far1")

        to, _ = traffic(guest, 4, event, way.devices, RATE)
        cells += [f"{to.lost:,}", f"{to.gap_ms:,}"]
        guest.set_link(True, "eth1", "far1")
        guest.sleep(SETTLES)
    return cells


def measured(guest: Guest, way: Way) -> Cells:
    """All that is measured of a way."""
    found, (median, late) = speeds(guest, way, MTUS[0]), latency(guest)
    frames_in_a_second, microseconds, lost, kept = frames(guest, way), processor(guest, way), failures(guest, way), memory(guest, way)
    cells = Cells({**found, **speeds(guest, way, MTUS[1])}, frames_in_a_second, median, late, microseconds, lost, kept)
    if min(*cells.speeds.values(), cells.frames, cells.processor_us) <= 0:
        raise Failed("each figure is more than nothing", cells)
    return cells


def measure(guest: Guest, names: Sequence[str]) -> dict[str, str]:
    """Measures ways in turn; answers the cells of each."""
    guest.boots()
    up_again(guest)
    end_daemon(guest)
    found = {}
    for name in names:
        try:
            WAYS[name].begin(guest)
            cells = measured(guest, WAYS[name])
            found[name] = json.dumps(cells)
            check(True, f"{name}: {cells}")
        except Failed as why:
            check(False, f"{name}: {why.args[0]}", *why.args[1:], journal(guest))
        finally:
            WAYS[name].end(guest)
            set_mtu(guest, MTUS[0])
        sys.stdout.flush()
    return found


def row(name: str, it: Cells, bare: Cells) -> str:
    """A row of the table; speeds and frames are parts of those of a bare link."""
    parts = [f"{it.speeds[what] / value:.2f}" for what, value in bare.speeds.items()] + [f"{it.frames / bare.frames:.2f}"]
    return f"|{'|'.join([name, *parts, f'{it.median_us:,.0f}', f'{it.late_us:,.0f}', f'{it.processor_us:.1f}', *it.failures, it.memory])}|"


def tables(told: dict[str, dict[str, str]]) -> str:
    """The table, with what all guests told."""
    cells = {name: Cells(*json.loads(text)) for them in told.values() for name, text in them.items()}
    bare = cells.get(BARE)
    if bare is None:
        return f"{BARE} was not measured"
    lines = [f"{BARE}: {', '.join(f'{it:,.0f}' for it in bare.speeds.values())} Mbit/s, {bare.frames:,.0f} frames a second",
             f"|way|{'|'.join(COLUMNS)}|", f"|---{'|---:' * len(COLUMNS)}|"]  # fmt: skip
    return "\n".join(lines + [row(name, cells[name], bare) for name in WAYS if name in cells])


# The guests, with what each measures: as much of it in each.
TASKS = {f"measured, {n + 1} of {GUESTS}": Task("6.12", "e1000e", OVER, partial(measure, names=list(WAYS)[n::GUESTS])) for n in range(GUESTS)}
