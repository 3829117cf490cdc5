"""Members that keep all their queues (`queues=all`), at both ends of a guest with several processors and cards of several queues, beside members that
are cut to one queue."""

from __future__ import annotations

from functools import partial
from typing import Callable, NamedTuple

from checking import check
from deployments import Task, run_rows
from ends import FAR, FAR_AT, NEAR, NEAR_AT, OVER, RATE, journal, status, traffic, up_again, use
from guest import Guest
from rows import SECONDS, boots, orderly, restarts

QUEUES = 4
ENDS = ("uplink", "far")
FILES = {**OVER, "etc/lagd/uplink.conf": NEAR.format(more="queues=all"), "etc/lagd/far.conf": FAR.format(more="queues=all")}
# Cards that do not choose a receive queue by the ports of UDP are asked to, at both ends.
BY_PORTS = """for n in 1 2; do
    ethtool -N eth$n rx-flow-hash udp4 sdfn
    ip netns exec far ethtool -N far$n rx-flow-hash udp4 sdfn
done 2>&1"""
# Each busy conversation of both ends moves, and again, while frames go.
MOVES = f"for n in $(seq {3 * (SECONDS - 2)}); do kill -USR2 $(pidof lagd); sleep 0.3; done"
# A packet of each of other connections, to both ends.
OTHERS = f"""for n in $(seq 40001 40024); do
    echo >/dev/udp/{FAR_AT}/$n
    ip netns exec far bash -c "echo >/dev/udp/{NEAR_AT}/$n"
done"""
# How long members may take to be taken up.
TAKES_UP = 10
# How many of the queues of a card had frames, of those that send and of those that receive.
USED = """for n in 1 2; do
    for way in tx rx; do
        ethtool -S eth$n | grep -cE "${way}_queue_[0-9]+_packets: [1-9][0-9]"
    done
done"""


class Way(NamedTuple):
    """How data goes: by `fast` or not, and by how many queues."""

    lines: str
    queues: str

    def __str__(self) -> str:
        return f"{'fast' if self.lines else 'plain'}, queues={self.queues}"


WAYS = [Way(lines, queues) for lines in ("", "fast=yes\n") for queues in ("all", "one")]


def moves(guest: Guest) -> int:
    """How many conversations of both ends moved since their daemons began."""
    return sum(int(status(guest, it).get("carry", {}).get("moves", 0)) for it in ENDS)


def queues_of(guest: Guest) -> list[int]:
    """By how many queues the members of both ends send."""
    return [int(port["data"].get("queues", 1)) for it in ENDS for port in status(guest, it).get("ports", [])]


def passed_on(guest: Guest) -> int:
    """How many frames of both ends the kernel alone sent."""
    return sum(int(port["data"].get("passed_on", 0)) for it in ENDS for port in status(guest, it).get("ports", []))


def many_boot(guest: Guest) -> str:
    text = boots(guest)
    shown = guest.text("for n in eth1 eth2; do ls /sys/class/net/$n/queues; done | sort | uniq -c; ethtool -l eth1")
    check(shown.count("-3") == 2, f"a card has {QUEUES} queues for each direction", shown)
    told = guest.text(BY_PORTS)
    check(not told, "cards choose a receive queue by ports", told)
    return text


def moved(guest: Guest, way: Way) -> str:
    """Frames go both ways while conversations move, at both ends."""
    ended = use(guest, f"{way.lines}queues={way.queues}")
    check(ended.status == 0, f"{way}: both ends start", ended.text, journal(guest))
    up_again(guest)
    wanted = [QUEUES if way.queues == "all" else 1] * 4
    given = guest.within(TAKES_UP, lambda: queues_of(guest) == wanted)
    check(given, f"{way}: members send by {queues_of(guest)} queues", journal(guest))
    before = moves(guest)
    outcomes = traffic(guest, SECONDS, lambda: guest.run(MOVES))
    made = moves(guest) - before
    check(made > 30, f"{way}: {made} conversations moved", journal(guest))
    kernel = passed_on(guest)
    check(bool(kernel) == bool(way.lines), f"{way}: the kernel passed {kernel} frames on", journal(guest))
    text = orderly(guest, f"{way}, with moves", outcomes, 0)
    return f"{text}; {made} moves; queues with frames {', '.join(guest.text(USED).split())}"



def goes_and_comes(guest: Guest) -> str:
    """A cable is pulled and put back while frames go: conversations go on by the other one, and come back."""
    def event() -> None:
        guest.set_link(False, "eth1", "far1")
        guest.sleep(1)
        guest.set_link(True, "eth1", "far1")

    return orderly(guest, "a cable is pulled, and put back", traffic(guest, SECONDS + 5, event), RATE, ordered=False)


def balances(guest: Guest) -> str:
    """Other conversations begin at both ends, and end: those that are busy are shared out anew."""
    before = moves(guest)
    outcomes = traffic(guest, SECONDS + 5, lambda: guest.run(OTHERS))
    made = moves(guest) - before
    check(made > 0, f"{made} conversations moved as others came and went", journal(guest))
    return f"{orderly(guest, 'others come and go', outcomes, 0)}; {made} moves"


ROWS: dict[str, Callable[[Guest], str]] = {"boots, and the unit brings the bundle up": many_boot}
for way in WAYS:
    ROWS[f"{way}: moves"] = partial(moved, way=way)
    if way.queues == "all":
        ROWS |= {f"{way}: others come and go": balances, f"{way}: a cable is pulled, and put back": goes_and_comes,
                 f"{way}: systemctl restart": restarts}  # fmt: skip


TASKS = {"queues": Task("6.12", "igb", FILES, run_rows(ROWS), QUEUES)}
