"""What is tried of several aggregators: which one carries, by `select`, with two peers, and with one that prefers another one."""

from __future__ import annotations

import contextlib
import subprocess
from typing import Callable, Iterator

from bonds import COMES_UP, DEVICE, FLIGHT, Cables, End, Event, Programs, cables, check_end, check_order, run_flows
from checking import Failed, check, within
from daemon import Daemon, set_up
from spaces import OURS, THEIRS, ip

# The second peer, and its device; a bridge has both peers' frames.
SECOND, ANOTHER, BRIDGE = "02:00:00:00:00:cc", "lag1", "br0"
# The second one has the link of the lowest priority number.
NAMES = ("a0", "a1", "a2:priority=100")
# How long a link takes to come up, and the longest gap where the group that carries goes as the other one comes, in ms.
LACP, GAP_MS = 5, 4500


@contextlib.contextmanager
def two_peers(programs: Programs, *options: str) -> Iterator[tuple[Cables, End]]:
    """Two links to one peer, and one to another one; all carry."""
    with cables(programs, (0, 5000, 0)) as laid:
        ours, _ = End(programs, OURS, names=NAMES, options=options), End(programs, THEIRS)
        given = ["--carry", ANOTHER, "--flight", str(FLIGHT)]
        second = Daemon(programs.daemon, programs.folder, THEIRS, SECOND, "5", "b2", options=given)
        try:
            set_up(second, ANOTHER)
            ip(THEIRS, "link", "add", BRIDGE, "type", "bridge")
            for device in (DEVICE, ANOTHER):
                ip(THEIRS, "link", "set", device, "master", BRIDGE)
            ip(THEIRS, "link", "set", BRIDGE, "up", "promisc", "on")
            up = lambda: all(port["status"] == "it distributes" for port in ours.ports().values()) and ours.carry()["markers"] == "answered"
            if not within(COMES_UP, up):
                raise Failed("all links come up", ours.text())
            yield laid, ours
        finally:
            second.kill()


def active(end: End) -> str:
    """The interfaces that carry in the active aggregator."""
    told = end.told()
    return " ".join(port["interface"] for port in told["ports"] if port["aggregator"] == told["carry"]["aggregator"])


def both(laid: Cables, what: str) -> Callable[[], None]:
    """Both links to the first peer are cut, or joined."""
    def tell() -> None:
        for number in (0, 1):
            laid.tell(what, number)

    return tell


def selected(programs: Programs) -> None:
    """The group of most links, or that of the lowest priority, which takes over as it comes back, or not; with traffic."""
    for way, first, later in (("count", "a0 a1", "a0 a1"), ("priority", "a2", "a2"), ("priority-stable", "", "a0 a1")):
        with two_peers(programs, "--select", way) as (laid, ours):
            if first:  # else that which came up first
                check(within(LACP, lambda: active(ours) == first), f"by {way} {first} carries", ours.text())
            check(f"  select: {way}" in ours.text() and ours.text().count(" links") >= 2, "the status says so", ours.text())
            events: list[Event] = [(1, lambda: laid.tell("cut", 2)), (3, lambda: laid.tell("join", 2))]
            outcome = run_flows(programs, 3 + LACP, events, devices=(DEVICE, BRIDGE))
            check(active(ours) == later, f"and {later} once the link of the other peer was away", ours.text())
            check_order(outcome, f"by {way}", ours.text())
            check_end(ours, "the sending end")


def selected_away(programs: Programs) -> None:
    """The group that carries goes in the moment in which the better one comes."""
    with two_peers(programs, "--select", "priority") as (laid, ours):
        for late in (1.6, 2.0, 2.4, 2.8):
            laid.tell("cut", 2)
            within(LACP, lambda: active(ours) == "a0 a1")
            events: list[Event] = [(0.5, lambda: laid.tell("join", 2)), (0.5 + late, both(laid, "cut")), (0.5 + late + LACP, both(laid, "join"))]
            outcome = run_flows(programs, 2 * LACP + 3, events, devices=(DEVICE, BRIDGE))
            check(active(ours) == "a2" and ours.carry()["carrier"], f"the better one carries, {late} s after its carrier", ours.text())
            check(outcome.gap_ms < GAP_MS, f"no flow rests for longer than {outcome.gap_ms} ms", ours.printed())
            check_order(outcome, "through it", ours.text())
            check_end(ours, "the sending end")


def selected_apart(programs: Programs) -> None:
    """One end prefers a group of one peer that the other end does not: it goes where the peer sends, and says so."""
    with cables(programs, (0, 5000, 0)) as laid:
        ours = End(programs, OURS, names=NAMES, options=["--select", "priority"])
        theirs = End(programs, THEIRS, names=("b2:key=6", "b0", "b1"))
        up = lambda: all(port["status"] == "it distributes" for port in ours.ports().values())
        check(within(COMES_UP, lambda: up() and active(ours) == "a2"), "the preferred link carries", ours.text())
        back: list[int] = []
        sends = subprocess.Popen(["ip", "netns", "exec", THEIRS, programs.flows, "send", DEVICE, "500", "8", "11", "macs"], stdout=subprocess.DEVNULL)
        outcome = run_flows(programs, 12, [(9, lambda: back.append(theirs.carry()["handed_up"]))])
        sends.wait()
        check(active(ours) == "a0 a1", "with data of the peer this end goes where that comes", ours.text())
        check("the peer sends in aggregator" in ours.printed() and "alone" in ours.text(), "and says so", ours.printed(), ours.text())
        check(theirs.carry()["handed_up"] > back[0], "data arrives", outcome, theirs.text())
        ours.leave()
        ours = End(programs, OURS, names=NAMES, options=["--select", "priority"])
        stays = lambda: active(ours) == "a0 a1" and "it follows the peer" in ours.text()
        check(within(1, stays), "the next daemon goes on there", ours.text(), ours.printed())
        both(laid, "cut")()
        check(within(LACP, lambda: active(ours) == "a2" and ours.links() == 1), "without that group the preferred link carries", ours.text())


PARTS: dict[str, Callable[[Programs], None]] = {it.__name__: it for it in (selected, selected_away, selected_apart)}
