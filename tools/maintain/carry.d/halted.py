"""What is tried of a device that an administrator sets down and up again."""

from __future__ import annotations

import signal
import time
from typing import Callable

from bonds import COMES_UP, DEVICE, DIRECT, End, Programs, check_order, run_flows
from checking import check, within
from restarting import WAYS, Kept, managed
from spaces import ip

# How long a peer takes to stop once it was told, and how long it hears nothing until it has no partner, in seconds.
STOPS, FORGETS = 0.5, 8.0


def said(kept: Kept) -> set[str]:
    """What the daemon says of its bundle and of its ports."""
    told = kept.told()
    return {told["state"], *(port["status"] for port in told["ports"])}


def check_down(kept: Kept, peer: End, what: str) -> None:
    """The peer stops at once, hears nothing more, and no status says that anything carries."""
    begin = time.monotonic()
    ip(kept.at, "link", "set", DEVICE, "down")
    stopped = within(STOPS, lambda: not peer.carry()["carrier"])
    check(stopped, f"{what}: the peer stops {1000 * (time.monotonic() - begin):.0f} ms after {DEVICE} went down", peer.text(), kept.printed()[-1000:])
    seen: set[str] = set()
    sent = [kept.count(name, "lacpdus_sent") for name in ("a0", "a1")]

    def forgets() -> bool:
        seen.update(said(kept))
        return all(port["partner"]["defaulted"] for port in peer.told()["ports"])

    check(within(FORGETS, forgets), f"{what}: and hears no more", peer.text())
    check(sent == [kept.count(name, "lacpdus_sent") for name in ("a0", "a1")], f"{what}: no port speaks", sent, kept.text())
    check(seen == {"down", "the device is down"}, f"{what}: the status says so, and nothing else", seen)


def check_up(programs: Programs, kept: Kept, peer: End, what: str) -> None:
    ip(kept.at, "link", "set", DEVICE, "up")
    check(within(COMES_UP, lambda: kept.links() == peer.links() == DIRECT), f"{what}: up begins it again", kept.text(), peer.text())
    time.sleep(1)
    check_order(run_flows(programs, 2), f"{what}, after it is up again", kept.text())


def device_down(programs: Programs) -> None:
    """LACP ends while the device is down, by each way, with data under way: over a restart, after a crash, and while it is set down and up in a row."""
    for way, options in WAYS.items():
        with managed(programs, options) as (kept, theirs):
            run_flows(programs, 2, [(1, lambda: check_down(kept, theirs, way))])
            kept.sets_up = False
            kept.again(signal.SIGUSR1)
            check(within(STOPS, lambda: said(kept) == {"down", "the device is down"}), f"{way}: so does the next daemon", kept.text())
            check_up(programs, kept, theirs, way)
            kept.again(signal.SIGKILL, between=lambda: ip(kept.at, "link", "set", DEVICE, "down"))
            check(within(STOPS, lambda: not theirs.carry()["carrier"]), f"{way}: it went down while no daemon was there: the peer is told", theirs.text(), kept.printed())
            check("links go on" not in kept.printed() and "no link goes on" in kept.printed(), f"{way}: and no line says that links go on", kept.printed())
            check_up(programs, kept, theirs, f"{way}, after a crash")
            for _ in range(20):
                ip(kept.at, "link", "set", DEVICE, "down")
                ip(kept.at, "link", "set", DEVICE, "up")
            check_up(programs, kept, theirs, f"{way}, after 20 changes in a row")
            kept.ends("the daemon")


PARTS: dict[str, Callable[[Programs], None]] = {it.__name__: it for it in (device_down,)}
