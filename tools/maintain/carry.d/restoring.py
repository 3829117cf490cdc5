"""What is tried of links that come back: they wait until their carrier was steady, and those with the lowest priorities are used."""

from __future__ import annotations

import signal
import subprocess
import time
from typing import Callable

from bonds import COMES_UP, RATE, End, Event, Programs, cables, check_end, check_order, check_whole, late, pair, run_flows
from changing import order
from checking import Failed, check, within
from forged import two_ends
from spaces import OURS, THEIRS, ip

# How long a link waits in seconds, and how long LACP takes behind that.
WAITS, LACP = 4, 4
WAITING = "the link is back, and waits for wait-to-restore"
STANDS_BY = "its aggregator has no room for one more link"
# The longest gap of a flow whose last link went, in ms: LACP's two seconds, the peer's wait, and a turn of its clock.
GAP_MS = 4500
WAYS: tuple[list[str], ...] = ([], ["--fast"])


def statuses(end: End) -> list[str]:
    return [port["status"] for port in end.ports().values()]


def look(end: End, seen: list[tuple[list[str], int]]) -> Callable[[], None]:
    """Notes the statuses of the ports, and how much the second one has sent."""
    return lambda: seen.append((statuses(end), end.told()["ports"][1]["data"]["data_sent"]))


def restores(programs: Programs) -> None:
    """A link that comes back is used once it was steady for so long, and at once where no other one carries."""
    for way in WAYS:
        with pair(programs, options=["--wait-to-restore", str(WAITS), *way]) as (laid, ours, theirs):
            seen: list[tuple[list[str], int]] = []
            events: list[Event] = [(1, lambda: laid.tell("cut", 1)), (2, lambda: laid.tell("join", 1)), (3, look(ours, seen)),
                                   (4, lambda: laid.tell("cut", 1)), (4.5, lambda: laid.tell("join", 1)), (8, look(ours, seen))]
            outcome = run_flows(programs, 4.5 + WAITS + LACP + 1, events)
            waited = all(status[1] == WAITING for status, _ in seen) and seen[0][1] == seen[1][1]
            check(waited, f"a link that flaps waits, and sends nothing {way}", seen, ours.printed())
            check(ours.links() == theirs.links() == 2, f"it carries {WAITS} seconds after it came back for good", ours.text())
            check(ours.told()["ports"][1]["data"]["data_sent"] > seen[1][1], "and sends", ours.text())
            check_order(outcome, "through a wait", ours.text())
            check_whole(outcome, ours, theirs, cables_lose=True)
        with pair(programs, options=["--wait-to-restore", "3600", *way]) as (laid, ours, theirs):
            last_link(programs, laid.tell, ours, theirs)


def last_link(programs: Programs, tell: Callable[[str, int], None], ours: End, theirs: End) -> None:
    """One link waits for long while the other one goes, comes back, and is deleted meanwhile."""
    seen: list[tuple[list[str], int]] = []
    events: list[Event] = [(1, lambda: tell("cut", 1)), (2, lambda: tell("join", 1)), (3.5, look(ours, seen)), (4, lambda: tell("cut", 0)),
                           (7, lambda: tell("join", 0))]
    outcome = run_flows(programs, 12, events)
    check(seen[0][0][1] == WAITING, "a link waits", seen, ours.printed())
    check(outcome.gap_ms < GAP_MS, f"the other one goes: the link that waits is used at once, and flows rest for {outcome.gap_ms} ms", ours.printed())
    check(statuses(ours) == [WAITING, "it distributes"], "then the other one waits", ours.text())
    check("link: waiting" in ours.text() and "1 of 2 links carry" in ours.text(), "the status says so", ours.text())
    check_order(outcome, "through the loss of the last link", ours.text())
    ip(OURS, "link", "del", "a0")
    check(within(3, lambda: statuses(ours)[0] == "the interface is missing"), "it may vanish meanwhile", ours.text())
    tell("silence", 1)
    check(within(12, lambda: statuses(ours)[1] != "it distributes"), "the last link falls silent", ours.text())
    tell("hear", 1)
    check(within(COMES_UP, lambda: ours.links() == 1), "and is heard again", ours.text())


def standing(end: End) -> list[bool]:
    return [status == STANDS_BY for status in statuses(end)]


def halts(end: End, first: float, last: float) -> list[Event]:
    """A daemon stands still for a tenth of a second, again and again: LACPDUs, and the data before them, wait for it together."""
    send = end.process.send_signal
    times = [first + turn * 0.15 for turn in range(int((last - first) / 0.15))]
    return [event for at in times for event in ((at, lambda: send(signal.SIGSTOP)), (at + 0.1, lambda: send(signal.SIGCONT)))]


def reverts(programs: Programs) -> None:
    """With max-links the links with the lowest priorities are used, whichever came first, and a link that was away gets its place back. The
    peer stands still now and then, so that an LACPDU by which a link makes way overtakes data there: it counts what it does not collect."""
    names = ("a0:priority=300", "a1:priority=100", "a2:priority=200")
    for way in WAYS:
        with cables(programs, (0, 20000, 5000)) as laid:
            laid.tell("cut", 1)
            ours = End(programs, OURS, names=names, options=["--max-links", "2", "--revert", *way])
            theirs = End(programs, THEIRS, links=3, options=way)
            used = lambda wanted: lambda: standing(ours) == wanted and ours.links() == theirs.links() == 2
            first = within(COMES_UP, lambda: ours.links() == 2)
            check(first and statuses(ours)[1] == "the link is down", "the first two links carry", ours.text())
            if not within(COMES_UP, lambda: ours.carry()["markers"] == "answered"):
                raise Failed("the peer answers markers", ours.text())
            outcome = run_flows(programs, 9, [(1, lambda: laid.tell("join", 1)), *halts(theirs, 1.2, 8.8)])
            check(used([True, False, False])(), "the third one takes the place of the highest priority", ours.text(), theirs.text())
            check("port 1 a0: it makes way for port 2 a1" in ours.printed(), "a line says so", ours.printed())
            check_order(outcome, f"through a link that makes way {way}", ours.text())
            check(outcome.gap_ms < 2000, f"no flow rests for longer than {outcome.gap_ms} ms", ours.text())
            counted = theirs.data("uncollected")
            holds = outcome.lost() == counted and not (way and counted)
            check(holds, f"{outcome.lost()} of {outcome.sent:,} frames are lost, which the peer counts", outcome, ours.text(), theirs.text())
            check_end(ours, "the sending end")
            outcome = run_flows(programs, 10, [(1, lambda: laid.tell("cut", 2)), (4, lambda: laid.tell("join", 2))])
            check(used([True, False, False])(), "one that was away gets its place back", ours.text())
            check(ours.printed().count("it makes way") == 2, "the one that stood for it makes way", ours.printed())
            check_order(outcome, "through both", ours.text())
            check_end(ours, "the sending end")


def reverts_there(programs: Programs) -> None:
    """The receiving end has the limit: what is on its way to the link that makes way is lost, and nothing is overtaken."""
    with cables(programs, (0, 20000, 5000)) as laid:
        laid.tell("cut", 1)
        ours = End(programs, OURS, links=3)
        theirs = End(programs, THEIRS, names=("b0:priority=200", "b1:priority=100", "b2:priority=300"), options=["--max-links", "2", "--revert"])
        check(within(COMES_UP, lambda: ours.links() == theirs.links() == 2), "the first two links carry", ours.text())
        if not within(COMES_UP, lambda: ours.carry()["markers"] == "answered"):
            raise Failed("the peer answers markers", ours.text())
        outcome = run_flows(programs, 9, [(1, lambda: laid.tell("join", 1))])
        check(standing(theirs) == [False, False, True], "the third one takes the place of the highest priority", theirs.text())
        check_order(outcome, "to an end whose link makes way", ours.text())
        uncollected, lost = theirs.data("uncollected"), outcome.lost()
        told = f"{lost} of {outcome.sent:,} frames are lost, which were on their way there"
        check(lost == uncollected < RATE // 10, told, outcome, theirs.text())
        check_whole(outcome, ours, theirs, cables_lose=True)


def two_limits(programs: Programs) -> None:
    """Both ends have a limit and want other links: no link that carries makes way for one that the peer does not use."""
    with cables(programs, ()):
        wanted = (OURS, ("a0:priority=1", "a1:priority=2")), (THEIRS, ("b0:priority=2", "b1:priority=1"))
        ends = [End(programs, space, names=names, options=["--max-links", "1", "--revert"]) for space, names in wanted]
        ip(OURS, "link", "set", "a1", "down")
        check(within(COMES_UP, lambda: all(end.links() == 1 for end in ends)), "one link carries", ends[0].text())
        ip(OURS, "link", "set", "a1", "up")
        time.sleep(8)
        check(all(end.links() == 1 for end in ends), "it carries still", *(end.text() for end in ends))
        check(not any("makes way" in end.printed() for end in ends), "and makes no way", *(end.printed() for end in ends))
        check_order(run_flows(programs, 2), "with a limit at both ends", ends[0].text())


# A link that is used again is attached after 2 s: the peer stands still a bit before, and goes on at one of these seconds of the flows. What goes there
# before is lost in its kernel; without `fast` it waits in its sockets. A peer that was to go on at SOON, and did so more than IN_TIME seconds behind the
# attachment, tells nothing: this machine was too busy.
BEFORE_ATTACHED, SOON, LATER, IN_TIME = 1.4, 0.2, 1.3, 0.8
STANDS_STILL: tuple[tuple[list[str], float], ...] = (([], SOON), (["--fast"], SOON), (["--fast"], LATER))


def use_while_peer_stands(ours: End, theirs: End) -> None:
    """A link goes out of use, and is used again while the peer stands still, which it does from here on."""
    check(order(ours, "--hold", "a1").returncode == 0 and within(3, lambda: theirs.links() == 1), "a link is out of use", theirs.text())
    used = order(ours, "--release", "a1").returncode == 0
    time.sleep(BEFORE_ATTACHED)
    theirs.process.send_signal(signal.SIGSTOP)
    check(used and within(2, lambda: ours.links() == 2), "it is used again, while the peer stands still", ours.text())


def collects(programs: Programs) -> None:
    """The peer stands still as a link is used again, so it does not collect there yet: what is to go there waits for that, but for a second at most."""
    for way, goes_on in STANDS_STILL:
        with pair(programs, options=way) as (_, ours, theirs):
            use_while_peer_stands(ours, theirs)
            attached, went_on = time.monotonic(), list[float]()

            def go_on() -> None:
                theirs.process.send_signal(signal.SIGCONT)
                went_on.append(time.monotonic())

            outcome = run_flows(programs, 5, [(goes_on, go_on)])
            check(within(COMES_UP, lambda: theirs.links() == 2), "the peer uses it, too", theirs.text())
            check_order(outcome, f"a peer goes on after {goes_on} s {way}", ours.text())
            lost, stood = theirs.data("uncollected"), went_on[0] - attached
            told = f"{lost} of {outcome.sent:,} frames come there before it collects, {stood:.1f} s after the link was attached"
            if goes_on == SOON and stood > IN_TIME:
                print(f"inconclusive: {told}; {late(outcome)}", flush=True)
            else:
                check((lost > 0) == (goes_on == LATER), told, outcome, ours.text(), theirs.text())
            check_end(ours, "the sending end")


# How long frames may be on their way to a mute peer, in ms: longer than a link that is held, and used again, stays out of use.
MUTE_FLIGHT = 4000


def mute_collects(programs: Programs) -> None:
    """A link goes out of use while data waits for the peer to collect there, and comes back within a flight. The peer answers no markers: what was to go
    there is held for a flight, and goes on then."""
    for way in WAYS:
        with two_ends(programs, ["--flight", str(MUTE_FLIGHT), *way], ["--marker-responses", "0"], "not answered") as (ours, theirs):
            use_while_peer_stands(ours, theirs)
            # Who asks for a hold asks again until the peer saw it.
            asks = ["ip", "netns", "exec", ours.space, ours.program, "--folder", ours.folder, "--hold", "a1"]
            holders: list[subprocess.Popen[bytes]] = []

            def release() -> None:
                holders[0].kill()
                order(ours, "--release", "a1")
                theirs.process.send_signal(signal.SIGCONT)

            outcome = run_flows(programs, 9, [(0.2, lambda: holders.append(subprocess.Popen(asks))), (0.4, release)])
            holders[0].wait()
            check_order(outcome, f"through that {way}", ours.text())
            check(within(COMES_UP, lambda: ours.links() == theirs.links() == 2), "both links carry", ours.text())
            outcome = run_flows(programs, 2)
            check(outcome.lost() == 0, f"{outcome.lost()} of {outcome.sent:,} frames are lost behind a flight", outcome, ours.text())
            check_order(outcome, "then", ours.text())


AWAY = "its carrier is away, for less than delay-down so far"
# For how many milliseconds a carrier may be away.
DELAY = 2500


def spared(programs: Programs) -> None:
    """A link whose carrier is away for less than delay-down stays up: what it is given meanwhile is lost, and the status says so. One that is away
    for longer, that an administrator takes down, or whose daemon could not look at it, goes."""
    for way in WAYS:
        with pair(programs, options=["--delay-down", str(DELAY), *way]) as (laid, ours, theirs):
            seen: list[str] = []
            came = [port["counters"]["distributed"] for port in ours.ports().values()]
            events: list[Event] = [(1, lambda: laid.tell("cut", 1)), (1.4, lambda: seen.extend((ours.text(), str(ours.told()["away"])))), (1.7, lambda: laid.tell("join", 1))]
            outcome = run_flows(programs, 4, events)
            check(AWAY in seen[0] and "but the carrier of a1 is away" in seen[0], "the status says that a carrier is away", seen[0])
            check(seen[1] == "1" and ours.told()["away"] == 0, "and JSON, while it is", seen[1])
            now = [port["counters"]["distributed"] for port in ours.ports().values()]
            check(now == came and ours.links() == theirs.links() == 2, f"a link that is back in time never went {way}", ours.printed())
            check_order(outcome, "through that", ours.text())
            check_end(ours, "the sending end")
            outcome = run_flows(programs, 6, [(1, lambda: laid.tell("cut", 1))])
            check(statuses(ours)[1] == "the link is down" and ours.links() == 1, "one that is away for longer goes", ours.printed())
            check(outcome.gap_ms < DELAY + 1500, f"its flows go on after {outcome.gap_ms} ms", ours.printed())
            check_order(outcome, "through that, too", ours.text())
            laid.tell("join", 1)
            check(within(COMES_UP, lambda: ours.links() == theirs.links() == 2), "it comes back", ours.text())
            losses = ours.count("a1", "link_losses")
            ip(OURS, "link", "set", "a1", "down")
            check(within(0.5, lambda: statuses(ours)[1] == "the link is down"), "one that is set down goes at once", ours.printed())
            check(ours.count("a1", "link_losses") == losses + 1, "and that is counted once", ours.text())
            ip(OURS, "link", "set", "a1", "up")
            check(within(COMES_UP, lambda: ours.links() == theirs.links() == 2), "it comes back", ours.text())
            lines = len(ours.lines("a1"))
            ours.process.send_signal(signal.SIGSTOP)
            laid.tell("cut", 1)
            time.sleep(DELAY / 1000 + 0.7)
            laid.tell("join", 1)
            ours.process.send_signal(signal.SIGCONT)
            gone = lambda: any(line.startswith("the link is down") or "in time" in line for line in ours.lines("a1")[lines:])
            check(within(3, gone), "one whose daemon stood still for so long goes", ours.printed())
            check(within(COMES_UP, lambda: ours.links() == theirs.links() == 2), "it comes back", ours.text())
            time.sleep(DELAY / 1000)  # until its carrier was steady
            laid.tell("cut", 1)
            time.sleep(DELAY / 1000 * 0.6)
            laid.tell("join", 1)
            time.sleep(0.2)
            check(ours.links() == 2, "its carrier was away for a moment", ours.printed())
            laid.tell("cut", 1)
            down = within(DELAY / 1000 * 0.7, lambda: statuses(ours)[1] == "the link is down")
            check(down, "one that comes and goes is not spared for longer", ours.printed())
            laid.tell("join", 1)
            check(within(COMES_UP, lambda: ours.links() == theirs.links() == 2), "it comes back", ours.text())
            time.sleep(DELAY / 1000)
            laid.tell("cut", 1)
            check(within(1, lambda: statuses(ours)[1] == AWAY), "the carrier is away", ours.text())
            ip(OURS, "link", "del", "a1")
            check(within(0.6, lambda: statuses(ours)[1] == "the interface is missing"), "it may vanish meanwhile", ours.text())


PARTS: dict[str, Callable[[Programs], None]] = {it.__name__: it for it in (restores, spared, reverts, reverts_there, two_limits, collects, mute_collects)}
