"""What is tried in each guest, a row of the table each. A row answers what the table has of it, and says in its checks what has to hold."""

from __future__ import annotations

import re
import time
from typing import Callable, NamedTuple

from checking import Failed, check
from ends import BOND, COMES_UP, FAR_AT, NO_BOND, RATE, Outcome, comes_up, journal, ping, status, stream, traffic, up_again, use
from guest import Guest

# What a link may lose when it goes: the frames of some seconds, until LACP times out, where one end alone sees it. What the other end still
# hands up of it may be overtaken (LAGD, "Order").
SECONDS, LINK_GOES, ONE_END = 5, RATE, 5 * RATE
# What a daemon may have in hand as it is killed: the frames of half a second.
IN_HAND = RATE // 2
# For how long an LACPDU holds with Short Timeout (6.4.4), and how old a state is at most, in seconds.
TIMEOUT, STATE_AGE = 3, 1.5
# In seconds: from a daemon's look at the LACPDUs to its line of them, at most; for how long without a daemon those of a state hold in any case,
# which is the timeout less 1 s for the age of each, and 0.2 s; and when the next daemon is there at the latest.
TELLS, SOON, BACK = 0.5, 0.8, 3
# A guest that waited for so many seconds for a processor, while frames went, tells nothing of times.
LATE = 1.0
# What links may lose that negotiate anew.
ANEW = 3 * RATE
# Cards whose driver cannot be set to one queue: each processor has one.
MANY_QUEUES = ("vmxnet3",)
# For how long cards that were plugged in are looked for.
APPEARS = 40


def cell(outcomes: list[Outcome]) -> str:
    """What the table has of frames to the far end, and from it."""
    strange = [f", {it.overtaken} overtaken, {it.twice} twice" if it.overtaken or it.twice else "" for it in outcomes]
    return " / ".join(f"{it.lost} of {it.sent}, {it.gap_ms} ms{more}" for it, more in zip(outcomes, strange))


def orderly(guest: Guest, what: str, outcomes: list[Outcome], most: int, ordered: bool = True) -> str:
    """No frame comes twice, none is overtaken if that is promised, and no more are lost than may be."""
    text = cell(outcomes)
    holds = all(it.received and not it.twice and not (ordered and it.overtaken) and it.lost <= most for it in outcomes)
    order = "no frame is overtaken" if ordered else "no frame comes twice"
    check(holds, f"{what}: {order}, and at most {most} are lost ({text})", journal(guest))
    return text


def without_daemon(guest: Guest) -> float:
    """For how many seconds the bundle had no daemon last."""
    ends, goes_on = "may go on from here|Sent signal SIGKILL", "go on where the last"
    told = guest.text(f"journalctl --sync; journalctl --no-pager -b LAGD_BUNDLE=uplink + UNIT=lagd@uplink.service -o short-monotonic | grep -E '{ends}|{goes_on}' | tr -d '[]'")
    ended = away = 0.0
    for line in told.splitlines():
        at = float(line.split()[0])
        if goes_on in line:
            away = at - ended
        else:
            ended = at
    return away


def handed_over(guest: Guest, what: str, outcomes: list[Outcome], most: int, ordered: bool = True) -> str:
    """The same where another daemon goes on: all links do only where it is there SOON (LAGD, "An upgrade, a restart, a crash"), which a loaded machine
    may keep it from."""
    away = without_daemon(guest)
    if is_inconclusive(guest, what, away):
        return f"{cell(outcomes)}, {away:.1f} s without a daemon, the machine was too busy"
    check(away <= BACK, f"{what}: another daemon goes on within {BACK} s ({away:.1f} s)", journal(guest))
    most = most if away <= SOON else max(most, ANEW)
    return f"{orderly(guest, what, outcomes, most, ordered)}, {away:.1f} s without a daemon"


def is_inconclusive(guest: Guest, what: str, away: float) -> bool:
    """Whether another daemon came too late where the guest had no processor for a while; a line says so."""
    if away <= BACK or guest.late < LATE:
        return False
    print(f"inconclusive: {what}: another daemon goes on after {away:.1f} s; the guest waited {guest.late:.1f} s for a processor", flush=True)
    return True


def booted(guest: Guest, what: str) -> str:
    """The guest boots, and both links carry; answers how long it took."""
    took = guest.boots()
    check(comes_up(guest, seconds=2 * COMES_UP) is not None, what, journal(guest))
    return f"{took:.0f} s"


def no_unit_failed(guest: Guest) -> None:
    failed = guest.text("systemctl --failed --plain --no-legend")
    check(failed == "", "no unit failed", failed)


def boots(guest: Guest) -> str:
    took = booted(guest, "the unit brings the bundle up at boot")
    said = guest.text("systemctl show --value -p StatusText lagd@uplink")
    check(said == "up, 2 of 2 links carry", "systemctl status says so", said)
    addressed = guest.within(COMES_UP, lambda: "192.0.2.1/24" in guest.text("ip -br address show lag0"))
    check(addressed, "lag0 has its address", guest.text("ip -br address"))
    no_unit_failed(guest)
    return took


def pings(guest: Guest, octets: int = 1472, to: str = FAR_AT, what: str = "each of ten pings of {} octets is answered", space: str = "") -> str:
    ended = ping(guest, to, octets, space=space)
    check(ended.status == 0, what.format(octets), ended.text, journal(guest))
    return "10 of 10" if ended.status == 0 else "FAILED"


def steady(guest: Guest) -> str:
    return orderly(guest, "numbered frames", traffic(guest, SECONDS), 0)


def streams(guest: Guest) -> str:
    speed = stream(guest)
    check(speed > 1, f"a stream of TCP goes ({speed:.0f} Mbit/s)", journal(guest))
    return f"{speed:.0f} Mbit/s"


def cable_is_pulled(guest: Guest, device: str = "lag0") -> str:
    """Both ends of a cable lose their carrier."""
    outcomes = traffic(guest, SECONDS, lambda: guest.set_link(False, "eth1", "far1"), ("lag0", device))
    guest.set_link(True, "eth1", "far1")
    text = orderly(guest, "a cable is pulled", outcomes, LINK_GOES, ordered=False)
    up_again(guest)
    return text


def near_carrier_goes(guest: Guest) -> str:
    """The near end alone loses its carrier; the far one finds out as LACP times out."""
    outcomes = traffic(guest, SECONDS + 3, lambda: guest.set_link(False, "eth2"))
    guest.set_link(True, "eth2")
    text = orderly(guest, "the near end alone loses a carrier", outcomes, ONE_END, ordered=False)
    up_again(guest)
    return text


def card_is_pulled(guest: Guest) -> str:
    """The first member is pulled out of the machine, and plugged in again."""
    outcomes = traffic(guest, SECONDS + 6, lambda: guest.remove("eth1"))
    text = orderly(guest, "a card is pulled", outcomes, ONE_END, ordered=False)
    gone = "eth1" not in guest.text("ls /sys/class/net")
    check(gone and status(guest).get("state") == "degraded", "its port is missing, and the other one carries", journal(guest))
    guest.insert("eth1")
    check(guest.within(APPEARS, lambda: "eth1" in guest.text("ls /sys/class/net")), "the card is back", guest.text("dmesg | tail -20"))
    up_again(guest)
    return text


def peer_is_stopped(guest: Guest) -> str:
    """The far daemon ends in order, and is started again."""
    guest.run("systemctl stop far")
    check(guest.within(COMES_UP, lambda: comes_up(guest, 0, seconds=1) is not None), "no link carries for a peer that stopped", journal(guest))
    guest.run("systemctl start far")
    return f"{up_again(guest):.1f} s"


def peer_is_killed(guest: Guest, after: str = "") -> str:
    """The far daemon is killed, something happens there, and it is started again."""
    guest.run(f"systemctl kill --signal=SIGKILL far; sleep 1; {after}systemctl reset-failed far; systemctl start far")
    took = up_again(guest)
    check(ping(guest).status == 0, "a peer that was killed and started carries again", journal(guest))
    return f"{took:.1f} s"


def restarts(guest: Guest) -> str:
    before = guest.text("cat /sys/class/net/lag0/ifindex; ip -br address show lag0")
    outcomes = traffic(guest, SECONDS, lambda: guest.run("systemctl restart lagd@uplink"))
    text = handed_over(guest, "systemctl restart", outcomes, 0)
    guest.run("for n in 1 2 3; do systemctl restart lagd@uplink; sleep 1; done")
    after = guest.text("cat /sys/class/net/lag0/ifindex; ip -br address show lag0")
    check(after == before, "lag0 is the same device, with its addresses", before, after)
    return text


class Left(NamedTuple):
    """The state that a daemon left: when it was written, and, for each link that carried, when the earlier one of both ends' last LACPDUs was sent;
    in seconds since the guest's kernel began."""

    written: float
    spoke: list[float]

    def holding(self, at: float) -> int:
        """On how many links the LACPDUs of both ends hold at a time."""
        return sum(at - it < TIMEOUT for it in self.spoke)


def left_in(state: str) -> Left:
    """Reads a state."""
    lines = [line.split() for line in state.splitlines() if line]
    written = next((int(line[1]) / 1000 for line in lines if line[0] == "written"), 0)
    return Left(written, [min(int(line[5]), int(line[6])) / 1000 for line in lines if line[0] == "link" and line[4] == "1"])


def is_killed(guest: Guest) -> str:
    """The next daemon goes on with the links whose LACPDUs hold: with all, where it is back within SOON (LAGD, "A crash")."""
    told: list[str] = []
    # A machine under load kills it late: at some time between these two.
    now = "cut -d ' ' -f 1 /proc/uptime"
    kill = f"{now}; systemctl kill --kill-whom=main --signal=SIGKILL lagd@uplink; {now}; cat /run/lagd/uplink/*.state"
    outcomes = traffic(guest, SECONDS, lambda: told.append(guest.text(kill)))
    first, last, state = told[0].split("\n", 2)
    killed, left, away = float(first), left_in(state), without_daemon(guest)
    lately = killed - STATE_AGE < left.written < float(last) + TELLS
    check(len(left.spoke) == 2 and lately, "a daemon leaves a state of its last second: both links carry", killed, last, state)
    said = guest.text("journalctl --no-pager -b -u lagd@uplink -o short-monotonic | grep 'go on where'")
    lines = [(float(at), int(count)) for at, count in re.findall(r"([\d.]+)\] .* (\d) of 2 links", said) if float(at) > killed]
    if len(lines) == 1 and is_inconclusive(guest, "the daemon is killed", away):
        up_again(guest)
        return f"{cell(outcomes)}, {away:.1f} s without a daemon, the machine was too busy"
    if len(lines) != 1 or away > BACK:
        raise Failed(f"one daemon follows one that is killed, within {BACK} s ({away:.1f} s)", said, journal(guest))
    at, count = lines[0]
    least, most = left.holding(at), left.holding(at - TELLS)
    check(least <= count <= most and (count == 2 or away > SOON), f"after {away:.1f} s {count} of 2 links go on: {least} to {most} may", said, state)
    text = handed_over(guest, "the daemon is killed", outcomes, IN_HAND if count == 2 else ANEW)
    up_again(guest)
    return f"{text}, {count} of 2 links go on"


def is_upgraded(guest: Guest) -> str:
    """Packages of a higher version are installed, and the bundle is restarted."""
    process = guest.text("systemctl show --value -p MainPID lagd@uplink")
    ended = []

    def upgrade() -> None:
        ended.append(guest.run("dpkg -i /newer/*.deb"))
        after = guest.text("systemctl show --value -p MainPID lagd@uplink")
        check(after == process, "dpkg restarts no daemon", process, after)
        ended.append(guest.run("systemctl restart lagd@uplink"))

    outcomes = traffic(guest, SECONDS + 25, upgrade)
    check([it.status for it in ended] == [0, 0], "the packages are upgraded", *ended)
    runs = guest.text("readlink /proc/$(systemctl show --value -p MainPID lagd@uplink)/exe; dpkg-query -Wf '${Version} ' lagd liblag0")
    check(runs.startswith("/usr/sbin/lagd\n") and runs.count("+1") == 2, "the new version runs", runs)
    return handed_over(guest, "an upgrade", outcomes, 0)


def other_way(guest: Guest, way: str) -> str:
    """Both ends pass data on in another way, or the kernel has none: lagd --check tells it before."""
    ended = use(guest, f"{way}=yes")
    told = guest.run("lagd --check /etc/lagd/uplink.conf")
    check((told.status == 0) == (ended.status == 0), f"{way}: lagd --check says whether it starts", told, ended)
    if ended.status == 0:
        up_again(guest)
        carry = status(guest)["carry"]
        check(carry["way"] == way, f"the way is {way}", carry)
        text = guest.text("journalctl --no-pager -b -u lagd@uplink -o cat | grep -E 'port .*(stays with|markers may)' | sort -u")
        check(bool(text) == (guest.card in MANY_QUEUES), f"{way}: a line says that members have several queues, where they do", text)
        return "with its queues" if text else "yes"
    return f"no: {told.text.rpartition(': ')[2]}"


def bonding(guest: Guest) -> str:
    """The far end is the kernel's bonding."""
    guest.run("systemctl stop far")
    ended = guest.run(BOND)
    if ended.status:
        raise Failed("the far end is a bond", ended.text)
    took = up_again(guest)
    pings(guest)
    orderly(guest, "frames to and from bonding", traffic(guest, SECONDS, devices=("lag0", "bond0")), 0)
    return f"{took:.1f} s"


def plain_to_bonding(guest: Guest) -> str:
    use(guest, "")
    return bonding(guest)


def bonding_cable(guest: Guest) -> str:
    text = cable_is_pulled(guest, "bond0")
    guest.run(f"{NO_BOND}; systemctl start far")
    return text


def stops(guest: Guest) -> str:
    """The bundle is stopped: what it changed is as before."""
    guest.run("systemctl stop lagd@uplink")
    left = guest.text("ls /sys/class/net | grep lag0; tc filter show dev eth1 ingress; tc qdisc show dev eth1 | grep -E '6c61|clsact'; ls /run/lagd/uplink 2>/dev/null")
    check(left == "", "after a stop nothing of it is left", left)
    guest.run("systemctl start lagd@uplink")
    up_again(guest)
    return "yes"


Rows = dict[str, Callable[[Guest], str]]
UPGRADE = "an upgrade, and a restart"
# Where `fast` or `offload` could not be started, its rows say nothing.
ROWS: Rows = {
    "boots, and the unit brings the bundle up": boots,
    "pings of 1,472 octets": pings,
    "frames lost, and longest gap": steady,
    "a stream of TCP": streams,
    "a cable is pulled": cable_is_pulled,
    "the near end alone loses a carrier": near_carrier_goes,
    "a card is pulled": card_is_pulled,
    "the peer is stopped: up again after": peer_is_stopped,
    "the peer is killed: up again after": peer_is_killed,
    "systemctl restart": restarts,
    "SIGKILL": is_killed,
    UPGRADE: is_upgraded,
    "a stop leaves nothing": stops,
    "bonding is the peer: up after": plain_to_bonding,
    "its cable is pulled": bonding_cable,
}
WAYS = ("offload", "fast")
WAY_ROWS: Rows = {"frames lost, and longest gap": steady, "a stream of TCP": streams, "a cable is pulled": cable_is_pulled, "systemctl restart": restarts}


def tried(guest: Guest, name: str, row: Callable[[Guest], str]) -> str:
    """One row; what fails in it is a check that failed."""
    print(f"{name}:", flush=True)
    began = time.monotonic()
    try:
        text = row(guest)
    except Failed as why:
        check(False, f"{name}: {why.args[0]}", *why.args[1:])
        text = "FAILED"
    except (LookupError, TypeError, ValueError, OSError) as why:
        check(False, f"{name} runs to its end", f"{type(why).__name__}: {why}")
        text = "FAILED"
    print(f"  {text}; {time.monotonic() - began:.0f} s", flush=True)
    return text


def without_upgrade(rows: Rows) -> Rows:
    """These rows without that of the packages: dpkg does the same on each kernel, for four minutes where a guest has no processor of its own."""
    return {name: row for name, row in rows.items() if name != UPGRADE}


def all_rows(guest: Guest, rows: Rows = ROWS) -> dict[str, str]:
    """Each row of a guest, with what the table has of it."""
    cells = {name: tried(guest, name, row) for name, row in rows.items()}
    for way in WAYS:
        cells[way] = tried(guest, way, lambda guest: other_way(guest, way))
        for name, row in WAY_ROWS.items():
            cells[f"{way}: {name}"] = tried(guest, f"{way}: {name}", row) if cells[way] in ("yes", "with its queues") else "-"
    return cells
