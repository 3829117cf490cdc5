"""Both ends of a guest: the near one is the bundle of the unit lagd@uplink, the far one a daemon or the kernel's bonding in the namespace `far`."""

from __future__ import annotations

import json
from dataclasses import dataclass
from typing import Any, Callable, NamedTuple

from checking import Failed
from guest import Ended, Guest

COMES_UP, RATE = 60, 200
NEAR_AT, FAR_AT = "192.0.2.1", "192.0.2.2"
NEAR = "[Bundle]\nkey=7\nsystem=auto\ncarry=lag0\nhash=layer3+4\n{more}\n[Port eth1]\n[Port eth2]\n"
FAR = "[Bundle]\nkey=5\nsystem=32768,02:00:00:00:00:bb\ncarry=lag0\nhash=layer3+4\n{more}\n[Port far1]\n[Port far2]\n"
# The far daemon sees the files of /sys of its namespace, so it is no instance of the unit.
FAR_UNIT = f"""[Unit]
After=guest-far.service
Requires=guest-far.service
[Service]
Type=notify
NotifyAccess=all
RuntimeDirectory=lagd/far
ExecStart=/sbin/ip netns exec far /usr/sbin/lagd --config /etc/lagd/far.conf --folder /run/lagd/far
ExecStartPost=/bin/sh -c 'ip -n far link set lag0 up; ip -n far address add {FAR_AT}/24 dev lag0 || :'
[Install]
WantedBy=multi-user.target
"""
# The files of LAGD, "At boot", for systemd-networkd stand in the tree already.
OVER = {"etc/lagd/uplink.conf": NEAR.format(more=""), "etc/lagd/far.conf": FAR.format(more=""), "etc/systemd/system/far.service": FAR_UNIT,
        "etc/systemd/system/multi-user.target.wants/far.service": "../far.service"}  # fmt: skip
BOND = f"""modprobe bonding max_bonds=0
ip -n far link add bond0 type bond mode 802.3ad miimon 100 lacp_rate fast xmit_hash_policy layer3+4
for n in 1 2; do ip -n far link set far$n down; ip -n far link set far$n master bond0; done
ip -n far link set bond0 up promisc on
ip -n far address add {FAR_AT}/24 dev bond0"""
NO_BOND = "ip -n far link del bond0; for n in 1 2; do ip -n far link set far$n up; done"


@dataclass
class Outcome:
    """What became of the numbered frames of one direction. Those that the kernel refused to send are sent, too, and lost."""

    sent: int
    received: int
    overtaken: int
    twice: int
    gap_ms: int

    @property
    def lost(self) -> int:
        return self.sent - self.received


def status(guest: Guest, bundle: str = "uplink") -> dict[str, Any]:
    """What lagd --status --json says of a bundle; nothing while none answers. It tells of those of its namespace."""
    inside = "ip netns exec far " if bundle == "far" else ""
    told = guest.run(f"{inside}lagd --status --json --folder /run/lagd/{bundle}").text
    try:
        found: dict[str, Any] = json.loads(told.splitlines()[-1])
    except (ValueError, IndexError):
        return {}
    return found


def carrying(guest: Guest, bundle: str = "uplink") -> int:
    """How many links of a bundle carry for a partner."""
    return sum(bool(port["carries"]) and not port["partner"]["defaulted"] for port in status(guest, bundle).get("ports", []))


def comes_up(guest: Guest, links: int = 2, bundle: str = "uplink", seconds: float = COMES_UP) -> float | None:
    """Waits until so many links carry for a partner; answers after how many seconds of the guest, or None."""
    began = guest.clock()
    return guest.clock() - began if guest.within(seconds, lambda: carrying(guest, bundle) == links) else None


def up_again(guest: Guest, links: int = 2, bundle: str = "uplink") -> float:
    """The same; fails where they do not."""
    took = comes_up(guest, links, bundle)
    if took is None:
        raise Failed(f"{links} links carry", journal(guest))
    return took


class Journal(NamedTuple):
    """What the daemons said last; the guest is asked where it is printed."""

    guest: Guest

    def __str__(self) -> str:
        try:
            return self.guest.text("journalctl --no-pager --lines 25 -o short-monotonic -u 'lagd@*' -u far -u there -u back | cut -c 1-160; ip -br address")
        except (Failed, OSError) as why:
            return f"the guest does not tell: {why}"


def journal(guest: Guest) -> Journal:
    return Journal(guest)


def direction(guest: Guest, name: str) -> Outcome:
    """What the programs said of one direction."""
    told = [guest.text(f"cat /run/traffic/{name}.{what}") for what in ("sent", "received")]
    try:
        sent, received = map(json.loads, told)
    except ValueError as why:
        raise Failed("numbered frames go", *told) from why
    return Outcome(sent["sent"], received["received"], received["overtaken"], received["twice"], received["gap_ms"])


def traffic(guest: Guest, seconds: int, event: Callable[[], object] = lambda: None, devices: tuple[str, str] = ("lag0", "lag0"),
            rate: int = RATE, near_space: str = "") -> list[Outcome]:
    """Sends numbered frames for some seconds, with an event in them; answers what became of those to the far end and of those from it."""
    before = guest.waited()
    guest.run("rm -rf /run/traffic")
    guest.run(f"setsid traffic {seconds} {rate} {' '.join(devices)} {near_space} >/dev/null 2>&1 &")
    if guest.run("for n in $(seq 100); do [ -e /run/traffic/begun ] && exit; sleep 0.1; done; exit 1").status:
        raise Failed("numbered frames begin")
    guest.sleep(1)
    event()
    if guest.run(f"for n in $(seq {10 * (seconds + 30)}); do [ -e /run/traffic/done ] && exit; sleep 0.1; done; exit 1").status:
        raise Failed("numbered frames end")
    guest.late = guest.waited() - before
    return [direction(guest, name) for name in ("to", "from")]


def ping(guest: Guest, to: str = FAR_AT, octets: int = 1472, count: int = 10, space: str = "") -> Ended:
    """Pings; each has to be answered, after the first one, before which addresses are asked for."""
    inside = f"ip netns exec {space} " if space else ""
    guest.run(f"{inside}ping -q -c 1 -W 3 {to}")
    ended = guest.run(f"{inside}ping -q -M do -s {octets} -c {count} -i 0.2 -W 3 {to}")
    return Ended(0 if f"{count} received" in ended.text else 1, ended.text)


def stream(guest: Guest, seconds: int = 1, streams: int = 1, to: str = FAR_AT) -> float:
    """Streams of TCP to the far end, in Mbit/s as that had them."""
    guest.run("setsid ip netns exec far iperf3 -s -1 >/dev/null 2>&1 & sleep 1")
    told = guest.text(f"iperf3 -c {to} -t {seconds} -P {streams} -J")
    try:
        return float(json.loads(told)["end"]["sum_received"]["bits_per_second"]) / 1e6
    except (ValueError, KeyError) as why:
        raise Failed("a stream of TCP runs", told[-600:], journal(guest)) from why


def use(guest: Guest, more: str) -> Ended:
    """Both ends are started anew with these lines in their files."""
    for path, text in ("lagd/uplink.conf", NEAR.format(more=more)), ("lagd/far.conf", FAR.format(more=more)):
        guest.run(f"cat >/etc/{path} <<'END'\n{text}END")
    return guest.run("systemctl restart far & systemctl restart lagd@uplink; status=$?; wait; exit $status")
