"""The kernel's team driver as what carries (`plane=team`): the bundle of the unit by it, a daemon by it at the far end, and then bonding."""

from __future__ import annotations

from functools import partial
from typing import Callable

from checking import Failed, check
from deployments import Task, run_rows
from ends import COMES_UP, FAR, NEAR, OVER, carrying, comes_up, journal, ping, status, traffic, up_again, use
from fetched import USER_MODE
from guest import Guest
from native import CARD
from rows import (SECONDS, UPGRADE, Rows, bonding, bonding_cable, boots, cable_is_pulled, card_is_pulled, is_killed, is_upgraded, near_carrier_goes,
                  orderly, peer_is_killed, peer_is_stopped, pings, restarts, steady, streams, without_upgrade)  # fmt: skip

TEAM = "plane=team"
FILES = {**OVER, "etc/lagd/uplink.conf": NEAR.format(more=TEAM), "etc/lagd/far.conf": FAR.format(more=TEAM)}
JUMBO, JUMBO_PING = 9000, 8972
# What a port of another device, or one that was taken out, may take until it is back.
BACK = 20
# A VLAN and a bridge above lag0, at either end, which is `-n far` or nothing.
ABOVE = """ip {at} link add link lag0 name v10 type vlan id 10
ip {at} link set v10 up
ip {at} address add 198.51.100.{n}/24 dev v10
"""
BRIDGE = """ip link add br0 type bridge vlan_filtering 1
ip address del 192.0.2.1/24 dev lag0
ip link set lag0 master br0
ip link set br0 up
ip address add 192.0.2.1/24 dev br0
"""
NO_BRIDGE = "ip link del br0; ip address add 192.0.2.1/24 dev lag0"
# A kernel whose team driver nobody can load. The far daemon was killed, and has no state: it leaves a device that was there.
WITHOUT = """systemctl stop lagd@uplink far
ip -n far link del lag0
modprobe -r team_mode_loadbalance team
printf 'install team /bin/false\\ninstall team_mode_loadbalance /bin/false\\n' >/etc/modprobe.d/without.conf
lagd --check /etc/lagd/uplink.conf
echo "status $?"
timeout 20 lagd --config /etc/lagd/uplink.conf --folder /run/without
echo "status $?"
rm /etc/modprobe.d/without.conf
systemctl start far lagd@uplink
"""


def comes_up_by_team(guest: Guest) -> str:
    took = boots(guest)
    told = status(guest).get("carry", {})
    check(told.get("way") == "team" and told.get("carrier") is True, "the team driver carries", told)
    ended = guest.run("lagd --check /etc/lagd/uplink.conf; ip -d link show lag0 | grep -c ' team '")
    check(ended.text == "1", "lagd --check has no fault of this kernel, and lag0 is a team device", ended.text)
    return took


def jumbo(guest: Guest) -> str:
    """The MTU of lag0 is that of its members."""
    guest.run(f"ip link set lag0 mtu {JUMBO}; ip -n far link set lag0 mtu {JUMBO}")
    mtus = guest.text("cat /sys/class/net/eth1/mtu /sys/class/net/eth2/mtu")
    check(mtus.split() == [str(JUMBO)] * 2, f"members have {JUMBO} octets, too", mtus)
    up_again(guest)
    return pings(guest, JUMBO_PING)


def above(guest: Guest) -> str:
    """A VLAN above lag0, and then lag0 as a port of a bridge."""
    for at, n in ("", 1), ("-n far", 2):
        guest.run(ABOVE.format(at=at, n=n))
    text = pings(guest, JUMBO_PING - 400, "198.51.100.2")
    guest.run(BRIDGE)
    pings(guest)
    guest.run(NO_BRIDGE)
    return text


def stays_down(guest: Guest) -> str:
    """A member that another device has is missing; where it is free again, lag0 gets it back."""
    outcomes = traffic(guest, SECONDS, lambda: guest.run("ip link add br9 type bridge; ip link set eth1 master br9"))
    text = orderly(guest, "another device takes a member", outcomes, 10**6)
    told = status(guest)
    check(told.get("state") == "degraded" and carrying(guest) == 1, "its port does not carry", told)
    pings(guest)
    guest.run("ip link del br9")
    check(comes_up(guest, seconds=BACK) is not None, "lag0 gets it back", journal(guest))
    return text


def taken_out(guest: Guest) -> str:
    guest.run("ip link set eth2 nomaster")
    guest.sleep(2)
    check(comes_up(guest, seconds=BACK) is not None and guest.run("ip -o link show eth2 | grep 'master lag0'").status == 0,
          "a member that is taken out comes back", journal(guest))  # fmt: skip
    return pings(guest)


def device_down(guest: Guest) -> str:
    """lag0 is set down: LACP ends, and begins again once it is up."""
    guest.run("ip link set lag0 down; sleep 1")
    told, far = status(guest), status(guest, "far")
    said = {port["status"] for port in told.get("ports", [])}
    check(told.get("state") == far.get("state") == "down" and said == {"the device is down"}, "with lag0 down both ends are down", told, far)
    guest.run("ip link set lag0 up; ip address replace 192.0.2.1/24 dev lag0")
    took = up_again(guest)
    pings(guest)
    return f"{took:.1f} s"


def joins_and_leaves(guest: Guest) -> str:
    """A member leaves and joins by orders, with data under way."""
    def orders() -> None:
        for order in "remove", "add":
            ended = guest.run(f"lagd --folder /run/lagd/uplink --{order} eth2")
            check(ended.status == 0, f"--{order} eth2 is done", ended.text)

    text = orderly(guest, "a member leaves and joins", traffic(guest, SECONDS, orders), 10**6)
    up_again(guest)
    pings(guest)
    return text


def followed(guest: Guest) -> str:
    """With members=follow what others take out stays out, over a restart, too, and what they put in joins."""
    use(guest, f"{TEAM}\nmembers=follow")
    up_again(guest)
    for _ in range(10):
        guest.run("ip link set eth2 nomaster; sleep 2")
        told = status(guest)
        check(guest.run("ip -o link show eth2 | grep 'master lag0'").status != 0 and carrying(guest) == 1, "a member that is taken out stays out", told)
        guest.run("ip link set eth2 down; ip link set eth2 master lag0; ip link set eth2 up")
        up_again(guest)
    guest.run("ip link set eth2 nomaster; systemctl restart lagd@uplink; sleep 2")
    check(guest.run("ip -o link show eth2 | grep 'master lag0'").status != 0, "over a restart, too", journal(guest))
    use(guest, TEAM)
    up_again(guest)
    return pings(guest)


def changed(guest: Guest) -> str:
    """What others set in the driver is set back."""
    guest.run("teamnl lag0 setoption enabled false -p eth1; sleep 2")
    told = guest.text("teamnl lag0 getoption enabled -p eth1; teamnl lag0 options | grep hash_to_port_mapping | awk '{print $NF}' | sort | uniq -c")
    numbers = guest.text("cat /sys/class/net/eth1/ifindex /sys/class/net/eth2/ifindex").split()
    wanted = {"true", *(f"128 {number}" for number in numbers)}
    check(wanted <= {" ".join(line.split()) for line in told.splitlines()}, "a port that others disabled carries again", told)
    guest.run("ip link set lag0 address 02:00:00:00:00:77; sleep 3")
    macs = set(guest.text("cat /sys/class/net/eth[12]/address").split())
    check(macs == {"02:00:00:00:00:77"}, "members follow the address of lag0", macs)
    return pings(guest)


def device_goes(guest: Guest) -> str:
    """lag0 is deleted: the unit makes it anew."""
    guest.run("ip link del lag0; sleep 1")
    took = comes_up(guest)
    check(took is not None, "after lag0 was deleted both links carry again", journal(guest))
    check(guest.within(COMES_UP, lambda: ping(guest).status == 0), "and data goes", journal(guest))
    return f"{took:.1f} s" if took is not None else "FAILED"


def name_is_taken(guest: Guest) -> str:
    guest.run("systemctl stop lagd@uplink; ip link add lag0 type dummy")
    told = guest.text("lagd --config /etc/lagd/uplink.conf --folder /run/taken")
    guest.run("ip link del lag0; systemctl start lagd@uplink")
    up_again(guest)
    check("lag0: an interface of this name is there, and is no team device" in told, "a name that is taken is refused", told)
    check(guest.within(COMES_UP, lambda: ping(guest).status == 0), "and data goes, once the name is free", journal(guest))
    return "refused"


def second_start(guest: Guest) -> str:
    """While no member is there, a second start by other settings leaves the device to the daemon that has it."""
    look = "cat /sys/class/net/lag0/ifindex"
    guest.run("ip netns add away; for n in 1 2; do ip -n far link set far$n netns away; done; sleep 1")
    before = guest.text(f"ip netns exec far {look}")
    guest.run("mkdir -p /run/other; sed 's/^hash=.*/hash=layer2/' /etc/lagd/far.conf >/run/other/far.conf")
    told = guest.text("ip netns exec far lagd --config /run/other/far.conf --folder /run/lagd/far")
    after = guest.text(f"ip netns exec far {look}")
    guest.run("for n in 1 2; do ip -n away link set far$n netns far; ip -n far link set far$n up; done; ip netns del away")
    refused = before == after != "" and "lagd: another lagd has the interface, one of user 0: lag0" in told
    check(refused, "it is refused, and the device stays", told, before, after)
    check(comes_up(guest) is not None, "the members are back in the device", journal(guest))
    return pings(guest)


def without_driver(guest: Guest) -> str:
    told = guest.text(WITHOUT)
    refused = told.count("this kernel has no team driver") == 2 and told.count("status 1") == 2
    check(refused, "without the driver a check and a start are refused by name", told)
    up_again(guest)
    return "refused" if refused else "FAILED"


def other_plane(guest: Guest) -> str:
    """A restart with a TAP device in its place, and back."""
    for more, way in ("", "plain"), (TEAM, "team"):
        ended = use(guest, more)
        if ended.status:
            raise Failed(f"the bundle starts by {way}", ended.text, journal(guest))
        up_again(guest)
        check(status(guest)["carry"]["way"] == way, f"data goes by {way}", status(guest)["carry"])
        check(guest.within(COMES_UP, lambda: ping(guest).status == 0), f"pings are answered by {way}", journal(guest))
    return "yes"


def stops(guest: Guest) -> str:
    """A stop takes the device away, and members are as before."""
    guest.run("systemctl stop lagd@uplink")
    left = guest.text("ls /sys/class/net | grep lag0; ip -o link show type bridge_slave; ip -o link show eth1 | grep -o 'master .*'")
    macs = guest.text("cat /sys/class/net/eth[12]/address").split()
    up = guest.text("cat /sys/class/net/eth[12]/flags").split()
    check(left == "" and len(set(macs)) == 2 and all(int(it, 16) & 1 for it in up), "after a stop lag0 is gone, and members are up with their addresses",
          left, macs, up)  # fmt: skip
    guest.run("systemctl start lagd@uplink")
    up_again(guest)
    return "yes"


ROWS: Rows = {
    "boots, and the unit brings the bundle up": comes_up_by_team,
    "pings of 1,472 octets": pings,
    "frames lost, and longest gap": steady,
    "a stream of TCP": streams,
    "a cable is pulled": cable_is_pulled,
    "the near end alone loses a carrier": near_carrier_goes,
    "a card is pulled": card_is_pulled,
    "the peer is stopped: up again after": peer_is_stopped,
    # The driver would go on without its daemon.
    "the peer is killed: up again after": partial(peer_is_killed, after="ip -n far link del lag0; "),
    "systemctl restart": restarts,
    "SIGKILL": is_killed,
    UPGRADE: is_upgraded,
    "pings of 8,972 octets": jumbo,
    "in a VLAN, and a bridge above": above,
    "another device takes a member": stays_down,
    "a member is taken out": taken_out,
    "lag0 is set down and up: up again after": device_down,
    "a member leaves and joins": joins_and_leaves,
    "others choose the members": followed,
    "others change the driver": changed,
    "lag0 is deleted: up again after": device_goes,
    "the name is taken": name_is_taken,
    "no member, and a second start": second_start,
    "the driver is missing": without_driver,
    "by a TAP device, and back": other_plane,
    "a stop": stops,
    "bonding is the peer: up after": bonding,
    "its cable is pulled": bonding_cable,
}
CARDS = {USER_MODE: CARD, "6.1": "e1000e", "6.12": "e1000e"}
TASKS = {f"team-{kernel}": Task(kernel, card, FILES, run_rows(ROWS if card == CARD else without_upgrade(ROWS))) for kernel, card in CARDS.items()}
