"""Whole machines as people have them: a server with a bridge of VLANs for virtual machines at a pair of switches that act as one (MLAG), and
a router with a partner that is named. Their files are those that an administrator writes."""

from __future__ import annotations

import os
from typing import Callable, NamedTuple

from checking import check
from ends import COMES_UP, OVER, journal, ping, status, traffic, up_again
from fetched import USER_MODE
from guest import Guest, MACS
from native import CARD
from repository import TOP, read_text
from rows import booted, boots, handed_over, no_unit_failed, orderly, pings, tried


class Task(NamedTuple):
    """A guest: its kernel, its card, what is laid over its tree, what is done in it, which answers cells of the table, and how many processors it has,
    or 0: as many as its card wants."""

    kernel: str
    card: str
    over: dict[str, str]
    run: Callable[[Guest], dict[str, str]]
    processors: int = 0


PAIR = OVER
LINKS = "etc/systemd/network/10-{}.link"
WANTED = "etc/systemd/system/multi-user.target.wants/"
JUMBO, JUMBO_PING = 9000, 8972

# The server: two links of 9,000 octets to a pair of switches, and lag0 as a port of a bridge that knows VLANs. br0 has the VLAN 10 for the
# machine itself; a virtual machine is a namespace behind a port with the VLAN 20.
SERVER = """[Bundle]
key=1
system=32768,52:54:00:00:0a:01
partner=any
carry=lag0
hash=layer3+4
fast=yes
[Port ens1f0]
[Port ens1f1]
"""
# Its files of networkd are those that stand beside the daemon, in the order in which networkd reads them.
SERVER_NETWORKS = {"10-members.network": "members.network", "20-lag0.network": "lag0-in-br0.network", "30-br0.netdev": "br0.netdev",
                   "30-br0.network": "br0.network", "40-br0.10.netdev": "br0.10.netdev", "40-br0.10.network": "br0.10.network",
                   "50-vm0.network": "vm0.network"}  # fmt: skip
# What differs in them here: jumbo frames, the names of the cards, and the address.
SERVER_WORDS = {"#MTUBytes=": "MTUBytes=", "eth1": "ens1f0", "eth2": "ens1f1", "192.0.2.1/24": "10.10.0.1/24"}
# The virtual machine; and two switches in namespaces, each with one link, whose daemons are one system. A host is behind the first one, and
# frames go from switch to switch by a link of their own: those that come by it go out to no server, as MLAG has it while both links carry, and
# nothing is learned of them.
SWITCHES = """#!/bin/sh -e
ip netns add vm
ip link add vm0 type veth peer name eth0 netns vm
ip -n vm link set eth0 mtu 9000 up
ip -n vm address add 10.20.0.1/24 dev eth0
for n in 1 2; do
    ip netns add switch$n
    while ! ip -n far link set far$n netns switch$n 2>/dev/null; do sleep 1; done
    ip -n switch$n link set far$n mtu 9000 up
    ip -n switch$n link add br0 type bridge mcast_snooping 0
    ip -n switch$n link set br0 mtu 9000 up
done
ip -n switch1 link add other netns switch1 type veth peer name other netns switch2
ip -n switch1 link add host type veth peer name eth0 netns far
for n in 1 2; do
    ip -n switch$n link set other mtu 9000 master br0 up
    bridge -n switch$n link set dev other learning off
    ip netns exec switch$n tc qdisc add dev other clsact
    ip netns exec switch$n tc filter add dev other ingress matchall action skbedit mark 7 continue
done
ip -n switch1 link set host mtu 9000 master br0 up
ip -n far link set eth0 mtu 9000 up
for vlan in 10 20 30; do
    ip -n far link add link eth0 name eth0.$vlan type vlan id $vlan
    ip -n far link set eth0.$vlan up
    ip -n far address add 10.$vlan.0.2/24 dev eth0.$vlan
done
"""
SWITCH = """[Bundle]
key=9
system=4096,02:00:00:00:00:cc
carry=lag0
hash=layer3+4
[Port far{n}]
"""
SWITCH_UNIT = """[Unit]
After=guest-far.service switches.service
Requires=switches.service
[Service]
Type=notify
NotifyAccess=all
RuntimeDirectory=lagd/switch{n}
ExecStart=/sbin/ip netns exec switch{n} /usr/sbin/lagd --config /etc/lagd/switch{n}.conf --folder /run/lagd/switch{n}
ExecStartPost=/sbin/ip -n switch{n} link set lag0 master br0 up
ExecStartPost=/sbin/ip netns exec switch{n} tc qdisc add dev lag0 clsact
ExecStartPost=/sbin/ip netns exec switch{n} tc filter add dev lag0 egress protocol all handle 7 fw action drop
"""
SWITCHES_UNIT = "[Unit]\nAfter=guest-far.service\nRequires=guest-far.service\n[Service]\nType=oneshot\nRemainAfterExit=yes\nExecStart=/usr/local/sbin/switches\n"


def link(mac: str, name: str) -> str:
    return f"[Match]\nPermanentMACAddress={mac}\n[Link]\nName={name}\n"


def example(name: str) -> str:
    """A file of the package that is read at boot."""
    return read_text(os.path.join(TOP, "lagd", "boot", name))


def switch_files() -> dict[str, str]:
    """Both switches; they start at boot."""
    files = {"usr/local/sbin/switches": SWITCHES, "etc/systemd/system/switches.service": SWITCHES_UNIT}
    for n in 1, 2:
        files |= {f"etc/lagd/switch{n}.conf": SWITCH.format(n=n), f"etc/systemd/system/switch{n}.service": SWITCH_UNIT.format(n=n)}
        files[f"{WANTED}switch{n}.service"] = f"../switch{n}.service"
    return files


def of_server(name: str) -> str:
    """An example as the administrator of the server has it."""
    text = example(name)
    for old, new in SERVER_WORDS.items():
        text = text.replace(old, new)
    return text


def server_files() -> dict[str, str]:
    """What the administrator of the server wrote."""
    files = {f"etc/systemd/network/{name}": of_server(source) for name, source in SERVER_NETWORKS.items()}
    files |= {LINKS.format(old): link(MACS[old], SERVER_WORDS[old]) for old in ("eth1", "eth2")}
    return {**files, "etc/lagd/uplink.conf": SERVER, "etc/udev/rules.d/90-lagd.rules": of_server("90-lagd.rules")}


def tags(guest: Guest) -> str:
    """A VLAN that the bridge does not have goes nowhere."""
    listens = "timeout 4 ip netns exec vm tcpdump -c 1 -i eth0 -nn 'arp host 10.30.0.1 or vlan 30' 2>&1"
    seen = "1 packet captured" in guest.text(f"ip netns exec far ping -c 3 -i 0.2 -W 1 10.30.0.1 >/dev/null & {listens}; wait")
    check(not seen, "frames of another VLAN do not pass the bridge", guest.text("bridge vlan"))
    return "none" if not seen else "FAILED"


def server_moves(guest: Guest, event: Callable[[], object], what: str, most: int) -> str:
    """Frames between the virtual machine and the host behind the switches, while something happens. Which of both switches a conversation goes
    by may change: a marker keeps its order on the way to the first one alone."""
    return orderly(guest, what, traffic(guest, 6, event, ("eth0", "eth0.20"), near_space="vm"), most, ordered=False)


def switch_goes(guest: Guest) -> str:
    """One switch of the pair ends in order."""
    text = server_moves(guest, lambda: guest.run("systemctl stop switch2"), "the second switch goes", 500)
    state = status(guest).get("state")
    guest.run("systemctl start switch2")
    up_again(guest)
    check(state == "degraded", "one link carries then", state)
    return text


def left_alone(guest: Guest) -> None:
    """No member is left to the daemon."""
    text = guest.text("journalctl --no-pager -b -u lagd@uplink -o cat | grep -E 'stays with the daemon|markers may'")
    check(text == "", "the kernel passes on the data of each member", text)


def server_stays(guest: Guest) -> str:
    """What stands above lag0 stays at a restart."""
    look = "bridge vlan show dev lag0; ip -o link show lag0 | grep -o 'master br0'; ip -br address show br0.10; cat /sys/class/net/lag0/mtu"
    before = guest.text(look)
    outcomes = traffic(guest, 6, lambda: guest.run("systemctl restart lagd@uplink"), ("eth0", "eth0.20"), near_space="vm")
    text = handed_over(guest, "the server's bundle is restarted", outcomes, 0, ordered=False)
    after = guest.text(look)
    check(before == after and "master br0" in after, "lag0 stays in the bridge, with its VLANs", before, after)
    return text


def server_boots(guest: Guest) -> str:
    took = booted(guest, "both links carry to the pair of switches at boot")
    way = status(guest).get("carry", {}).get("way")
    check(way == "fast", "the way is fast", way)
    left_alone(guest)
    mtu = guest.text("cat /sys/class/net/lag0/mtu")
    check(guest.within(10, lambda: guest.text("cat /sys/class/net/lag0/mtu") == "9000"), "lag0 has the MTU of its members", mtu)
    look = "ip -o link show lag0 | grep -q br0 && ip -br address show br0.10 | grep -q 10.10.0.1"
    laid = guest.within(COMES_UP, lambda: guest.run(look).status == 0)
    told = "" if laid else guest.text("networkctl --no-pager; journalctl --no-pager -b -u systemd-networkd | tail -25")
    check(laid, "lag0 is a port of the bridge, which has a VLAN", told)
    no_unit_failed(guest)
    return took


SERVER_ROWS: dict[str, Callable[[Guest], str]] = {
    "boots, with both links": server_boots,
    "pings of 8,972 octets in VLAN 10, from the server": lambda guest: pings(guest, JUMBO_PING, "10.10.0.2", "the server reaches a host in VLAN 10"),
    "pings of 8,972 octets in VLAN 20, from a virtual machine": lambda guest: pings(guest, JUMBO_PING, "10.20.0.2", "a virtual machine reaches a host", "vm"),
    "frames of another VLAN": tags,
    "frames lost, and longest gap": lambda guest: server_moves(guest, lambda: None, "frames of the virtual machine", 0),
    "systemctl restart": server_stays,
    "a switch of the pair goes": switch_goes,
}

# The router: its provider is the kernel's bonding, and behind it is a namespace.
ISP = "02:00:00:00:00:dd"
ROUTER = """[Bundle]
key=1
system=100,52:54:00:00:0a:01
partner=4096,02:00:00:00:00:dd
partner-required=yes
min-links=1
timeout=short
carry=isp0
hash=layer3+4
fast=yes
[Port eth1]
[Port eth2]
"""
ROUTER_MEMBERS = "[Match]\nName=eth1 eth2\n[Link]\nMTUBytes=1600\nRequiredForOnline=no\n[Network]\nLinkLocalAddressing=no\nIPv6AcceptRA=no\n"
ROUTER_ISP = "[Match]\nName=isp0\n[Link]\nMTUBytes=1508\n[Network]\nAddress=192.0.2.1/24\nAddress=2001:db8::1/64\nGateway=192.0.2.2\nConfigureWithoutCarrier=yes\n"
ROUTER_LAN = "[Match]\nName=lan0\n[Network]\nAddress=10.0.0.1/24\nIPForward=yes\n"
PROVIDER = f"""#!/bin/sh -e
ip netns add lan
ip link add lan0 type veth peer name eth0 netns lan
ip -n lan link set eth0 up
ip -n lan address add 10.0.0.2/24 dev eth0
ip -n lan route add default via 10.0.0.1
modprobe bonding max_bonds=0
ip -n far link add bond0 type bond mode 802.3ad miimon 100 lacp_rate fast xmit_hash_policy layer3+4 ad_actor_sys_prio 4096 ad_actor_system {ISP}
for n in 1 2; do ip -n far link set far$n down mtu 1600; ip -n far link set far$n master bond0; done
ip -n far link set bond0 mtu 1508 up promisc on
ip -n far address add 192.0.2.2/24 dev bond0
ip -n far address add 2001:db8::2/64 nodad dev bond0
ip -n far address add 203.0.113.1/32 dev lo
ip -n far route add 10.0.0.0/24 via 192.0.2.1
"""
PROVIDER_UNIT = ("[Unit]\nAfter=guest-far.service\nRequires=guest-far.service\n[Service]\nType=oneshot\nRemainAfterExit=yes\n"
                 "ExecStart=/usr/local/sbin/provider\n")
# A tag of 802.1ad and one of 802.1Q, with packets of 1,500 octets in them.
TWO_TAGS = """ip {at} link add link {device} name outer type vlan proto 802.1ad id 100
ip {at} link set outer up
ip {at} link add link outer name inner type vlan id 7
ip {at} link set inner up
ip {at} address add 198.51.100.{n}/24 dev inner
"""
LOOK = "ip -br address show isp0; ip route show; ip neighbour show 192.0.2.2 | cut -d ' ' -f 1-5; cat /sys/class/net/isp0/ifindex"


def router_files() -> dict[str, str]:
    """What the administrator of the router wrote, and its provider."""
    networks = {"10-members.network": ROUTER_MEMBERS, "20-lag0.network": "", "20-isp0.network": ROUTER_ISP, "30-lan0.network": ROUTER_LAN}
    return {**{f"etc/systemd/network/{name}": text for name, text in networks.items()}, "etc/lagd/uplink.conf": ROUTER,
            "usr/local/sbin/provider": PROVIDER, "etc/systemd/system/provider.service": PROVIDER_UNIT,
            f"{WANTED}provider.service": "../provider.service"}  # fmt: skip


def router_boots(guest: Guest) -> str:
    took = booted(guest, "both links carry to the named partner at boot")
    way = status(guest).get("carry", {}).get("way")
    check(way == "fast", "the way is fast", way)
    left_alone(guest)
    no_unit_failed(guest)
    return took


def routes(guest: Guest) -> str:
    pings(guest, 1400, "2001:db8::2", "the router reaches its provider by IPv6")
    return pings(guest, 1472, "203.0.113.1", "a host behind the router reaches one behind the provider", "lan")


def two_tags(guest: Guest) -> str:
    ended = guest.run(TWO_TAGS.format(at="-n far", device="bond0", n=2) + TWO_TAGS.format(at="", device="isp0", n=1))
    check(ended.status == 0, "both ends have a VLAN in a VLAN", ended.text)
    return pings(guest, 1472, "198.51.100.2", "packets of 1,500 octets pass with two tags")


def router_restarts(guest: Guest) -> str:
    ping(guest)
    before = guest.text(LOOK)
    outcomes = traffic(guest, 6, lambda: guest.run("systemctl restart lagd@uplink"), ("isp0", "bond0"))
    text = handed_over(guest, "the router's bundle is restarted", outcomes, 0)
    after = guest.text(LOOK)
    check(before == after, "isp0 keeps its addresses, routes and neighbours", before, after)
    return text


def one_link(guest: Guest) -> str:
    """One link is enough, and none is too few: the device has no carrier then."""
    guest.set_link(False, "eth1", "far1")
    up_again(guest, 1)
    pings(guest, 1472, "203.0.113.1", "with one link packets pass", "lan")
    guest.set_link(False, "eth2", "far2")
    down = guest.within(COMES_UP, lambda: guest.text("cat /sys/class/net/isp0/carrier") == "0")
    check(down, "with none isp0 has no carrier, which routing sees", journal(guest))
    guest.set_link(True, "eth1", "far1", "eth2", "far2")
    return f"{up_again(guest):.1f} s"


def stranger(guest: Guest) -> str:
    """The other end has another system: it is not the partner."""
    guest.run("ip -n far link set bond0 type bond ad_actor_system 02:00:00:00:00:ee 2>&1 || { ip -n far link set bond0 down; "
              "ip -n far link set bond0 type bond ad_actor_system 02:00:00:00:00:ee; ip -n far link set bond0 up; }")
    left = guest.within(COMES_UP, lambda: guest.text("cat /sys/class/net/isp0/carrier") == "0")
    told = guest.text("ip -n far -d link show bond0 | grep -o 'ad_actor_system [^ ]*'")
    check(left, "no link carries for another system", told, journal(guest))
    guest.run(f"ip -n far link set bond0 down; ip -n far link set bond0 type bond ad_actor_system {ISP}; ip -n far link set bond0 up")
    up_again(guest)
    return "refused" if left else "FAILED"


ROUTER_ROWS: dict[str, Callable[[Guest], str]] = {
    "boots, with both links": router_boots,
    "pings through the router": routes,
    "pings of 1,472 octets with two tags": two_tags,
    "one link, then none: up again after": one_link,
    "another system at the other end": stranger,
    "systemctl restart": router_restarts,
}


# A machine whose network netplan configures: its file has the members, and the address of lag0.
NETPLAN = {**PAIR, "etc/systemd/network/10-members.network": "", "etc/systemd/network/20-lag0.network": "", "etc/netplan/lag0.yaml": example("lag0.yaml")}


def netplan_boots(guest: Guest) -> str:
    text = boots(guest)
    told = guest.text("networkctl --no-pager status lag0 | grep 'Network File'; ls /run/systemd/network")
    check("netplan-lag0" in told, "lag0 has its address by the file of netplan", told)
    return text


def netplan_starts(guest: Guest) -> str:
    """Each time that the device appears it gets its address, also where no link carries."""
    guest.set_link(False, "eth1", "eth2", "far1", "far2")
    guest.run("systemctl stop lagd@uplink; systemctl start lagd@uplink")
    addressed = guest.within(COMES_UP, lambda: "192.0.2.1/24" in guest.text("ip -br address show lag0"))
    check(addressed, "after a stop and a start lag0 has its address, without a link", guest.text("ip -br address"))
    guest.set_link(True, "eth1", "eth2", "far1", "far2")
    up_again(guest)
    return "yes" if addressed else "FAILED"


NETPLAN_ROWS: dict[str, Callable[[Guest], str]] = {
    "boots, and the unit brings the bundle up": netplan_boots, "pings of 1,472 octets": pings, "a stop and a start": netplan_starts}  # fmt: skip


def run_rows(rows: dict[str, Callable[[Guest], str]]) -> Callable[[Guest], dict[str, str]]:
    return lambda guest: {name: tried(guest, name, row) for name, row in rows.items()}


TASKS = {"server": Task("6.12", "e1000e", {**server_files(), **switch_files()}, run_rows(SERVER_ROWS)),
         "router": Task("6.12", "e1000e", router_files(), run_rows(ROUTER_ROWS)),
         "netplan": Task(USER_MODE, CARD, NETPLAN, run_rows(NETPLAN_ROWS))}  # fmt: skip
