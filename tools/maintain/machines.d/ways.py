"""What passes data on over both links of a guest, at both ends: a bare link, the ways of the daemon, the kernel's bonding, teamd, and Open vSwitch
in the kernel's datapath."""

from __future__ import annotations

import json
from typing import Callable, NamedTuple

from checking import Failed
from ends import BOND, COMES_UP, FAR_AT, NEAR_AT, NO_BOND, journal, up_again, use
from guest import Guest
from tree import SWITCH

RUNNER = {"name": "lacp", "active": True, "fast_rate": True, "tx_hash": ["eth", "ip", "l4"]}
# For how many seconds links may still come and go, once packets go.
SETTLES = 3
# Open vSwitch at one end: `space` is the command by which what follows runs there. The database and the switch have a folder of their own.
SWITCH_ENDS = {"": ("/run/near", "ovs0", "eth"), "far": ("/run/away", "ovs0", "far")}
SWITCH_PLACES = f"export PATH=$PATH:{SWITCH}/usr/bin:{SWITCH}/usr/sbin:{SWITCH}/usr/lib/openvswitch-switch\n"
SWITCH_BEGINS = """for it in RUN LOG DB SYSCONF; do export OVS_${{it}}DIR={folder}; done
mkdir -p {folder}
ovsdb-tool create {folder}/conf.db {schema}
ovsdb-server --detach --no-chdir --pidfile --log-file --remote=punix:{folder}/db.sock {folder}/conf.db
{space} ovs-vswitchd --detach --no-chdir --pidfile --log-file unix:{folder}/db.sock
ovs-vsctl --db=unix:{folder}/db.sock --timeout=20 add-br {bridge} -- add-bond {bridge} both {port}1 {port}2 lacp=active \\
    other_config:lacp-time=fast bond_mode=balance-tcp
"""
SWITCH_ENDS_AT = "ovs-appctl -t {folder}/ovs-vswitchd.$(cat {folder}/ovs-vswitchd.pid).ctl exit --cleanup; kill $(cat {folder}/ovsdb-server.pid); sleep 1; rm -r {folder}\n"


class Way(NamedTuple):
    """How both ends begin and end, their devices, the name of the process at the near end, and how that is started again."""

    begin: Callable[[Guest], None]
    end: Callable[[Guest], None]
    devices: tuple[str, str]
    process: str = ""
    again: str = ""


def team(device: str, *ports: str) -> str:
    """The command of a teamd."""
    config = {"device": device, "runner": RUNNER, "link_watch": {"name": "ethtool"}, "ports": {name: {} for name in ports}}
    return f"teamd -U -d -t {device} -c '{json.dumps(config)}'"


def address(guest: Guest, near: str, far: str) -> None:
    """Both devices are up with their addresses, and packets go."""
    guest.run(f"ip link set {near} up; ip address replace {NEAR_AT}/24 dev {near}; ip -n far link set {far} up; ip -n far address replace {FAR_AT}/24 dev {far}")
    if not guest.within(COMES_UP, lambda: guest.run(f"ping -q -c 1 -W 1 {FAR_AT}").status == 0):
        raise Failed(f"packets go by {near}", guest.text("ip -br address; ip -n far -br address"))
    guest.sleep(SETTLES)


def links(guest: Guest, word: str) -> None:
    guest.run(f"for n in 1 2; do ip link set eth$n {word}; ip -n far link set far$n {word}; done")


def begin_bare(guest: Guest) -> None:
    links(guest, "up")
    address(guest, "eth1", "far1")


def end_bare(guest: Guest) -> None:
    guest.run("ip address flush dev eth1; ip -n far address flush dev far1")


def begin_daemon(way: str) -> Callable[[Guest], None]:
    def begin(guest: Guest) -> None:
        links(guest, "up")
        ended = use(guest, way)
        if ended.status:
            raise Failed(f"lagd starts with {way or 'nothing else'}", journal(guest))
        up_again(guest)
        address(guest, "lag0", "lag0")

    return begin


def end_daemon(guest: Guest) -> None:
    guest.run("systemctl stop lagd@uplink far")


def begin_bond(guest: Guest) -> None:
    near = BOND.replace("-n far ", "").replace("far$n", "eth$n").replace(FAR_AT, NEAR_AT)
    guest.run(f"{BOND}\n{near}")
    address(guest, "bond0", "bond0")


def end_bond(guest: Guest) -> None:
    guest.run(f"{NO_BOND}; ip link del bond0")


def begin_team(guest: Guest) -> None:
    links(guest, "down")
    guest.run(f"mkdir -p /run/teamd; {team('team0', 'eth1', 'eth2')}")
    guest.run(f"ip netns exec far {team('team1', 'far1', 'far2')}")
    guest.run("ip link set team0 promisc on; ip -n far link set team1 promisc on")
    address(guest, "team0", "team1")


def end_team(guest: Guest) -> None:
    guest.run("teamd -U -k -t team0; ip netns exec far teamd -U -k -t team1; sleep 1")


def switch(space: str, script: str) -> str:
    """A script of Open vSwitch at one end."""
    folder, bridge, port = SWITCH_ENDS[space]
    inside = f"ip netns exec {space}" if space else ""
    return script.format(folder=folder, bridge=bridge, port=port, space=inside, schema=f"{SWITCH}/usr/share/openvswitch/vswitch.ovsschema")


def begin_switch(guest: Guest) -> None:
    links(guest, "up")
    ended = guest.run(f"{SWITCH_PLACES}set -e\nmodprobe openvswitch\n{''.join(switch(it, SWITCH_BEGINS) for it in SWITCH_ENDS)}")
    if ended.status:
        raise Failed("Open vSwitch begins", ended.text, guest.text("tail -n 20 /run/near/*.log"))
    address(guest, "ovs0", "ovs0")


def end_switch(guest: Guest) -> None:
    guest.run(SWITCH_PLACES + "".join(switch(it, SWITCH_ENDS_AT) for it in SWITCH_ENDS))


DAEMON = "systemctl restart lagd@uplink"
TEAM = f"teamd -U -k -t team0; {team('team0', 'eth1', 'eth2')}; ip link set team0 up promisc on; ip address replace {NEAR_AT}/24 dev team0"
SWITCH_AGAIN = """export OVS_RUNDIR={folder} OVS_LOGDIR={folder}
kill $(cat {folder}/ovs-vswitchd.pid)
while [ -e {folder}/ovs-vswitchd.pid ]; do sleep 0.05; done
ovs-vswitchd --detach --no-chdir --pidfile --log-file unix:{folder}/db.sock
"""
BARE = "a bare link"
WAYS = {
    BARE: Way(begin_bare, end_bare, ("eth1", "far1")),
    "`lagd`": Way(begin_daemon(""), end_daemon, ("lag0", "lag0"), "lagd", DAEMON),
    "`offload`": Way(begin_daemon("offload=yes"), end_daemon, ("lag0", "lag0"), "lagd", DAEMON),
    "`fast`": Way(begin_daemon("fast=yes"), end_daemon, ("lag0", "lag0"), "lagd", DAEMON),
    "`plane=team`": Way(begin_daemon("plane=team"), end_daemon, ("lag0", "lag0"), "lagd", DAEMON),
    "bonding": Way(begin_bond, end_bond, ("bond0", "bond0")),
    "teamd": Way(begin_team, end_team, ("team0", "team1"), "teamd", TEAM),
    "Open vSwitch": Way(begin_switch, end_switch, ("ovs0", "ovs0"), "ovs-vswitchd", SWITCH_PLACES + switch("", SWITCH_AGAIN)),
}
