"""The moves of docs/LAGD.md: a machine with a bond0 goes to lag0 and back by the lines of the page as they stand there, with each network tool."""

from __future__ import annotations

import os
import re
import textwrap
from functools import partial
from typing import Callable, NamedTuple

from checking import Failed, check
from deployments import Task, run_rows
from ends import BOND, NEAR_AT, carrying, journal
from fetched import USER_MODE
from guest import Guest
from native import CARD
from repository import TOP, read_text

PAGE = read_text(os.path.join(TOP, "docs", "LAGD.md"))
# For how many seconds a way is awaited; that back comes by itself after so many, as the page has it.
MOVES, ITSELF = 240, 300
PING = f"ip netns exec far ping -q -c 1 -W 1 {NEAR_AT} >/dev/null"
PINGS = f"ip netns exec far ping -D -i 0.1 {NEAR_AT} >/run/pings 2>&1 & echo $! >/run/pinging; sleep 1"
LONGEST = """kill -INT $(cat /run/pinging)
awk -F '[][]' '/bytes from/ { if (last && $2 - last > most) most = $2 - last; last = $2 } END { printf "%.1f s", most }' /run/pings"""
FILES = "find /etc/systemd/network /etc/netplan /etc/network /etc/NetworkManager/system-connections -type f -exec md5sum {} + | sort"
BONDED = f"grep -q 'Number of ports: 2' /proc/net/bonding/bond0 && ! test -e /sys/class/net/lag0 && {PING}"
UNBONDED = f"! test -e /sys/class/net/bond0 && ! ip -o address show eth1 | grep -v 'inet6 fe80' && ! ip -o link show eth1 | grep master && {PING}"
# Lines that stand in the text of the page: to go, to stay, and to go back by hand.
GO = "systemd-run --collect --unit=there sh /var/lib/moving/there.sh"
STAYS = "systemctl stop back.timer", "systemctl enable lagd@uplink"
BACK = "systemd-run --collect --unit=back sh /var/lib/moving/back.sh", "systemctl disable lagd@uplink"
# Both scripts, where a folder is empty.
WITHOUT = """cd /var/lib/moving
mkdir aside
mv {0}/* aside
for it in there back; do sh $it.sh && exit; done
mv aside/* {0}
rmdir aside
exit 1
"""
# What an administrator has of bond0, with each tool.
FOLDER, CONNECTIONS = "etc/systemd/network", "etc/NetworkManager/system-connections"
EMPTY = {f"{FOLDER}/{name}": "" for name in ("10-members.network", "20-lag0.network")}
NETWORKD = {**EMPTY, f"{FOLDER}/10-bond0.netdev": "[NetDev]\nName=bond0\nKind=bond\n[Bond]\nMode=802.3ad\nMIIMonitorSec=100ms\nTransmitHashPolicy=layer3+4\n",
            f"{FOLDER}/10-members.network": "[Match]\nName=eth1 eth2\n[Network]\nBond=bond0\n",
            f"{FOLDER}/20-bond0.network": f"[Match]\nName=bond0\n[Network]\nAddress={NEAR_AT}/24\n"}  # fmt: skip
NETPLAN = f"""network:
  version: 2
  ethernets:
    eth1: {{}}
    eth2: {{}}
  bonds:
    bond0:
      interfaces: [eth1, eth2]
      addresses: [{NEAR_AT}/24]
      parameters: {{mode: 802.3ad, mii-monitor-interval: 100, transmit-hash-policy: layer3+4}}
"""
IFUPDOWN = f"""auto bond0
iface bond0 inet static
    address {NEAR_AT}/24
    bond-mode 802.3ad
    bond-miimon 100
    bond-xmit-hash-policy layer3+4
    bond-slaves eth1 eth2
"""
PROFILE = f"""[connection]
id=bond0
type=bond
interface-name=bond0
[bond]
mode=802.3ad
miimon=100
xmit_hash_policy=layer3+4
[ipv4]
method=manual
address1={NEAR_AT}/24
"""
MEMBER = "[connection]\nid=bond-slave-{0}\ntype=ethernet\ninterface-name={0}\nmaster=bond0\nslave-type=bond\n"
MANAGED = {**EMPTY, f"{CONNECTIONS}/bond0.nmconnection": PROFILE,
           **{f"{CONNECTIONS}/bond-slave-{it}.nmconnection": MEMBER.format(it) for it in ("eth1", "eth2")}}  # fmt: skip
ANEW = "ip link del bond0; systemctl restart systemd-networkd"


class Tool(NamedTuple):
    """A network tool: its section of the page, the files that it has, what starts it, and what starts bond0 anew."""

    section: str
    over: dict[str, str]
    starts: str
    anew: str


TOOLS = {"networkd": Tool("With systemd-networkd", NETWORKD, "", ANEW),
         "netplan": Tool("With netplan", {**EMPTY, "etc/netplan/bond0.yaml": NETPLAN}, "", ANEW),
         "ifupdown": Tool("With ifupdown", {**EMPTY, "etc/network/interfaces.d/bond0": IFUPDOWN}, "", "ifdown bond0; ifup bond0"),
         "networkmanager": Tool("With NetworkManager", MANAGED, f"chmod 600 /{CONNECTIONS}/*; systemctl start NetworkManager",
                                "nmcli con down bond0; for it in bond0 bond-slave-eth1 bond-slave-eth2; do nmcli con up $it; done")}  # fmt: skip


def blocks(heading: str) -> list[str]:
    """The blocks of commands of a section of the page."""
    sections = dict(it.split("\n", 1) for it in re.split(r"^#+ ", PAGE, flags=re.M)[1:])
    return [textwrap.dedent(it) for it in re.findall(r"(?:^ {4,}.*\n)+", sections[heading], re.M)]


def said(line: str) -> str:
    """A line of the text of the page."""
    if f"`{line}`" not in PAGE:
        raise Failed("docs/LAGD.md has the line", line)
    return line


def lines_of(tool: Tool) -> str:
    """The lines that prepare a move."""
    (settings,), (files, scripts) = blocks("From bond0 to lag0, and back"), blocks(tool.section)
    return settings + files + scripts


def by_bond(guest: Guest) -> bool:
    return guest.run(BONDED).status == 0


def by_lag(guest: Guest) -> bool:
    return carrying(guest) == 2 and guest.run(UNBONDED).status == 0


def outage(guest: Guest, what: str, event: str, holds: Callable[[Guest], bool], seconds: float = MOVES) -> str:
    """The longest time between two answers to a ping each 100 ms from the far end, while a way is gone."""
    guest.run(PINGS)
    guest.run(event)
    check(guest.within(seconds, lambda: holds(guest)), what, journal(guest))
    guest.sleep(2)
    return guest.text(LONGEST)


def begins(guest: Guest, tool: Tool) -> str:
    """The machine has its bond0, beside bonding."""
    took = guest.boots()
    guest.run(f"{BOND}\nfind /{FOLDER} -type f -empty -delete; systemctl disable -q lagd@uplink\n{tool.starts}")
    check(guest.within(MOVES, lambda: by_bond(guest)), "both links of bond0 carry", journal(guest))
    return f"{took:.0f} s"


def prepares(guest: Guest, tool: Tool) -> str:
    """Steps 1 to 3. The scripts end before anything changes where a folder is missing, or empty."""
    before = guest.text(FILES)
    ended = guest.run(f"set -e\n{lines_of(tool)}")
    check(ended.status == 0, "the lines of the page end well", ended.text)
    for empty in "bond0", "lag0":
        ended = guest.run(WITHOUT.format(empty))
        check(ended.status == 1 and by_bond(guest), f"without files in {empty} a script ends at once", ended.text)
    after = guest.text(FILES)
    check(before == after, "nothing of bond0 changed", before, after)
    guest.run(f"{FILES} >/run/before")
    return "yes"


def goes(guest: Guest) -> str:
    text = outage(guest, "lag0 carries, and its members have neither address nor master", said(GO), by_lag)
    check(guest.run("systemctl is-active back.timer").status == 0, "the way back is to come", journal(guest))
    return text


def comes_back(guest: Guest, what: str, event: str, seconds: float = MOVES) -> str:
    """bond0 carries, and its files are as they were."""
    text = outage(guest, what, event, by_bond, seconds)
    differs = guest.text(f"{FILES} | diff /run/before -")
    check(differs == "", "its files are as before", differs)
    return text


def by_itself(guest: Guest) -> str:
    return comes_back(guest, "bond0 carries again by itself", "", ITSELF + MOVES)


def stays(guest: Guest) -> str:
    """Step 5."""
    ended = guest.run(" && ".join([*map(said, STAYS), "! systemctl is-active back.timer"]))
    check(ended.status == 0 and by_lag(guest), "lag0 is kept", ended.text)
    return "yes"


def by_hand(guest: Guest) -> str:
    back, disable = map(said, BACK)
    text = comes_back(guest, "bond0 carries again by hand", back)
    ended = guest.run(disable)
    check(ended.status == 0, "the service is not started any more", ended.text)
    return text


def rows_of(tool: Tool) -> dict[str, Callable[[Guest], str]]:
    anew = lambda guest: outage(guest, "bond0 carries again", tool.anew, by_bond)
    return {"boots with bond0": partial(begins, tool=tool), "no answer: bond0 starts anew": anew, "steps 1 to 3": partial(prepares, tool=tool),
            "no answer: to lag0": goes, "no answer: back by itself": by_itself, "no answer: to lag0 again": goes,
            "kept": stays, "no answer: back by hand": by_hand}  # fmt: skip


TASKS = {f"moving-{name}": Task(USER_MODE, CARD, tool.over, run_rows(rows_of(tool))) for name, tool in TOOLS.items()}
