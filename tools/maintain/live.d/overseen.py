"""The units of lagd-snmp and of the example for lldpd under systemd, beside snmpd and lldpd as Debian starts them."""

from __future__ import annotations

import contextlib
import os
import re
import shutil
from typing import Callable

from at_boot import BUNDLE, UNIT
from booted import ANSWERS, Machine, put
from checking import Skipped, check, command, within
from daemon import Part
from daemons import COMES_UP
from linking import DAEMON, build_subagent
from managed import COMES_BACK, OBJECTS, want_subagent
from repository import read_text

UNITS = ("snmpd", "lldpd", "lagd-snmp", "lagd-lldp")
CONFIGURATION = "agentaddress udp:127.0.0.1:161\nview systemonly included .1.3.6.1.2.1.1\nrocommunity public default -V systemonly\n"


def told_lines(program: str) -> str:
    """The lines for snmpd.conf that its help text has."""
    return "".join(f"{line}\n" for line in re.findall(r"^ {4}(\S.*)$", command(program, "--help").stdout, re.M))


def text_of(*path: str) -> str:
    return read_text(os.path.join(DAEMON, *path))


def lay(program: str) -> Callable[[str], None]:
    """Lays what the package and an administrator install over the files of the machine."""

    def over_it(over: str) -> None:
        put(over, "etc/lagd/uplink.conf", BUNDLE)
        put(over, f"{UNIT}/carry.conf", text_of("carry.conf"))
        put(over, "etc/systemd/system/lagd-snmp.service", text_of("snmp", "lagd-snmp.service"))
        put(over, "etc/systemd/system/lagd-lldp.service", text_of("boot", "lagd-lldp.service"))
        put(over, "usr/local/sbin/lagd-lldp", text_of("boot", "lagd-lldp.py"), 0o755)
        put(over, "etc/snmp/snmpd.conf", CONFIGURATION + told_lines(program))
        shutil.copy(program, os.path.join(over, "usr/sbin/lagd-snmp"))

    return over_it


def shows(machine: Machine) -> str:
    """What lldpd has of the ports."""
    return machine.tells("lldpcli", "show", "interfaces", "details")


def units(part: Part) -> None:
    """Both units run as users of their own, and tell of the bundle; so they do after a restart of what they tell it to."""
    part.unhurried()
    want_subagent()
    if not os.path.exists("/lib/systemd/system/lldpd.service") or not os.path.exists("/dev/net/tun"):
        raise Skipped("no lldpd (Debian: lldpd), or no /dev/net/tun")
    with contextlib.closing(Machine(part, more=lay(build_subagent(part.folder, [])))) as machine:
        theirs = part.theirs(options=["--carry", "lag0"])
        machine.comes_up()
        check(within(ANSWERS, lambda: machine.run("ip", "link", "set", "lag0", "up").returncode == 0), "the device is set up", machine.told())
        check(within(COMES_UP, lambda: theirs.distributes("b0", "b1")), "both links carry", theirs.text())
        machine.run("ip", "link", "set", "lo", "up")
        for unit in UNITS:
            machine.run("systemctl", "start", unit)
        states = lambda: machine.tells("systemctl", "is-active", *UNITS).split()
        check(within(ANSWERS, lambda: states() == ["active"] * len(UNITS)), f"{', '.join(UNITS)} are active", states(), machine.told())
        users = lambda: machine.tells("sh", "-c", "for unit in lagd-snmp lagd-lldp; do ps -o uid= -p $(systemctl show --value --property MainPID $unit); done").split()
        # A unit is active before its process has become its user.
        check(within(ANSWERS, lambda: len(users()) == 2 and "0" not in users()), "neither unit runs as root", users())
        walk = lambda: machine.tells("snmpbulkwalk", "-m", "", "-v2c", "-c", "public", "-On", "127.0.0.1", OBJECTS)
        check(within(COMES_BACK, lambda: walk().count("\n") == 73), "snmpd tells of the bundle, with the lines of the man page", walk(), machine.told())
        check(within(ANSWERS, lambda: shows(machine).count("OUI: 00,80,C2, SubType: 7, Len: 5 03,") == 2), "lldpd has a TLV of both ports", shows(machine), machine.told())
        for unit in ("snmpd", "lldpd", "lagd@uplink"):
            machine.run("systemctl", "restart", unit)
        check(within(COMES_BACK + COMES_UP, lambda: walk().count("\n") == 73), "and does so after all were started again", walk(), machine.told())
        check(within(ANSWERS, lambda: shows(machine).count("OUI: 00,80,C2, SubType: 7, Len: 5 03,") == 2), "and so does lldpd", shows(machine), machine.told())


PARTS = {"SNMP and LLDP under systemd": units}
