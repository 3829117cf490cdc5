"""What is tried of interfaces above the TAP device: VLANs, two tags, a bridge that filters VLANs, IPv6, and tunnels."""

from __future__ import annotations

import shutil
import socket
import time
from typing import Callable

from bonds import DEVICE, End, Programs, every, move_all, pair
from checking import Skipped, check, command, within
from fast_parts import check_fast
from spaces import OURS, THEIRS, inside, ip, within_space
from streams import run_stream

WAYS: tuple[list[str], ...] = ([], ["--offload"], ["--fast"])
# How long an interface may take until it passes packets.
COMES = 10


def both(*words: str) -> None:
    """Has both ends make an interface."""
    for space in OURS, THEIRS:
        if (made := inside(space, "ip", "link", "add", *words)).returncode:
            raise Skipped(f"there is no {words[-1]}: {made.stderr.strip()}")


def set_up(device: str, net: str, *more: str) -> None:
    """Gives both ends of a device an address of IPv4 and of IPv6, each ending in the number of the end."""
    for space, number in (OURS, 1), (THEIRS, 2):
        inside(space, "sysctl", "-qw", f"net/ipv6/conf/{device}/disable_ipv6=0")
        ip(space, "link", "set", device, "up", *more)
        ip(space, "address", "add", f"{net}.{number}/24", "dev", device)
        ip(space, "address", "add", f"2001:db8:{net.split('.')[-1]}::{number}/64", "dev", device, "nodad")


def pings(address: str, octets: int = 56, count: int = 5) -> bool:
    """Whether each packet of a ping is answered, none of which may be cut."""
    told = inside(OURS, "ping", "-qc", str(count), "-i", "0.1", "-W", "2", "-M", "do", "-s", str(octets), address).stdout
    return f"{count} packets transmitted, {count} received" in told


def check_pings(what: str, net: str, longest: int, ours: End) -> None:
    """Packets of IPv4 and IPv6, short ones and those as long as the device takes."""
    for address, head in (f"{net}.2", 28), (f"2001:db8:{net.split('.')[-1]}::2", 48):
        whole = within(COMES, lambda: pings(address, count=1)) and pings(address) and pings(address, longest - head)
        check(whole, f"{what}: {address} answers, up to {longest} octets", ours.text(), ours.printed())


def check_stream(what: str, net: str, ours: End, way: list[str]) -> None:
    if not shutil.which("iperf3"):
        return
    for host in f"{net}.2", f"2001:db8:{net.split('.')[-1]}::2":
        stream = run_stream(1, to=host, streams=4)
        check(stream.bits > 1e6, f"{what}: streams of {stream.bits / 1e9:.2f} Gb/s to {host} {way}", ours.text())
    if "--fast" in way:
        check_fast(ours)


def vlans(programs: Programs) -> None:
    """VLANs above the device, one of them behind two tags; by each hash that knows them conversations of one are spread."""
    for way in WAYS:
        with pair(programs, delays=(), options=["--hash", "vlan+srcmac", *way]) as (_, ours, theirs):
            for number in range(10, 18):
                both("link", DEVICE, "name", f"{DEVICE}.{number}", "type", "vlan", "id", str(number))
                set_up(f"{DEVICE}.{number}", f"10.0.{number}")
            both("link", DEVICE, "name", "service", "type", "vlan", "proto", "802.1ad", "id", "100")
            set_up("service", "10.0.100", "mtu", "1496")
            both("link", "service", "name", "customer", "type", "vlan", "id", "101")
            set_up("customer", "10.0.101", "mtu", "1492")
            check_pings(f"a VLAN {way}", "10.0.10", 1500, ours)
            check_pings(f"one of 802.1ad {way}", "10.0.100", 1496, ours)
            check_pings(f"behind two tags {way}", "10.0.101", 1492, ours)
            check_stream("a VLAN", "10.0.11", ours, way)
            check_stream("behind two tags", "10.0.101", ours, way)
            reached = all(pings(f"10.0.{number}.2", count=2) for number in range(10, 18))
            busy = ours.busy_conversations()
            check(reached and min(busy) > 0, f"vlan+srcmac spreads ten VLANs over both links: {busy} {way}", ours.text())
            if "--fast" in way:
                check(ours.data("passed_on") > 1000, f"the kernel finds them, too: it passed on {ours.data('passed_on'):,} frames", ours.text())


def make_trunk(space: str, number: int) -> None:
    """A bridge that filters VLANs: the device is a trunk of VLANs 10 and 20, and a guest behind a veth has VLAN 10 without a tag."""
    made = inside(space, "ip", "link", "add", "br0", "type", "bridge", "vlan_filtering", "1", "vlan_default_pvid", "0")
    if made.returncode or not shutil.which("bridge"):
        raise Skipped(f"there is no bridge: {made.stderr.strip()}")
    guest = f"{space}-guest"
    command("ip", "netns", "add", guest)
    ip(space, "link", "add", "tap7", "type", "veth", "peer", "name", "eth0", "netns", guest)
    for port in DEVICE, "tap7":
        ip(space, "link", "set", port, "master", "br0")
    inside(space, "bridge", "vlan", "add", "dev", DEVICE, "vid", "10")
    inside(space, "bridge", "vlan", "add", "dev", DEVICE, "vid", "20")
    inside(space, "bridge", "vlan", "add", "dev", "tap7", "vid", "10", "pvid", "untagged")
    inside(space, "bridge", "vlan", "add", "dev", "br0", "vid", "20", "self")
    for name in "tap7", "br0":
        ip(space, "link", "set", name, "up")
    ip(guest, "link", "set", "eth0", "up")
    ip(guest, "address", "add", f"10.0.10.{number}/24", "dev", "eth0")
    ip(space, "link", "add", "link", "br0", "name", "br0.20", "type", "vlan", "id", "20")


def bridges(programs: Programs) -> None:
    """A bridge that filters VLANs above the device at each end, with a guest in one VLAN and the host in another one."""
    guests = f"{OURS}-guest", f"{THEIRS}-guest"
    for way in WAYS:
        try:
            with pair(programs, delays=(), options=["--hash", "layer3+4", *way]) as (_, ours, theirs):
                make_trunk(OURS, 1)
                make_trunk(THEIRS, 2)
                set_up("br0.20", "10.0.20")
                answered = lambda octets: "5 received" in inside(guests[0], "ping", "-qc", "5", "-i", "0.1", "-s", str(octets), "10.0.10.2").stdout
                reached = within(COMES, lambda: answered(56)) and answered(4000)
                check(reached, f"guests in VLAN 10 reach each other {way}", ours.text(), ours.printed())
                check_pings(f"the host in VLAN 20 {way}", "10.0.20", 1500, ours)
                check_stream("through the bridge", "10.0.20", ours, way)
                moved = every(1, 3, move_all(ours))
                for _, event in moved:
                    event()
                    check(answered(1400), f"guests answer while conversations move {way}", ours.text())
                ip(OURS, "link", "set", "a0", "down")
                check(answered(1400), f"and with one link {way}", ours.text())
        finally:
            for guest in guests:
                command("ip", "netns", "del", guest)


def tunnels(programs: Programs) -> None:
    """Tunnels between the ends: encap3+4 spreads what one of them carries."""
    kinds = {"gre": ("type", "gre", "local", "10.0.1.1", "remote", "10.0.1.2"),
             "vxlan": ("type", "vxlan", "id", "7", "local", "10.0.1.1", "remote", "10.0.1.2", "dstport", "4789", "srcport", "40000", "40001")}
    for way in WAYS:
        with pair(programs, delays=(), options=["--hash", "encap3+4", "--hash-seed", "7", *way]) as (_, ours, theirs):
            set_up(DEVICE, "10.0.1")
            for place, (name, words) in enumerate(kinds.items(), 2):
                turned = ["10.0.1.1" if word == "10.0.1.2" else "10.0.1.2" if word == "10.0.1.1" else word for word in words]
                for space, given in (OURS, list(words)), (THEIRS, turned):
                    made = inside(space, "ip", "link", "add", f"{name}7", *given)
                    if made.returncode:
                        raise Skipped(f"there is no {name}: {made.stderr.strip()}")
                set_up(f"{name}7", f"10.0.{place}")
                check(within(COMES, lambda: pings(f"10.0.{place}.2", 1000)), f"{name} {way}: packets go", ours.text())
                before = [port["data"]["data_sent"] for port in ours.told()["ports"]]
                with within_space(OURS), socket.socket(socket.AF_INET, socket.SOCK_DGRAM) as sender:
                    for port in range(20000, 20100):
                        sender.sendto(b"x", (f"10.0.{place}.2", port))
                time.sleep(0.5)
                sent = [port["data"]["data_sent"] - count for port, count in zip(ours.told()["ports"], before)]
                check(min(sent) > 20, f"{name} {way}: of 100 datagrams to 100 ports {sent} went on the links", ours.text())
                if shutil.which("iperf3"):
                    stream = run_stream(1, to=f"10.0.{place}.2", streams=8)
                    check(stream.bits > 1e6, f"{name} {way}: streams of {stream.bits / 1e9:.2f} Gb/s", ours.text())
                    if "--fast" in way:
                        check_fast(ours, 4)


PARTS: dict[str, Callable[[Programs], None]] = {it.__name__: it for it in (vlans, bridges, tunnels)}
