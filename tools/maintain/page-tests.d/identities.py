"""Tests of who is who in a capture: copied identifiers, bundles that one key has by partner, ports of an MLAG pair with one number, an end with two source
addresses, one direction alone, an interface without LACPDUs; and of how explain ends where it cannot read or write."""

from __future__ import annotations

import gzip
import os
import subprocess

import made
from repository import TOOLS
from stored import Tests
from texts import explain

HASH = "One flow has the speed of one link: the hash chooses it."
SYSTEM = "02-00-00-00-00-0"
Link = tuple[made.Party, made.Party]


def seen(links: list[Link], sources: tuple[bytes, ...] = (), begin: int = 0) -> list[made.Packets]:
    """What both ends of each link send for 40 s; the near end of each has its own source address, or that which is given."""
    return [made.sends(one, other, made.at(begin + port / 100, 40), sources[port] if sources else b"") + made.sends(other, one, made.at(begin + port / 100 + 0.004, 40))
            for port, (one, other) in enumerate(links)]  # fmt: skip


def bundle(near: int, key: int, far: int, far_key: int, ports: list[tuple[int, int]]) -> list[Link]:
    """Links of two systems that carry, by the ports of both ends."""
    return [(made.Party(near, key, port, made.FAST), made.Party(far, far_key, there, made.FAST)) for port, there in ports]


def told(path: str, links: list[made.Packets], names: list[str] | None = None) -> tuple[int, str]:
    """The status of lagtool explain of a capture of these links, an interface each, or all at a mirror; and all that it prints."""
    if names is None:
        made.capture(path, [it for packets in links for it in packets] if len(links) == 1 else [], *links)
    else:
        made.interfaces(path, zip(names, links))
    ended = explain(path)
    return ended.returncode, ended.stdout


def files(folder: str, links: list[made.Packets]) -> tuple[int, str]:
    """The same of a file for each link."""
    paths = [os.path.join(folder, f"eth{number}.pcap") for number in range(1, len(links) + 1)]
    for path, packets in zip(paths, links):
        made.capture(path, packets, [])
    ended = explain(*paths)
    return ended.returncode, ended.stdout


def of_identities(tests: Tests, folder: str) -> None:
    os.makedirs(folder, exist_ok=True)
    for it in of_copies, of_partners, of_one_port, of_two_sources, of_one_direction, of_quiet_interface, of_silence, of_cut, of_ends:
        it(tests, folder)


def of_copies(tests: Tests, folder: str) -> None:
    """Two hosts with one system, and one set of port numbers and addresses, each with a bundle of its own at one switch: the cause is the copied identifier, with both
    interfaces of it; no word of keys, which would put two machines into one bundle."""
    path, four = os.path.join(folder, "copies.pcapng"), [f"eth{number}" for number in range(1, 5)]
    hosts = [*bundle(1, 10, 2, 101, [(1, 1), (2, 2)]), *bundle(1, 10, 2, 102, [(1, 3), (2, 4)])]
    for how, said in ("interfaces", told(path, seen(hosts), four)), ("files", files(folder, seen(hosts))):
        status, text = said
        wanted = [1, f"4 of 4 links carry. One identifier is at two places: {SYSTEM}1 port 1 speaks on eth1 and eth3.", True, False]
        tests.same(f"copied hosts behind one switch, {how}", [status, text.partition("\n")[0], f"{SYSTEM}1 port 2: on eth2 and eth4" in text, "one group" in text], wanted)
        tests.same(f"copied hosts, {how}: no key is the cause", ["1. one identifier is at two places" in text, "\n2." in text, "ad_actor_system" in text], [True, False, True])
    apart = [*bundle(1, 10, 2, 101, [(1, 1), (2, 2)]), *bundle(1, 10, 3, 101, [(1, 1), (2, 2)])]
    status, text = told(path, seen(apart), four)
    tests.same("copied hosts at two switches", [status, "One identifier is at two places" in text.partition("\n")[0]], [1, True])
    later = [*seen([bundle(1, 10, 2, 101, [(1, 1)])[0]]), *seen([bundle(1, 10, 2, 101, [(1, 3)])[0]], begin=60)]
    tests.same("a cable that moves is no copy", "One identifier" in told(path, later, ["eth1", "eth3"])[1], False)


def of_partners(tests: Tests, folder: str) -> None:
    """Two hosts, each with its own bundle, whose switch has one key for all four ports: two bundles, by partner. With one link to each it may be one that is cabled wrongly."""
    path = os.path.join(folder, "partners.pcapng")
    both = [*bundle(1, 10, 2, 5, [(1, 1), (2, 2)]), *bundle(3, 10, 2, 5, [(1, 3), (2, 4)])]
    said = "if {} is to have one bundle, cable its links to one system (or make the others one: MLAG); else LACP is not your trouble."
    for how, names in ("interfaces", [f"eth{number}" for number in range(1, 5)]), ("a mirror", None):
        status, text = told(path, seen(both), names)
        lags = "eth1 and eth2; eth3 and eth4" if names else "ports 1-1 and ports 2-2; ports 3-1 and ports 4-2"
        first = f"4 links carry, both ways, as 2 bundles, by partner: {lags}. I{said.format(f'{SYSTEM}2')[1:]} {HASH}"
        tests.same(f"two hosts at one key, {how}", [status, text.partition("\n")[0], "carries apart" in text, "a bond uses" in text], [0, first, False, False])
    status, text = told(path, seen([*bundle(1, 10, 2, 5, [(1, 1), (2, 2)]), *bundle(1, 10, 3, 5, [(3, 1)])]), ["eth1", "eth2", "eth3"])
    tests.same("one link of three to another system", [status, "Links of one system lead to two systems" in text], [1, True])


def of_one_port(tests: Tests, folder: str) -> None:
    """An MLAG pair whose two switches have one port number: (system, port) has to be one link's alone, so it is told, with both interfaces."""
    path = os.path.join(folder, "one-port.pcapng")
    status, text = told(path, seen(bundle(1, 10, 2, 5, [(1, 1), (2, 1)])), ["eth1", "eth2"])
    wanted = "2 links carry, both ways. Two devices act as one system: right if they are an MLAG pair."
    tests.same("two ends with one port number", [status, text.partition("\n")[0], f"{SYSTEM}2 port 1: on eth1 and eth2" in text], [0, wanted, True])


def of_two_sources(tests: Tests, folder: str) -> None:
    """An end that sends each second LACPDU from a second source address is one end."""
    path, links = os.path.join(folder, "sources.pcap"), bundle(1, 10, 2, 5, [(1, 1), (2, 2)])
    other = bytes([2, 0, 0, 0, 9, 1])
    packets = [it for (one, far), way in zip(links, (0.0, 0.1)) for it in made.exchange(one, far, made.at(way, 40))]
    packets = sorted((time, octets[:6] + other + octets[12:] if octets[6:12] == links[0][0].source() and int(time) % 2 else octets) for time, octets in packets)
    made.capture(path, packets)
    ended = explain(path)
    first = ended.stdout.partition("\n")[0]
    tests.same("one end, two source addresses", [ended.returncode, first, ended.stdout.count("carries, both ways"), "remark: one end sends from two source addresses" in ended.stdout],
               [0, f"2 links carry, both ways: LACP is not your trouble. {HASH}", 2, True])  # fmt: skip


def of_one_direction(tests: Tests, folder: str) -> None:
    """One direction of a healthy bundle: what this end says, and that the other direction was not captured."""
    path, links = os.path.join(folder, "out.pcapng"), bundle(1, 10, 2, 5, [(1, 1), (2, 2)])
    status, text = told(path, [made.sends(one, other, made.at(0, 40)) for one, other in links], ["eth1", "eth2"])
    wanted = "2 of 2 links: this end says that they carry; the other direction was not captured. Capture both (tcpdump without -Q), or at the other end."
    tests.same("one direction of a healthy bundle", [status, text.partition("\n")[0], "1. remark: LACPDUs in one direction only" in text], [1, wanted, True])
    one, other = links[1]
    status, text = told(path, [seen(links)[0], made.sends(one, other, made.at(0, 40))], ["eth1", "eth2"])
    wanted = "1 of 2 links carries. Of eth2 this end says that it carries; the other direction was not captured. Capture both (tcpdump without -Q), or at the other end."
    tests.same("one direction of one link", [status, text.partition("\n")[0]], [1, wanted])


def of_quiet_interface(tests: Tests, folder: str) -> None:
    """An interface of a capture without an LACPDU counts as a file without one does; loopback does not."""
    path, link = os.path.join(folder, "quiet.pcapng"), seen(bundle(1, 10, 2, 5, [(1, 1)]))[0]
    quiet: dict[str, made.Packets] = {"with other frames": made.arps(30), "without a packet": []}
    for what, packets in quiet.items():
        status, text = told(path, [link, packets], ["eth1", "eth2"])
        tests.same(f"an interface {what}", [status, text.partition(":")[0]], [1, "1 of 2 links carries. No LACPDU is on the interface eth2"])
    tests.same("loopback is no link", told(path, [link, made.arps(3)], ["eth1", "lo"])[1].startswith("The link carries, both ways."), True)


def of_silence(tests: Tests, folder: str) -> None:
    """An end that is not seen any more: it sends no more, or what it sends does not come; the capture does not say which, and both halves are told."""
    path, links = os.path.join(folder, "silence.pcapng"), bundle(1, 10, 2, 5, [(1, 1), (2, 2)])
    one, other = links[1]
    dead = [*made.exchange(one, other, made.at(0, 20)), *made.sends(one, other, made.at(0.1, 20, 23)), *made.sends(one._replace(state=made.EXPIRED), other, made.at(0.1, 23, 26)), *made.sends(one._replace(state=made.DEFAULTED), None, made.at(0.1, 26, 60))]
    status, text = told(path, [made.exchange(*links[0], made.at(0.05, 60)), dead], ["eth1", "eth2"])
    tests.same("nothing more comes", [status, text.partition("\n")[0], "receive fibre" in text, "Look at this end, not at its partner" in text], [1, "1 of 2 links carries. Nothing more comes from an end: eth2.", True, False])


def of_cut(tests: Tests, folder: str) -> None:
    """Packets that are cut within the LACPDU: explain says so, as the page does."""
    path = os.path.join(folder, "cut.pcap")
    made.pcap(path, made.exchange(*bundle(1, 10, 2, 5, [(1, 1)])[0], made.at(0, 20)), 40)
    ended = explain(path)
    tests.same("packets of 40 octets", [ended.returncode, ended.stdout.partition("\n")[0]], [2, "No LACPDU could be read: 40 of 40 frames of the slow protocols could not be read: capture whole frames (tcpdump -s 0)."])


def of_ends(tests: Tests, folder: str) -> None:
    """How explain ends where it cannot write, and what it says of what is none of its inputs."""
    path = os.path.join(folder, "ends.pcap")
    made.capture(path, seen(bundle(1, 10, 2, 5, [(1, 1)]))[0], [])
    with open("/dev/full", "w", encoding="utf-8") as full:
        ended = subprocess.run([os.path.join(TOOLS, "lagtool"), "explain", path], stdin=subprocess.DEVNULL, stdout=full, stderr=subprocess.PIPE, text=True)
    tests.same("explain on a full disk", [ended.returncode, ended.stderr], [2, "lagtool: cannot write\n"])
    text = os.path.join(folder, "running-config.txt")
    with open(text, "w", encoding="utf-8") as out:
        out.write("interface Port-channel1\n switchport mode trunk\n")
    ended = explain(text)
    tests.same("a text that is none names those that are", [ended.returncode, "/proc/net/bonding/bond0" in ended.stderr, "ovs-appctl lacp/show" in ended.stderr, "show lacp neighbor" in ended.stderr], [2, True, True, True])
    picture = os.path.join(folder, "picture.png")
    with open(picture, "wb") as out:
        out.write(b"\x89PNG\r\n\x1a\n" + bytes(60))
    ended = explain(picture)
    tests.same("a picture", [ended.returncode, ended.stderr], [2, "lagtool: cannot read picture.png: neither pcap nor pcapng: captures are read, and what systems print of LACP (docs/TROUBLE.md has the list)\n"])
    packed = os.path.join(folder, "packed.pcap.gz")
    with open(path, "rb") as it, gzip.open(packed, "wb") as out:
        out.write(it.read())
    tests.same("a capture that gzip packed", explain(packed).stdout, explain(path).stdout)
    ended = subprocess.run([os.path.join(TOOLS, "lagtool"), "explian", path], stdin=subprocess.DEVNULL, capture_output=True, text=True)
    tests.same("a mistyped word", [ended.returncode, "did you mean explain?" in ended.stderr], [2, True])
