"""Tests of several bonds in one text, as tail -v -n +1 /proc/net/bonding/* prints them."""

from __future__ import annotations

from stored import Tests
from texts import status, told_of

SWITCH = "00:1c:73:aa:bb:01"
CROSSED = "Cables of two bundles are crossed, or a port is in the group of another link: "


def bond(number: int, names: str, keys: tuple[int, int], partner: str = SWITCH) -> str:
    """A bond of two links with its line of tail: a port whose partner has another key than the first one's is in another aggregator."""
    text = status("healthy-bonding.txt").replace("02:00:00:01:0a:", f"02:00:00:01:{number:02x}:").replace("02:00:00:01:0b:01", partner)
    head, *parts = text.replace("Partner Key: 15", f"Partner Key: {keys[0]}").split("Slave Interface: ")
    for at, (name, key) in enumerate(zip(names.split(), keys)):
        part = parts[at].replace(f"p{at + 1}", name, 1).replace("oper key: 15", f"oper key: {key}")
        before, there = part.split("details partner")
        there = there.replace(f"port number: {at + 1}", f"port number: {2 * number + at + 1}")
        if key != keys[0]:
            head = head.replace("ports: 2", "ports: 1")
            before, there = before.replace("Aggregator ID: 1", "Aggregator ID: 2").replace("port state: 63", "port state: 7"), there.replace("port state: 63", "port state: 15")
        parts[at] = f"{before}details partner{there}"
    return f"==> /proc/net/bonding/bond{number} <==\n{'Slave Interface: '.join([head, *parts])}\n"


def of_crossed(tests: Tests) -> None:
    """Two bonds at one switch whose cables are crossed, one link of which is in the group of the other, or in no other's, and two that are healthy."""
    swap, look = "Swap the far ends of eno2 and ens1f1, or swap the far ends of eno1 and ens1f0;", "Look where ens1f1 ends: it joins a group to one that is another bundle's."
    cases = (
        ("crossed", (1000, 2000), (2000, 1000), f"2 of 4 links carry, in 2 bundles. {CROSSED}eno2, ens1f1, eno1, ens1f0.", swap),
        ("one misplaced", (1000, 1000), (2000, 1000), f"3 of 4 links carry, in 2 bundles. {CROSSED}ens1f1.", look),
        ("one in a third group", (1000, 1000), (2000, 3000), "3 of 4 links carry, in 2 bundles. In bond1: keys differ within one pair of systems: ens1f0, ens1f1.", "Put the other ends"),
        ("one group for both", (1000, 1000), (1000, 1000), "4 of 4 links carry, in 2 bundles. Bond0 and bond1 lead to one group at the other end: eno1, eno2, ens1f0, ens1f1.", "Give each a group"),
    )
    for name, here, there, headline, advice in cases:
        ended, said = told_of(bond(0, "eno1 eno2", here) + bond(1, "ens1f0 ens1f1", there))
        tests.same(f"two bonds at one switch, {name}", [ended, said.partition("\n")[0], advice in said, "two systems" in said, "\n2. remark" in said], [1, headline, True, False, True])
    for name, partner in ("one switch", SWITCH), ("two switches", f"{SWITCH[:-1]}2"):
        ended, said = told_of(bond(0, "eno1 eno2", (1000, 1000)) + bond(1, "ens1f0 ens1f1", (2000, 2000), partner))
        tests.same(f"two healthy bonds at {name}", [ended, said.startswith("4 of 4 links carry, in 2 bundles. LACP is not your trouble")], [0, True])


def backup(number: int) -> str:
    """A bond of one port that does not speak LACP."""
    port = "Slave Interface: eth0\nMII Status: up\nSpeed: 1000 Mbps\nDuplex: full\nLink Failure Count: 0\nPermanent HW addr: 02:00:00:01:0c:01\nSlave queue ID: 0\n"
    mode = "Bonding Mode: fault-tolerance (active-backup)\nPrimary Slave: None\nCurrently Active Slave: eth0\nMII Status: up\nMII Polling Interval (ms): 100\n"
    return f"==> /proc/net/bonding/bond{number} <==\nEthernet Channel Bonding Driver: v6.1.176\n\n{mode}\n{port}\n"


def of_backups(tests: Tests) -> None:
    """A bond without LACP is a remark beside one that speaks it, whose causes have its name; alone, or beside another one, it is a finding."""
    told = 'he bond bond0 does not speak LACP: its mode is "fault-tolerance (active-backup)"'
    good, broken = (backup(0) + bond(1, "ens1f0 ens1f1", (2000, key)) for key in (2000, 3000))
    cases = {
        "a healthy one": (good, 0, "2 of 2 links carry. LACP is not your trouble", 1),
        "a broken one": (broken, 1, "1 of 2 links carries. In bond1: keys differ within one pair of systems: ens1f0, ens1f1.", 2),
    }
    for name, (text, wanted, headline, at) in cases.items():
        ended, said = told_of(text)
        tests.same(f"a bond without LACP beside {name}", [ended, said.startswith(headline), f"\n{at}. remark: t{told}\n" in said], [wanted, True, True])
    for count, text in (1, backup(0)), (2, backup(0) + backup(2)):
        ended, said = told_of(text)
        tests.same(f"{count} without LACP", [ended, said.partition("\n")[0], "remark" in said], [1, f"T{told}.", False])


def empty(name: str) -> str:
    """A bond without a port, as root reads it."""
    head = status("healthy-bonding.txt").partition("Active Aggregator Info:")[0]
    return f"{head.replace('MII Status: up', 'MII Status: down')}bond {name} has no active aggregator\n"


def of_empty(tests: Tests) -> None:
    """A bond without a port is told as that, by its name, alone and beside others; a text that ends in the line of its first port is cut."""
    told, advice = "The bond bond0 has no member.", "ip link set PORT master bond0 (at each start: netplan `interfaces:`, ifupdown `bond-slaves`)."
    none, good, keys = f"==> /proc/net/bonding/bond0 <==\n{empty('bond0')}\n", bond(1, "ens1f0 ens1f1", (2000, 2000)), bond(1, "ens1f0 ens1f1", (2000, 3000))
    carry, differ = "2 of 2 links carry, in 2 bundles. ", "1 of 2 links carries, in 2 bundles. In bond1: keys differ within one pair of systems: ens1f0, ens1f1. "
    for name, text, head in ("alone", empty("bond0"), ""), ("by its name", none, ""), ("before another", none + good, carry), ("behind it", f"{good}\n{none}", carry), ("beside a broken one", none + keys, differ):
        ended, said = told_of(text)
        found = [ended, said.partition("\n")[0], advice in said, "root" in said, "bundles are in one text" in said]
        tests.same(f"a bond without a port, {name}", found, [1, f"{head}{told}", True, False, False])
    tests.same("a bond that is cut in its first port", told_of(f"{empty('bond0')}\nSlave Inter")[0], 2)


def of_unnamed(tests: Tests) -> None:
    """ip does not name the partner of a port that is not used: of two bonds it is no second system."""
    text, other = (status("keys-ip.json") for _ in range(2))
    for was, now in ("02:00:00:01:0a", "02:00:00:01:0d"), ("02:00:00:01:bb", "02:00:00:01:cc"), ('"bond0"', '"bond1"'), ('"p1"', '"q1"'), ('"p2"', '"q2"'):
        other = other.replace(was, now)
    said = told_of(f"{text}\n{other}")[1]
    both = "Another aggregator than the one in use has p2. Another aggregator than the one in use has q2."
    tests.same("two bonds by ip", [said.partition("\n")[0], "rule 29" in said], [f"2 of 4 links carry, in 2 bundles. {both}", False])


def of_bonds(tests: Tests) -> None:
    for it in of_crossed, of_backups, of_empty, of_unnamed:
        it(tests)
