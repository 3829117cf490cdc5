"""Tests of what is said of texts that are easily judged wrongly: copied identifiers, several bundles, ports that Open vSwitch does not use, and nobody heard."""

from __future__ import annotations

import re

from stored import Tests
from texts import second_port, status, told_first_of, told_of, told_of_two

COPIED = "are of system 02-00-00-0{}-0a-01: if these are two hosts, give one of them another identifier"
WAYS = "bonding: ad_actor_system; Open vSwitch: other_config:lacp-system-id; teamd: hwaddr, the address of the team device"
COLLECTS = "the other end does not collect"
UNHEARD = "No LACPDU comes on any link: is LACP on at the far end?"


def of_copies(tests: Tests) -> None:
    """Two hosts with one identifier, key and ports, of which the switch has a key each; and texts that are of one host, or of two with an identifier each."""
    bond, team, show = status("healthy-bonding.txt"), status("healthy-teamd.json"), status("healthy-open-vswitch.txt")
    keyed = [bond.replace("oper key: 15", f"oper key: {key}").replace("Partner Key: 15", f"Partner Key: {key}") for key in (110, 120)]
    keyed[1] = keyed[1].replace("HW addr: 02:00:00:01:0a", "HW addr: 02:00:00:01:0c")
    moved = team.replace("02:00:00:02:0b:01", "02:00:00:02:0b:02")
    shown = [show.replace("partner key: 15", f"partner key: {key}") for key in (110, 120)]
    for number, (name, pair) in enumerate((("bonding", keyed), ("teamd", [team, moved]), ("Open vSwitch", shown)), 1):
        for way, said, head in (
            ("two texts", told_of_two(*pair), f"2 of 2 links carry. Both texts {COPIED.format(number)}."),
            ("one text", told_of("\n".join(pair))[1], f"4 of 4 links carry, in 2 bundles. Two bundles of this text {COPIED.format(number)}."),
        ):
            found = [said.partition("\n")[0], WAYS in said, any(it in said for it in ("rule 15", "rule 29", "one group", "two texts have", "is of the system"))]
            tests.same(f"a copied identifier, {name} as {way}", found, [head, True, False])
    for name, (here, there) in {"one text twice": (bond, bond), "both ends": (bond, status("healthy-bonding.other.txt")), "one text of teamd twice": (team, team)}.items():
        said = told_of_two(here, there)
        tests.same(f"no copied identifier: {name}", ["another identifier" in said, said.startswith("2 of 2 links carry. LACP is not")], [False, True])
    for end, word in (".json", '"partner_key":'), ("-text.txt", "ad_partner_key "):
        said = told_of_two(*(status(f"healthy-ip{end}").replace(f"{word}15", f"{word}{key}") for key in (110, 120)))
        tests.same(f"a copied identifier, healthy-ip{end}", said.partition("\n")[0], f"2 of 2 links carry. Both texts {COPIED.format(1)}.")
    said = told_of_two(bond, bond.replace("HW addr: 02:00:00:01:0a", "HW addr: 02:00:00:01:0c").replace("port number: 1\n", "port number: 7\n", 2))
    tests.same("no copied identifier: partners of one group", ["another identifier" in said, "remark: two texts have one system" in said], [False, True])
    one = told_of(f"{show}\n{show}")[1]
    tests.same("the system of two bundles is printed once", [one.count("02-00-00-03-0a-01"), "All are of the system 02-00-00-03-0a-01." in one, "far end's" in one], [1, True, False])
    tests.same("keys of one text are judged", told_of(status("keys-bonding.txt"))[1].partition("\n")[0], "1 of 2 links carries. Keys differ within one pair of systems: p1, p2.")
    loop = told_of(team.replace("02:00:00:02:0b:01", "02:00:00:02:0a:01"))[1]
    tests.same("of teamd it is said what gives an identifier", ["rule 30" in loop, WAYS in loop], [True, True])


def of_unused(tests: Tests) -> None:
    """A port that Open vSwitch does not use, whatever its state says, and why."""
    head, last = status("healthy-open-vswitch.txt").split("member: p2:")
    last, states = last.replace("may_enable: true", "may_enable: false"), "activity timeout aggregation synchronized collecting distributing"
    for name, state, line in (
        ("and is not attached there", "activity timeout aggregation", "the other end has not attached it"),
        ("and is attached there", states, "this end has attached it, and says may_enable: false"),
    ):
        said = told_of(f"{head}member: p2:{last.replace(f'partner state: {states}', f'partner state: {state}')}")[1]
        found = [COLLECTS in said, "it distributes" in said, said.split("\n")[1].split("does not carry: ")[-1]]
        tests.same(f"a port with may_enable: false says that it distributes, {name}", found, [False, False, line])
    keys = status("keys-open-vswitch.txt")
    cases = {"its partner has key 143, and 79 on p1": keys, "its partner is 02-00-00-03-bb-bb": keys.replace("partner sys_id: 02:00:00:03:bb:bb", "partner sys_id: 02:00:00:03:cc:cc", 1)}
    for why, text in cases.items():
        line = told_of(text)[1].split("\n")[1].split("does not carry: ")[-1]
        tests.same(f"a port that is detached: {why}", line, f"this end has not attached it: {why}")
    tests.same("of a port that is used it is said", COLLECTS in told_of(second_port(61, 5))[1], True)


def of_unheard(tests: Tests) -> None:
    """Where nobody was ever heard; where one link is deaf; and what to look at first where the state of links is not said."""
    for name in "silent-teamd.json", "static-bonding.txt":
        tests.same(f"{name}: nobody was ever heard", told_of(status(name))[1].partition("\n")[0].endswith(UNHEARD), True)
    tests.same("one link of two hears nobody", told_of(status("deaf-bonding.txt"))[1].partition("\n")[0], "1 of 2 links carries. A port hears nobody: p2.")
    show, states = status("healthy-open-vswitch.txt"), "activity timeout aggregation synchronized collecting distributing"
    said = told_of(show.replace(states, f"{states} defaulted").replace("current attached", "defaulted detached").replace("may_enable: true", "may_enable: false"))[1]
    tests.same("of Open vSwitch the link comes first", [UNHEARD in said, -1 < said.find("ip link") < said.find("channel-group")], [True, True])
    own = told_of(status("own-bonding.txt"))[1]
    tests.same("what is an effect asks nothing", ["likely effect: a port hears nobody: p1, p2" in own, UNHEARD in own], [True, False])


def of_several(tests: Tests) -> None:
    """Two bonds in one text: each has its cause in the first line, the bond that is down first."""
    other = {name: status(name).replace("Slave Interface: p", "Slave Interface: q").replace("02:00:00:01:0a:", "02:00:00:01:0d:") for name in ("healthy-bonding.txt", "static-bonding.txt")}
    keys, down = status("keys-bonding.txt"), other["healthy-bonding.txt"].replace("MII Status: up\nSpeed", "MII Status: down\nSpeed")
    differ = "keys differ within one pair of systems: p1, p2."
    for name, pair, at in ("first", [down, keys], 2), ("last", [keys, down], 1):
        first = told_of("\n".join(pair))[1].partition("\n")[0]
        tests.same(f"the bond that is down stands {name}", first, f"1 of 4 links carries, in 2 bundles. The link of q1, q2 is down. In bond {at} of the text: {differ}")
    said = told_of(f"{keys}\n{other['static-bonding.txt']}")[1]
    tests.same("one of two bonds never heard anybody", UNHEARD.replace("link:", "link of bond 2 of the text:") in said.partition("\n")[0], True)
    tests.same("the keys of another bond are not named", ["p1: key 79; p2: key 143\n" in said, "q1" in said.partition("several keys")[2].partition("\n")[0]], [True, False])


def of_bonds_alike(tests: Tests) -> None:
    """Two bonds of one host with the same cause, at systems of their own: each has its cause, with its ports and what to do, and its links have its name."""
    cases = {
        "keys, at one port": ("keys-bonding.txt", "keys differ within one pair of systems", "p1: key 79; p2: key 143", "{} name one port of one system"),
        "keys, at two ports": ("keys-bonding.txt", "keys differ within one pair of systems", "p1: key 79; p2: key 143", "Put the other ends of these ports into one group there"),
        "two systems": ("third-bonding.txt", "links lead to two systems", "p1: ", "Cable these links to one system"),
    }
    for name, (file, title, seen, advice) in cases.items():
        one = status(file)
        if "two ports" in name:
            before, part, rest = one.rpartition("details partner lacp pdu:")
            one = f"{before}{part}{rest.replace('port number: 1', 'port number: 2')}"
        other = re.sub("((?:[0-9a-f]{2}:){4}[0-9a-f]{2}):(?!00:00)", lambda it: f"{it[1][:-2]}{int(it[1][-2:], 16) ^ 64:02x}:", one).replace("Interface: p", "Interface: q")
        ended, said = told_of(f"==> /proc/net/bonding/bond0 <==\n{one}\n==> /proc/net/bonding/bond1 <==\n{other}")
        wanted = [f"\n{at}. in {bond}: {title}: {port}1, {port}2 (rule " in said for at, bond, port in ((1, "bond0", "p"), (2, "bond1", "q"))]
        seens = [said.count(seen.replace("p", port)) for port in "pq"]
        tests.same(f"two bonds, {name}", [ended, *wanted, *seens, *(advice.format(f"{port}1, {port}2") in said for port in "pq"), f"\n3. {title}" in said], [1, True, True, 1, 1, True, True, False])
        tests.same(f"two bonds, {name}: advice", said.count(advice.format("p1, p2")) + said.count(advice.format("q1, q2")), 2 if "{}" in advice else 4)
        lines = re.findall(r"^  (bond\d [pq]\d)(?: and (bond\d [pq]\d): carry)?", said, re.M)
        tests.same(f"two bonds, {name}: lines", sorted(it for pair in lines for it in pair if it), [f"bond{at} {port}{number}" for at, port in enumerate("pq") for number in (1, 2)])


def of_bonds_apart(tests: Tests) -> None:
    """Two bonds of one host with a cause each; one that is healthy, beside a broken one; and two that lead to one group there, which is one cause of both."""
    files = {name: status(f"{name}-bonding.txt") for name in ("keys", "deaf", "healthy")}
    keys, deaf = "in {}: keys differ within one pair of systems: {}", "in {}: a port hears nobody: {}"
    cases = (("keys", "deaf", 2, [keys.format("bond0", "p1, p2"), deaf.format("bond1", "q2")]), ("healthy", "keys", 3, [keys.format("bond1", "q1, q2")]),
             ("healthy", "healthy", 4, ["bond0 and bond1 lead to one group at the other end: p1, p2, q1, q2"]))  # fmt: skip
    for here, beside, carry, causes in cases:
        other = files[beside].replace("Interface: p", "Interface: q").replace("02:00:00:01:0a:", "02:00:00:01:0d:")
        ended, said = told_of(f"==> /proc/net/bonding/bond0 <==\n{files[here]}\n==> /proc/net/bonding/bond1 <==\n{other}")
        head = " ".join(f"{it[0].upper()}{it[1:]}." for it in causes)
        found = [ended, said.partition("\n")[0], re.findall(r"^\d\. (?!remark)(.*) \(rule", said, re.M)]
        tests.same(f"two bonds, {here} and {beside}", found, [1, f"{carry} of 4 links carry, in 2 bundles. {head}", causes])


def of_team_text(tests: Tests) -> None:
    """The text that teamdctl prints for people has no LACPDUs."""
    lines = "setup:", "  runner: lacp", "ports:", "  p1", "    link watches:", "      link summary: up", "    runner:", "      aggregator ID: 2, Selected", "      state: current"
    for name, text in ("plain", "\n".join(lines)), ("with a prompt", "\n".join(["root@host:~# teamdctl team0 state", *lines])):
        tests.same(f"teamdctl team0 state, {name}", told_first_of(text), [2, "This text of teamdctl lacks the LACPDUs: give teamdctl team0 state dump."])
    tests.same("another runner", told_of("\n".join(lines).replace("lacp", "roundrobin"))[1].partition("\n")[0], 'This team does not speak LACP: its runner is "roundrobin".')


def of_judged(tests: Tests) -> None:
    for it in of_copies, of_unused, of_unheard, of_several, of_bonds_alike, of_bonds_apart, of_team_text:
        it(tests)
