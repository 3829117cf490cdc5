"""Tests of what the page says of a status: the texts of examples/status, as a file, pasted, cut, and of both ends."""

from __future__ import annotations

import csv
import json
import os
import subprocess
import tempfile

import made
from browser import Browser
from repository import TOOLS, read_text
from stored import CAPTURES, EXAMPLES, Tests, captures

STATUS = os.path.join(EXAMPLES, "status")
EXPLAIN = os.path.join(TOOLS, "lagtool.d", "explain.mjs")
SAID = "[document.getElementById('verdict').textContent, document.querySelector('#findings strong')?.textContent ?? '', document.getElementById('said').textContent]"
CUTS = 16


def pasted(browser: Browser, here: str, there: str = "") -> list[str]:
    """What is said of texts in both boxes: the headline, the first cause or remark, and why a text is refused."""
    fill = "; ".join(f"document.getElementById('{name}').value = {json.dumps(text)}" for name, text in (("here", here), ("there", there)))
    browser.value(f"window.shown = null; {fill}; document.getElementById('here').dispatchEvent(new Event('input')); 1")
    browser.wait("window.shown")
    said: list[str] = browser.value(SAID)
    return said


def truths() -> list[dict[str, str]]:
    with open(os.path.join(STATUS, "truths.tsv"), encoding="utf-8", newline="") as it:
        return list(csv.DictReader(it, delimiter="\t"))


def status(name: str) -> str:
    """A text of examples/status."""
    return read_text(os.path.join(STATUS, name))


def explain(*words: str, given: str = "") -> subprocess.CompletedProcess[str]:
    """lagtool explain with these words, and what it is given."""
    return subprocess.run(["node", EXPLAIN, *words], input=given, capture_output=True, text=True)


def told_of(text: str) -> tuple[int, str]:
    """The status of lagtool explain of a text, and all that it prints."""
    ended = explain("-", given=text)
    return ended.returncode, ended.stdout


def told_first(ended: subprocess.CompletedProcess[str]) -> list[object]:
    """The status of lagtool explain, and the headline."""
    return [ended.returncode, ended.stdout.partition("\n")[0]]


def told_first_of(text: str) -> list[object]:
    """The same of a text."""
    return told_first(explain("-", given=text))


def told_of_two(here: str, there: str) -> str:
    """What lagtool explain prints of two texts."""
    with tempfile.NamedTemporaryFile("w", suffix=".txt") as one, tempfile.NamedTemporaryFile("w", suffix=".txt") as other:
        for file, text in (one, here), (other, there):
            file.write(text)
            file.flush()
        return explain(one.name, other.name).stdout


def of_explain(tests: Tests, browser: Browser) -> None:
    """lagtool explain says what the page says."""
    for name in captures():
        path = os.path.join(CAPTURES, name)
        browser.choose(path)
        tests.same(f"{name}: explain says the same", told_first(explain(path))[1], browser.value("document.getElementById('verdict').textContent"))
    for row in truths():
        paths = [os.path.join(STATUS, row[name]) for name in ("text", "other end") if row[name]]
        tests.same(f"{row['text']}: explain says the same", told_first(explain(*paths))[1], pasted(browser, *map(read_text, paths))[0])


def of_words(tests: Tests) -> None:
    """lagtool explain reads standard input, and says why a file cannot be read."""
    text, capture = os.path.join(STATUS, "keys-bonding.txt"), os.path.join(CAPTURES, "bonding.pcap")
    with open(text, encoding="utf-8") as it:
        piped = subprocess.run(["node", EXPLAIN, "-"], stdin=it, capture_output=True, text=True)
    tests.same("explain reads standard input", told_first(piped), [1, told_first(explain(text))[1]])
    for path, why in (os.path.join(STATUS, "none.txt"), "no such file"), (STATUS, "is a folder"):
        ended = explain(path)
        tests.same(f"explain: {why}", [ended.returncode, ended.stderr], [2, f"lagtool: cannot read {path}: {why}\n"])
    ended = explain(text, capture)
    apart = "lagtool: captures and texts are explained apart: give bonding.pcap without keys-bonding.txt\n"
    tests.same("explain of a text and a capture says what to give", [ended.returncode, ended.stderr], [2, apart])
    for given in ["explain", "--help"], ["--help"]:
        ended = subprocess.run([os.path.join(TOOLS, "lagtool"), *given], stdin=subprocess.DEVNULL, capture_output=True, text=True)
        found = [ended.returncode, ended.stderr, "  lagtool explain FILE..  " in ended.stdout]
        tests.same(f"lagtool {' '.join(given)} has the words of explain", found, [0, "", True])


def of_endings(tests: Tests) -> None:
    """The status of explain: each link carries, something is found, or there is no LACPDU."""
    wanted = {"healthy-bonding.txt": 0, "healthy-lagd.txt": 0, "keys-bonding.txt": 1, "static-bonding.txt": 1, "setdown-ip.json": 1, "healthy-bonding-user.txt": 2}
    tests.same("explain ends with the status of what is found", {name: told_of(status(name))[0] for name in wanted}, wanted)
    whole = status("healthy-bonding.txt")
    tests.same("a bond without LACP is a finding", told_of(whole.replace("IEEE 802.3ad Dynamic link aggregation", "load balancing (xor)"))[0], 1)
    tests.same("a text that is cut has no LACPDU to judge", told_of(whole[: len(whole) // 2])[0], 2)
    with tempfile.NamedTemporaryFile(suffix=".pcap") as it:
        made.pcap(it.name, [])
        tests.same("a capture without an LACPDU ends with 2", explain(it.name).returncode, 2)
    hears = os.path.join(CAPTURES, "bonding.pcap")
    tests.same("a link that does not carry, without a cause, is a finding", explain(hears).returncode, 1)


def of_programs(tests: Tests) -> None:
    """Each text is told in the words of its program, once, and in whole sentences."""
    said = {row["text"]: told_of(status(row["text"]))[1] for row in truths()}
    tests.same("commands of Open vSwitch stand at its texts alone", [name for name, text in said.items() if "ovs-" in text and "open-vswitch" not in name], [])
    tests.same("a text without root says once how it is read", said["healthy-bonding-user.txt"].count("sudo cat"), 1)
    tests.same("nothing came 1 times", [name for name, text in said.items() if " 1 times" in text], [])
    failed = status("healthy-bonding.txt").replace("Link Failure Count: 0", "Link Failure Count: 1", 1)
    tests.same("a link failed once", "p1: its link failed once since the bond has it" in told_of(failed)[1], True)
    partner = "the partner of q2 says that it is synchronized, and this end does not"
    tests.same("of an end that attached nothing it is said who did not", partner in told_of(status("standby-bonding.other.txt"))[1], True)
    keys = said["keys-bonding.txt"]
    tests.same("two boxes that are one system are one finding", ["two boxes have one system" in keys, "channel-group" in keys, "remark: p1, p2 name" in keys], [True, False, False])
    churned = said["churned-bonding.txt"]
    tests.same("who churns for 60 s does not start", ["Look again in 10 s" in churned, "It has been so for 60 s or more" in churned], [False, True])


def of_waiting(tests: Tests) -> None:
    """A link that is back, and that lagd does not use yet, is no fault, and does not carry; another one that is down is."""
    word = "1 of 2 links carries. The link of p2 is back, and waits until its carrier was steady for so long (wait-to-restore): it is not used before."
    text, line = (status(f"waiting-lagd{end}") for end in (".txt", "-json.json"))
    for form, it in ("text", text), ("JSON", line):
        ended, said = told_of(it)
        found = [ended, said.partition("\n")[0], "\n1. remark: the link of p2 is back" in said, "down" in said]
        tests.same(f"a link that waits, as {form}", found, [1, word, True, False])
    both = told_of(text.replace("link: up", "link: down").replace("may_enable: true", "may_enable: false"))[1]
    found = [both.partition("\n")[0], "remark: the link of p2 is back" in both]
    tests.same("beside one that is down", found, ["0 of 2 links carry. The link of p1 is down.", True])


def of_away(tests: Tests) -> None:
    """A link whose carrier is away, and that lagd takes as up, is no fault, and does not carry."""
    away, word = "its carrier is away, for less than delay-down so far", "1 of 2 links carries. The carrier of p2 is away, and LACP takes the link as up (delay-down): it passes nothing now."
    head, last = status("healthy-lagd.txt").split("member: p2:")
    shown = f"{head}member: p2:{last.replace('it distributes', away).replace('link: up', 'link: away')}"
    head, last = status("healthy-lagd-json.json").split('{"port":2,')
    line = head + '{"port":2,' + last.replace("it distributes", away).replace('"link":"up"', '"link":"away"')
    for form, text in ("text", shown), ("JSON", line):
        ended, said = told_of(text)
        tests.same(f"a carrier that is away for a moment, as {form}", [ended, said.partition("\n")[0], "\n1. remark: the carrier of p2 is away" in said], [1, word, True])


def of_a_device_that_is_down(tests: Tests) -> None:
    """While the device of lagd is down its ports say so: that is the cause, not their cables."""
    word, told = "0 of 2 links carry. The device of the bundle", "LACP has ended on p1, p2."
    off = status("healthy-lagd.txt").replace("it distributes", "the device is down").replace("link: up", "link: down").replace("may_enable: true", "may_enable: false")
    line = status("healthy-lagd-json.json").replace("it distributes", "the device is down").replace('"link":"up"', '"link":"down"').replace('"carries":true', '"carries":false')
    for form, text in ("text", off), ("JSON", line):
        first = told_of(text)[1].partition("\n")[0]
        tests.same(f"a device that is down, as {form}", [first.startswith(word), first.endswith(told), "cable" in first], [True, True, False])


def of_held(tests: Tests) -> None:
    """A link that lagd holds is said to be held, and not that it waits, or that the other end is ahead of it."""
    text, line = status("healthy-lagd.txt"), status("healthy-lagd-json.json")
    bits = {"aggregation synchronization collecting distributing": "aggregation", '"aggregation","synchronization","collecting","distributing"': '"aggregation"'}

    def held(part: str) -> str:
        """The part of a port as it is while lagd holds that: its own state is the first."""
        for was, now in {"it distributes": "the host holds it", "may_enable: true": "may_enable: false", '"carries":true': '"carries":false', "  aggregator: 1": "  aggregator: 0",
                         '"aggregator":1': '"aggregator":0', **bits}.items():  # fmt: skip
            part = part.replace(was, now, 1)
        return part.replace("collecting distributing", "").replace(',"collecting","distributing"', "")

    for form, it, between in ("text", text, "member: "), ("JSON", line, '{"port":'):
        head, first, second = it.split(between)[:3]
        rest = it.split(between)[3:]
        one, both = (between.join([head, *parts, *rest]) for parts in ([first, held(second)], [held(first), held(second)]))
        for count, shown, who in ("1 of 2 links carries", one, ["p2"]), ("0 of 2 links carry", both, ["p1", "p2"]):
            ended, said = told_of(shown)
            found = [ended, said.partition("\n")[0], "; ".join(f"lagd --release {name}" for name in who) + ". If" in said, "Look again" in said, "it waits" in said]
            tests.same(f"{len(who)} of 2 held, as {form}", found, [1, f"{count}. The host holds {', '.join(who)} out of use.", True, False, False])


def of_set_down(tests: Tests) -> None:
    """A link that is set down here is to be set up first; where the text does not tell that, both are said; a link that is up by its flags has its cable."""
    cable, both = "there: look at the cable", "there: if it is set down here, ip link set p2 up; else look at the cable"
    shown = status("minlinksdown-ip-text.txt")
    links = json.loads(status("healthy-ip.json"))
    data = links[2]["linkinfo"]["info_slave_data"]
    data["mii_status"], links[2]["flags"] = "DOWN", ["BROADCAST", "MULTICAST", "SLAVE"]
    data["ad_actor_oper_port_state"] = data["ad_partner_oper_port_state"] = 7
    for form, text in ("text", shown.replace("<NO-CARRIER,BROADCAST,MULTICAST,SLAVE,UP>", "<BROADCAST,MULTICAST,SLAVE>")), ("JSON", json.dumps(links)):
        ended, said = told_of(text)
        wanted = [1, "1 of 2 links carries. The link of p2 is set down here.", "p2: does not carry: its link is set down here", True, False]
        found = [ended, *(it.strip() for it in said.split("\n")[:2]), "\n   ip link set p2 up\n" in said, "cable" in said]
        tests.same(f"a link that is set down, as ip's {form}", found, wanted)
    for name, word in ("minlinksdown-ip-text.txt", cable), ("down-lagd.txt", both), ("down-bonding.txt", both):
        tests.same(f"{name}: what is looked at first", word in told_of(status(name))[1], True)


def of_nothing(tests: Tests) -> None:
    """A bundle of lagd without links is whole; a text without a bond, and one that is empty, have nothing to read."""
    head = status("healthy-lagd.txt").split("member: ")[0].replace("up, 2 of 2", "down, 0 of 0")
    line = json.loads(status("healthy-lagd-json.json"))
    empty = json.dumps({**line, "state": "down", "links": 0, "carrying": 0, "aggregator": 0, "ports": []}, separators=(",", ":"))
    for form, text in ("text", head), ("JSON", empty):
        tests.same(f"a bundle without links, as {form}", told_first_of(text), [1, "The bundle p1 has no links."])
    tests.same("one that is cut behind its head is cut", told_of(head.replace("0 of 0", "0 of 2"))[0], 2)
    alone = json.dumps(json.loads(status("healthy-ip.json"))[:1])
    tests.same("a text without a bond", told_first_of(alone), [2, "No bond is in this text."])
    for text in "", "\n":
        run = explain("-", given=text)
        tests.same(f"an input of {len(text)} octets", [run.returncode, run.stdout, run.stderr], [2, "", "lagtool: the input is empty: did the command before it fail?\n"])


def of_speeds(tests: Tests) -> None:
    """Where keys differ because speeds do, the speeds come first, and the keys below them; else the keys."""
    text = status("speeds-bonding.txt")
    text = text.replace("oper key: 9", "oper key: 5").replace("oper key: 7", "oper key: 5")
    one_there = told_of(text)[1]
    first, keys = "1 of 2 links carries. The links of the bond differ in speed or duplex.", "keys differ within one pair of systems"
    tests.same("speeds explain keys", [one_there.partition("\n")[0], f"likely effect: {keys}" in one_there], [first, True])
    tests.same("the slow link is named", "look at ethtool p2 (what" in one_there, True)
    other = told_of(text.replace("Speed: 100 Mbps", "Speed: 1000 Mbps"))[1]
    tests.same("keys that differ at one speed come first", other.partition("\n")[0], "1 of 2 links carries. Keys differ within one pair of systems: p1, p2.")


def of_no_speed(tests: Tests) -> None:
    """A link whose device reports no speed: who that is, and what sets one; where bonding takes it as down, the same behind the cable."""
    text, ways = read_text(os.path.join(STATUS, "nospeed-bonding.txt")), "ip link set p2 down; ethtool -s p2 speed {} duplex full; ip link set p2 up"
    told = """1 of 2 links carries. The device of p2 reports no speed, and bonding leaves such a link out.
  p2: does not carry: its device reports no speed
  p1 (partner 02-00-00-01-0b-01 port 1): carries, as this end says
1. the device of p2 reports no speed, and bonding leaves such a link out
   Look at ethtool p2. On a virtual card set one, that of the other links: ip link set p2 down; ethtool -s p2 speed 10000 duplex full; ip link set p2 up
   likely effect: a port hears nobody: p2
"""
    tests.same("a device that reports no speed", told_of(text), (1, told))
    slow = told_of(text.replace("10000 Mbps", "1000 Mbps"))[1]
    tests.same("the speed of the other links is set", [ways.format(1000) in slow, "differ in speed" in slow], [True, False])
    down = told_of(text.replace("MII Status: up\nSpeed: Unknown", "MII Status: down\nSpeed: Unknown"))[1]
    found = [down.partition("\n")[0], f"If ip link says LOWER_UP of p2, the device reports no speed, and bonding takes such a link as down: {ways.format(10000)}" in down]
    tests.same("a link without a speed that is down", found, ["1 of 2 links carries. The link of p2 is down.", True])
    head, last = text.split("Slave Interface: p2")
    both = told_of(f"{head.replace('10000 Mbps', 'Unknown').replace('Duplex: full', 'Duplex: Unknown')}Slave Interface: p2{last}")[1]
    tests.same("a link that carries has a speed, whatever its text says", "The device of p2 reports no speed" in both, True)


def of_counts(tests: Tests) -> None:
    """What to do where the counts of a member are not 0."""
    text = read_text(os.path.join(STATUS, "healthy-bonding.txt"))
    failed = "If that count grows, the carrier of p1 comes and goes: look at journalctl -k, at the errors of ethtool -S p1, at optics and cable."
    churned = "If a Churned Count grows and the Link Failure Count does not, the carrier stays, and LACPDUs are likely lost: capture."
    for name, old, advice in ("failed", "Link Failure Count: 0", failed), ("churned", "Partner Churned Count: 0", churned):
        said = told_of(text.replace(old, old.replace("0", "7"), 1))[1].splitlines()
        at = next(number for number, line in enumerate(said) if ". remark: p1: " in line)
        tests.same(f"a link that {name} 7 times", said[at + 1], f"   {advice}")
    for name, it in ("without such counts", text), ("that failed once", text.replace("Link Failure Count: 0", "Link Failure Count: 1", 1)):
        tests.same(f"a link {name}", "If that count" in told_of(it)[1] or "Churned" in told_of(it)[1], False)


def of_a_limit(tests: Tests) -> None:
    """Where the end that has not attached a link says why, no other cause of it is named."""
    ours, theirs = (os.path.join(STATUS, f"standby-bonding{it}.txt") for it in ("", ".other"))
    both = subprocess.run(["node", EXPLAIN, ours, theirs], stdin=subprocess.DEVNULL, capture_output=True, text=True).stdout
    why, over = "its aggregator has no room for one more link (max-links)", "It takes over when a link in use fails; to use it beside them, set max-links higher at that end."
    alone = {name: told_of(read_text(path))[1] for name, path in (("ours", ours), ("theirs", theirs))}
    for name, said, line in ("both texts", both, f"   What the far end's q2 says of it: {why}. {over}"), ("its own text", alone["theirs"], f"   What q2 says of it: {why}. {over}"):
        tests.same(f"a link beyond a limit, by {name}", [line in said.splitlines(), "has chosen another aggregator" in said, "Look again" in said], [True, False, False])
    tests.same("a link beyond a limit, by the text that lacks it", "the other end has chosen another aggregator, or has links enough (switch: max links). Look at its status." in alone["ours"], True)


def of_partners(tests: Tests) -> None:
    """How the partner of a port that is not used differs: its system priority, or it is individual."""
    head, last = status("keys-bonding.txt").split("Slave Interface: p2")
    own, partner = last.replace("oper key: 143", "oper key: 79").rsplit("details partner", 1)
    partner = partner.replace("port number: 1", "port number: 2")
    cases = {
        "Links lead to one address with several system priorities: p1, p2.":
            (partner.replace("65535", "4096"), "its partner has the system priority 4096, and 65535 on p1", "give the far end one LACP system priority"),
        "One end is individual: the other end of p2.":
            (partner.replace("state: 15", "state: 11"), "1 is in use: the other end is individual", "Set the port of the other end to full duplex"),
    }
    for first, (there, line, advice) in cases.items():
        said = told_of(f"{head}Slave Interface: p2{own}details partner{there}")[1]
        tests.same(f"of a partner: {first}", [said.partition("\n")[0], line in said, advice in said], [f"1 of 2 links carries. {first}", True, True])


def second_port(own: int, there: int, key: int = 15, port: int = 2) -> str:
    """A bond of two links: what it says of the second one: the states of both ends, and of its partner the key and the port."""
    head, last = status("healthy-bonding.txt").split("Slave Interface: p2")
    before, partner = last.rsplit("details partner", 1)
    for name, now, value in ("oper key", 15, key), ("port number", 2, port), ("port state", 63, there):
        partner = partner.replace(f"{name}: {now}", f"{name}: {value}")
    before = before.replace("Aggregator ID: 1", f"Aggregator ID: {1 if key == 15 else 2}").replace("port state: 63", f"port state: {own}")
    return f"{head.replace('ports: 2', 'ports: 1')}Slave Interface: p2{before}details partner{partner}"


def of_partner_states(tests: Tests) -> None:
    """What the states of both ends tell: who hears nobody, whether LACP is on there, and what the other end does with the link."""
    cases = {
        "the other end is deaf": (13, 69, "The far end of p2 does not hear this end.", "the other end said that it hears nobody",
                                  "so LACP is on there, and it does not hear those of this end."),
        "the other end stopped": (135, 63, "A port hears nobody: p2.", "it hears nobody now",
                                  "p2 heard 02-00-00-01-0b-01 port 2 before: look what changed at that port, or on the path from there."),
        "the other end does not collect": (61, 5, "It distributes, and the other end does not collect: p2.",
                                           "one way: this end uses it, and the other end does not collect", "Look at its status."),
        "this end waits": (7, 15, "The partner of p2 says that it is synchronized, and this end does not.",
                           "this end has not attached it: it waits for an aggregator, or the 2 s before it attaches", ""),
    }  # fmt: skip
    for name, (own, there, cause, why, advice) in cases.items():
        headline, line, _, _, told, *_ = told_of(second_port(own, there))[1].split("\n")
        wanted = [f"1 of 2 links carries. {cause}", why, True, False]
        tests.same(name, [headline, line.split("does not carry: ")[-1], advice in told, "channel-group" in told], wanted)
    deaf = status("deaf-bonding.txt").replace(":0b:", ":0c:").replace(":0a:", ":0b:").replace(":0c:", ":0a:").replace("p2", "q2")
    both = told_of_two(second_port(13, 69), deaf)
    tests.same("the same with the text of the deaf end", ["both texts have LACP, and the far end's q2 does not hear p2." in both, "channel-group" in both], [True, False])
    far = "The numbers of the ports there lie far apart"
    for port, is_two in (3, False), (32770, True):
        said = told_of(second_port(7, 15, 16, port))[1]
        found = [it in said for it in (far, "one MLAG number", "each has another partner, key or speed")]
        tests.same(f"keys that differ, with port {port} there", found, [is_two, True, False])
    for name, word in ("third-bonding.txt", "mode=active-backup"), ("third-teamd.json", "the runner activebackup"):
        said = told_of(status(name))[1]
        words = f"without MLAG: {word}, which needs no LACP", "take both ports there out of their LACP groups", "want a bond each", "ether proto 0x88cc"
        tests.same(f"{name}: what goes without MLAG, and how a switch is found", [it in said for it in words], [True] * 4)
    receiver = "If it asks for one each second, and one comes each 30 s, that end hears nobody, either"
    tests.same("of bonding that hears nobody: what a capture then says", receiver in told_of(status("deaf-bonding.txt"))[1], True)


def of_one_file(tests: Tests) -> None:
    """Several statuses in one file: it is said that they are there, and what to do where they are both ends of links."""
    names = "bonding.txt", "bonding.other.txt", "ip.json", "ip-text.txt", "teamd.json", "lagd.txt"
    whole = {name: status(f"healthy-{name}") for name in names}
    plain = status("healthy-bonding-user.txt")
    tests.same("two statuses without LACPDUs are not said to be both ends", "remark: 2 bundles are in one text" in told_of(f"{plain}\n{plain}")[1], True)
    both = "both ends of links are in one text"
    for one, other, word in ("bonding.txt", "bonding.other.txt", both), *((it, it, "2 bundles are in one text") for it in names[2:]):
        said = told_of(f"{whole[one]}\n{whole[other]}")[1]
        tests.same(f"two statuses in one file: {one}", [said.partition(".")[0], f"remark: {word}" in said], ["4 of 4 links carry, in 2 bundles", True])


def of_hashes(tests: Tests) -> None:
    """The policy of the hash that a text names, and what it means."""
    def head(name: str) -> str:
        return "2 of 2 links carry. LACP is not your trouble, if the other end says so, too. One flow has the speed of one link: the hash " + f"({name}) chooses it."

    bond, machine, connection = status("healthy-bonding.txt"), "By it all that it sends to one machine goes over one link", "By it each connection goes over one link"
    config = json.dumps({"device": "team0", "runner": {"name": "lacp", "tx_hash": ["eth", "ipv4", "ipv6"]}}, indent=4)
    backup = status("backup-open-vswitch.txt")
    cases = {
        "xmit_hash_policy layer2": (bond, machine),
        "xmit_hash_policy layer3+4": (bond.replace("layer2 (0)", "layer3+4 (1)"), connection),
        "tx_hash eth, ipv4, ipv6": (f"{status('healthy-teamd.json')}\n{config}\n", machine),
        "hash layer2+3": (status("healthy-lagd.txt").replace("\n\n", "\n  carry: lag0, carrier on, hash layer2+3, flight 10 ms, the kernel\n\n", 1), machine),
        "bond_mode balance-tcp": (backup.replace("bond_mode: active-backup", "bond_mode: balance-tcp"), connection),
    }
    for name, (text, meaning) in cases.items():
        said = told_of(text)[1]
        tests.same(f"the hash is named: {name}", [said.partition("\n")[0], meaning in said], [head(name), True])
    tests.same("of a configuration alone the state is asked for", [told_of(config)[0], "state dump has the state" in told_of(config)[1]], [2, True])
    shown = backup[backup.rindex("---- bond0 ----") :]
    tests.same("so are the LACPDUs of bond/show alone", [told_of(shown)[0], "ovs-appctl lacp/show has them" in told_of(shown)[1]], [2, True])


def of_passive(tests: Tests) -> None:
    """What sets a passive end to active, in the words of its program, with the name of the bond where the text has it."""
    bond, links = status("healthy-bonding.txt").replace("port state: 63", "port state: 62"), json.loads(status("healthy-ip.json"))
    for it in links[1:3]:
        it["linkinfo"]["info_slave_data"]["ad_actor_oper_port_state"] = it["linkinfo"]["info_slave_data"]["ad_partner_oper_port_state"] = 62
    show = status("healthy-open-vswitch.txt").replace(": activity ", ": ")
    team, lagd = (status(f"healthy-{it}") for it in ("teamd.json", "lagd.txt"))
    cases = {
        "bonding": (bond, "ip link set BOND down; ip link set BOND type bond lacp_active on; ip link set BOND up"),
        "bonding, named": (f"==> /proc/net/bonding/bond7 <==\n{bond}", "ip link set bond7 type bond lacp_active on"),
        "ip": (json.dumps(links), "ip link set bond0 type bond lacp_active on"),
        "teamd": (team.replace('"state": 61', '"state": 60').replace('"state": 63', '"state": 62'), '"active": false in its runner'),
        "Open vSwitch": (show, "lacp=active"),
        "lagd": (lagd.replace(": activity ", ": "), "activity=active, and a reload"),
    }
    for name, (text, command) in cases.items():
        said = told_of(text)[1]
        tests.same(f"two passive ends, by {name}", [said.partition("\n")[0].startswith("0 of 2 links carry. Both ends are passive:"), command in said], [True, True])
    one = status("passive-bonding.txt")
    tests.same("a passive end that hears nobody", "type bond lacp_active on" in told_of(one)[1], True)


def of_names(tests: Tests) -> None:
    """Bonds have the names that tail writes before them; without these they are counted."""
    keys, down = (status(f"{it}-bonding.txt") for it in ("keys", "passive"))
    down = down.replace("02:00:00:01:0a:", "02:00:00:01:0d:")
    named = f"==> /proc/net/bonding/bond0 <==\n{keys}\n==> /proc/net/bonding/up link <==\n{down}"
    said, counted = told_of(named), told_of(f"{keys}\n{down}")
    found = ["The bond bond0 is of the system" in said[1], "the bond up link is of the system" in said[1], "Bond 1 of the text is" in counted[1], "of the text" in said[1]]
    tests.same("bonds by their names", [*found, said[0], said[1].partition("\n")[0] == counted[1].partition("\n")[0].replace("bond 1 of the text", "bond0").replace("bond 2 of the text", "up link")], [True, True, True, False, 1, True])
    alone = told_of(f"==> /proc/net/bonding/bond0 <==\n{keys}")
    tests.same("a bond that is alone, by its name", alone, told_of(keys))
    static = f"==> bond4 <==\n{keys.replace('IEEE 802.3ad Dynamic link aggregation', 'load balancing (xor)')}"
    tests.same("which bond speaks no LACP", told_of(static)[1].partition("\n")[0], 'The bond bond4 does not speak LACP: its mode is "load balancing (xor)".')


def of_lines(tests: Tests) -> None:
    """Lines of a bond that are not known change nothing; without one that says whether a link is up, or of an LACPDU, nothing is judged."""
    bond = status("healthy-bonding.txt")
    tests.same("lines of another driver", told_of(bond.replace("LACP rate:", "New line: 5\nLACP rate:").replace("Slave queue", "New count: 7\nSlave queue")), told_of(bond))
    for name in "MII Status", "system priority", "system mac address", "port key", "oper key", "port priority", "port number", "port state":
        head, first, *others = bond.split("Slave Interface: ")
        lines = [it for it in first.split("\n") if not it.strip().startswith(f"{name}:")]
        ended, said = told_of("Slave Interface: ".join([head, "\n".join(lines), *others]))
        tests.same(f"a bond without the line {name}", [ended, said.partition(". ")[0]], [2, "The text is cut: the part of p1 is not whole"])


def of_order(tests: Tests) -> None:
    """Of bonding that hears nobody on a link the capture comes first, then what it tells."""
    said = told_of(status("deaf-bonding.txt"))[1]
    words = "timeout 100 tcpdump -i p2 -w p2.pcap", "LACPDUs of the other end come as often", "If it asks for one each second", "None comes: look whether the port at the other end", "show lacp counters"
    places = [said.find(it) for it in words]
    tests.same("of a deaf link the capture comes first", [-1 in places, places == sorted(places), said[places[0] :].count("\n") >= len(words) - 2], [False, True, True])


def of_texts(tests: Tests, browser: Browser) -> None:
    for row in truths():
        text, other = (status(row[name]) if row[name] else "" for name in ("text", "other end"))
        verdict, first, said = pasted(browser, text, other)
        cause = "" if first.startswith("Remark: ") else first
        right = verdict.startswith(row["links that carry"]) and (row["first cause"].lower() in cause.lower() if row["first cause"] else not cause) and not said
        tests.told(f"{row['text']}: the first cause is the truth", "" if right else f"{verdict} {first} {said}")
    of_ways(tests, browser)
    of_cuts(tests, browser)
    of_explain(tests, browser)
    for it in of_words, of_endings, of_programs, of_away, of_a_device_that_is_down, of_waiting, of_held, of_set_down, of_nothing, of_speeds, of_no_speed, of_counts, of_a_limit, of_partners, of_partner_states, of_passive, of_names, of_lines, of_order, of_one_file, of_hashes:
        it(tests)
    passive = status("healthy-bonding.txt").replace("port state: 63", "port state: 62")
    tests.same("two passive ends do not carry, as in a capture", pasted(browser, passive)[0], "0 of 2 links carry. Both ends are passive: p1, p2.")
    shown = browser.choose(os.path.join(STATUS, "keys-bonding.txt"))
    tests.same("a status that is a file is explained", [shown["status"], browser.value(SAID)[0].split(".")[0]], [1, "1 of 2 links carries"])
    browser.value("document.getElementById('here').value = document.getElementById('there').value = '', 1")


def of_ways(tests: Tests, browser: Browser) -> None:
    """As people paste: with other ends of lines, a prompt, marks of a quotation, indented."""
    for name in "keys-bonding.txt", "keys-open-vswitch.txt", "third-teamd.json", "down-lagd.txt":
        text = status(name)
        lines = text.split("\n")
        ways = ["\r\n".join(lines), f"root@host:~# cat it\n{text}\nroot@host:~# ", "\n".join(f"> {it}" for it in lines), "\n".join(f"    {it}" for it in lines)]
        plain = pasted(browser, text)
        tests.same(f"{name}: it is read alike, however it is pasted", [pasted(browser, it) for it in ways], [plain] * len(ways))


def of_cuts(tests: Tests, browser: Browser) -> None:
    """Of a text that is cut no cause is named."""
    for name in (it["text"] for it in truths() if it["text"].startswith("healthy-")):
        text, named = status(name), []
        for turn in range(1, CUTS):
            verdict, first, _ = pasted(browser, text[: len(text) * turn // CUTS])
            if first and not first.startswith("Remark: ") and "lacks the LACPDUs" not in first:
                named.append(f"{turn} of {CUTS}: {verdict}")
        tests.told(f"{name}: where it is cut, no cause is named", "; ".join(named))
    of_cut_bonds(tests)


def of_cut_bonds(tests: Tests) -> None:
    """A text of bonding that is cut behind its first port, or in the last line, is said to be cut, and where."""
    both, apart = (status(f"{it}-bonding.txt") for it in ("healthy", "keys"))
    first, begin, last = both.index("Slave Interface: p2"), apart.index("Slave Interface: p2"), apart.rstrip("\n")
    cut = "The text is cut: {}. Nothing is named: give all of it, with the line behind it."
    cases = {
        "of two ports of one aggregator": (both[:first].rstrip(), 2, cut.format("of the ports in aggregator 1 it has 1 of 2")),
        "in the line of a port": (apart[: begin + 9], 2, cut.format('"Slave Int" is its last line')),
        "in a port": (apart[: begin + 60], 2, cut.format("the part of p2 is not whole")),
        "in its last number": (last, 2, cut.format('its last line, "port state: 15", may go on')),
        "behind a number that is whole": (last[: -len("15")] + "0", 1, "1 of 2 links carries. Keys differ within one pair of systems: p1, p2."),
    }
    for name, (text, ended, said) in cases.items():
        tests.same(f"a text of bonding that is cut {name}", told_first_of(text), [ended, said])
    ended, told = told_of(apart[:begin])
    tests.same("of one port alone the page cannot tell, and says so", [ended, "If the bundle has more, the text is cut" in told], [0, True])
