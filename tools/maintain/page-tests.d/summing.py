"""Tests of what is said before all else: the headline, a line a link, the first cause, and what is folded. Each capture has one cause."""

from __future__ import annotations

import os
from typing import Any

import made
from browser import Browser
from stored import Tests
from texts import explain, told_first

LINES = ("[...document.querySelectorAll('#lines > li')].flatMap((it) => { const part = it.querySelector('details'); part?.fill(); return part ? [...part.querySelectorAll('li')] : [it]; })"
         ".map((it) => it.textContent)")
HEADLINE = "document.getElementById('verdict').textContent"
CAUSES = "[...document.querySelectorAll('#findings > li')].map((it) => it.querySelector('strong, summary').firstChild.textContent)"
ADVICE = "[...document.querySelectorAll('#findings > li > span')].map((it) => it.textContent).join(' ')"
HASH = "LACP is not your trouble. One flow has the speed of one link: the hash chooses it."
APART = "If they are to be one, give them one key at each end; else LACP is not your trouble."
EACH = "each by itself: a bond uses one of its links"
EARLY = "A link fell silent, or its capture was stopped before the others"
SYSTEM = "02-00-00-00-00-0"


def link(port: int, said: str) -> str:
    """The line of a link of the systems 1 and 2, port to port."""
    return f"{SYSTEM}1 port {port} - {SYSTEM}2 port {port}: {said}"


def of_summaries(tests: Tests, browser: Browser, folder: str) -> None:
    of_keys(tests, browser, folder)
    of_crossing(tests, browser, folder)
    of_ends(tests, browser, folder)
    of_files(tests, browser, folder)
    of_packed(tests, folder)
    of_unread(tests, folder)
    of_strangers(tests, os.path.join(folder, "strangers"))
    of_many(tests, browser, folder)
    of_unreadable(tests, browser, folder)


def said_of(browser: Browser, path: str, *parts: made.Packets) -> list[Any]:
    """The headline, the titles of the causes, and the lines of the links, of a capture of these packets."""
    made.capture(path, *parts)
    browser.choose(path)
    said: list[Any] = browser.value(f"[{HEADLINE}, {CAUSES}, {LINES}]")
    return said


def of_keys(tests: Tests, browser: Browser, folder: str) -> None:
    """Two bundles between two systems are no fault; two groups at one end, crossed cables and one astray are told apart."""
    path, up = os.path.join(folder, "keys.pcap"), "carries, both ways"
    for keys in [(10, 10), (10, 10), (20, 20), (20, 20)], [(10, 20), (10, 20), (20, 10), (20, 10)]:
        head = f"4 links carry, both ways, as 2 bundles: ports 1-1 and ports 2-2; ports 3-3 and ports 4-4. {APART} {HASH.partition('. ')[2]}"
        tests.same(f"two bundles, {keys}", said_of(browser, path, *made.keyed(keys)), [head, [], [link(port, up) for port in range(1, 5)]])
    said = said_of(browser, path, *made.keyed([(10, 10), (20, 20)]))
    tests.same("two links that are two bundles", said[0], f"2 links carry, both ways, as 2 bundles: ports 1-1; ports 2-2. {APART}")
    idle = link(3, f"does not carry: {SYSTEM}2 has key 30 there, and 10 on the links that carry")
    said = said_of(browser, path, *made.keyed([(10, 10), (10, 10), (10, 30)], (10, 10)))
    tests.same("two groups at one end", said, ["2 of 3 links carry. Keys differ within one pair of systems.", ["Keys differ within one pair of systems"], [idle, link(1, up), link(2, up)]])
    apart = "has key 20 at both ends, and the link that carries key 10 at both ends: another group, as a link of another speed or duplex is to Linux bonding"
    wanted = [f"1 of 2 links carries. It {apart}; this capture does not show why: ask both ends, and capture all links for 100 s.", [], [link(2, f"does not carry: it {apart}"), link(1, up)]]
    tests.same("a link of another speed", said_of(browser, path, *made.keyed([(10, 10), (20, 20)], (10, 10))), wanted)
    crossed = "cables of two bundles are crossed, or a port is in the group of another link"
    astray = [link(port, f"carries apart, both ways: it joins key {keys}: a cable or a port's group is wrong") for port, keys in ((2, "10 to key 20"), (3, "20 to key 10"))]
    wanted = [f"6 of 6 links carry, 2 of them apart. C{crossed[1:]}.", [f"C{crossed[1:]}"], [*astray, *(link(port, up) for port in (1, 4, 5, 6))]]
    tests.same("crossed cables", said_of(browser, path, *made.keyed([(10, 10), (10, 20), (20, 10), (20, 20), (10, 10), (20, 20)])), wanted)
    tests.same("it says which far ends to swap", "Swap the far ends of ports 2-2 and ports 3-3;" in browser.value(ADVICE), True)
    said_of(browser, path, *made.keyed([(10, 10), (10, 10), (20, 20), (20, 20), (10, 20)]))
    tests.same("one cable astray", "Look where ports 5-5 ends: it joins a group to one that is another bundle's." in browser.value(ADVICE), True)


def of_crossing(tests: Tests, browser: Browser, folder: str) -> None:
    """Cables that cross between three systems; captures one behind the other; a partner that sends a bit too seldom; both ends of a link in a file each."""
    path = os.path.join(folder, "crossing.pcap")
    bundles = ((10, 2, 1), (10, 3, 1), (20, 2, 2), (20, 3, 2))
    headline, causes, _ = said_of(browser, path, *made.led((key, made.Party(system, 8, port, made.FAST)) for key, system, port in bundles))
    crossed = "ables of two bundles are crossed, or a port is in the group of another link"
    tests.same("cables crossed between two switches", [headline, causes], [f"4 of 4 links carry, {EACH}. C{crossed}.", [f"C{crossed}"]])
    swaps = "Swap the far ends of ports 2-1 and ports 3-2, or swap the far ends of ports 1-1 and ports 4-2;"
    tests.same("it says which far ends to swap there", swaps in browser.value(ADVICE), True)
    prior = (made.Party(2, 8, port, made.FAST, priority) for port, priority in ((1, 32768), (2, 65535)))
    headline, causes, _ = said_of(browser, path, *made.led((7, it) for it in prior))
    several = "inks lead to one address with several system priorities"
    tests.same("one address with two system priorities", [headline, causes], [f"2 of 2 links carry, {EACH}. L{several}.", [f"L{several}"]])
    for far, how, where in ((2, 3), EACH, "the other link"), ((2, 2, 3), "as 2 groups, of which a bond uses one", "the other link"):
        headline, _, lines = said_of(browser, path, *made.led((7, made.Party(it, 8, port, made.FAST)) for port, it in enumerate(far, 1)))
        wanted = [f"{len(far)} of {len(far)} links carry, {how}. Links of one system lead to two systems.", f"carries apart, both ways: {SYSTEM}1 leads to {SYSTEM}3 on {where}"]
        tests.same(f"{len(far)} links to two switches", [headline, lines[0].split(": ", 1)[1]], wanted)
        words = "switches of two vendors usually cannot", "Or, without MLAG: mode=active-backup of bonding", "take both ports there out of their LACP groups", "ether proto 0x88cc"
        tests.same("it says what goes without MLAG, and how a switch is found", [it in browser.value(ADVICE) for it in words], [True] * 4)
    ends = ((made.Party(1, 7, port, made.FAST), made.Party(2, 10 * port, port, made.FAST), made.at(port / 10, 10)) for port in (1, 2))
    behind = [it for both in ends for it in made.exchange(*both)]
    headline, causes, _ = said_of(browser, path, behind)
    tests.same("captures one behind the other are sorted", [headline, causes], [f"2 of 2 links carry, {EACH}. Keys differ within one pair of systems.", ["Keys differ within one pair of systems"]])
    (one, other), turns = made.one_link(made.FAST), [turn * 3.2 for turn in range(30)]
    asks = made.sends(one, other, (turn + it for turn in turns for it in (0.1, 1.1, 2.1)))
    lost = made.sends(one._replace(state=made.EXPIRED), other, (turn + 3.1 for turn in turns))
    headline, causes, _ = said_of(browser, path, made.sends(other, one, turns), asks, lost)
    seldom = "An end sends less often than its partner asks"
    tests.same("a partner that sends each 3.2 s", [headline.split(". ")[1], causes[0]], [f"{seldom}.", seldom])


def of_ends(tests: Tests, browser: Browser, folder: str) -> None:
    """What an end does: dead, deaf, a stranger, started anew, too fast at its start; a clock that is set back; a loop; one link alone."""
    path, up = os.path.join(folder, "ends.pcap"), "carries, both ways"
    (one, other), (near, far) = made.one_link(made.FAST), made.one_link(made.FAST, port=2)
    expired, known, new = one._replace(state=made.EXPIRED), one._replace(state=made.FAST_DOWN), other._replace(state=0x47)
    nobody, hears = made.one_link(made.DEFAULTED, made.FAST_DOWN)

    def each(period: int, *within: int) -> list[float]:
        """The seconds of 100 that stand within such a part of each period."""
        return [float(second) for second in range(100) if second % period in range(*within)]

    def fast(port: int, key: int, state: int) -> made.Packets:
        """A link of which system 1 sends faster than it may at its start."""
        here, there = made.Party(1, 7, port, state), made.Party(2, key, port, state)
        return [*made.sends(here, there, (0.2 + it / 20 + port / 100 for it in range(6))), *made.exchange(here, there, made.at(port / 100, 1, 30))]

    dead = [
        made.exchange(one, other, range(100)), made.exchange(near, far, made.at(0.1, 20)), made.sends(far, near, made.at(0.1, 20, 23)),
        made.sends(far._replace(state=made.EXPIRED), near, made.at(0.1, 23, 26)),
        made.sends(far._replace(state=made.DEFAULTED), None, made.at(0.1, 55, 86, 30)),
    ]  # fmt: skip
    slow = made.one_link(made.UP, made.FAST, 2)
    silent = [made.exchange(one, other, range(20)), made.exchange(*slow, [0.1]), made.sends(*slow, made.at(0.1, 1, 9))]
    late = [made.exchange(one, other, range(11)), made.sends(one, other, [13.3]), made.sends(other, one, (11, 12, 13, 13.7))]
    deaf = [made.sends(nobody, None, each(25, 1)), made.sends(hears, nobody, (it + 0.1 for it in each(25, 4))),
            made.sends(hears._replace(state=made.EXPIRED), nobody, (it + 0.1 for it in each(25, 4, 25)))]  # fmt: skip
    lately = [made.exchange(one, other, range(20)), made.exchange(near, far, made.at(0.1, 16)),
              made.exchange(*made.one_link(made.EXPIRED, made.FAST_DOWN, 2), made.at(0.1, 16, 20))]  # fmt: skip
    restarted = [made.exchange(one, other, range(20)), made.sends(one, other, made.at(0, 20, 22)), made.sends(expired, other, made.at(0, 23, 26)),
                 made.sends(new, None, [50]), made.sends(known, new, [50.1]), made.exchange(one, other, range(51, 100))]  # fmt: skip
    seldom = [made.sends(other, one._replace(state=made.UP), made.at(0.004, 0, 100, 30)),
              made.sends(one, other, each(30, 4)), made.sends(expired, other, each(30, 4, 8))]  # fmt: skip
    cases: dict[str, tuple[list[made.Packets], str, list[str], list[str]]] = {
        "an end that sends no more": (dead, "1 of 2 links carries. Nothing more comes from an end: ports 2-2.", ["Nothing more comes from an end"],
                                      [link(2, f"does not carry: nothing comes from {SYSTEM}1 port 2 after 19.1 s"), link(1, up)]),
        "a link that goes down, one end of which sends each 30 s": (silent, "1 of 2 links carries. Both ends of a link are silent: ports 2-2.", ["Both ends of a link are silent"],
                                                                    [link(2, f"does not carry: nothing comes from {SYSTEM}1 port 2 after 8.1 s"), link(1, up)]),
        "an end whose last LACPDU is late": (late, "1 of 1 link carries. No LACPDU for longer than the partner's timeout.", ["No LACPDU for longer than the partner's timeout"], [link(1, up)]),
        "a link that goes down": ([made.exchange(one, other, range(60)), made.exchange(near, far, made.at(0.1, 20))],
                                  "1 of 2 links carries. Both ends of a link send nothing more: ports 2-2.", ["Both ends of a link send nothing more"],
                                  [link(2, "does not carry: nothing is sent on it after 19.1 s"), link(1, up)]),
        "a link that comes and goes": ([made.exchange(one, other, [*range(11), *range(17, 28), *range(34, 60)])],
                                       "1 of 1 link carries. A link is silent at both ends for a while.", ["A link is silent at both ends for a while"], [link(1, up)]),
        "an end that hears nobody": (deaf, "0 of 1 link carries. An end hears nobody for longer than 6 seconds.", ["An end hears nobody for longer than 6 seconds"],
                                     [link(1, f"does not carry: {SYSTEM}1 port 1 hears nobody")]),
        "an end that has heard nobody for 4 seconds": (lately, f"1 of 2 links carries. {SYSTEM}1 port 2 hears nobody; this capture does not show why: ask both ends, and capture all links for 100 s.", ["Likely effect: synchronization lost"],
                                                       [link(2, f"does not carry: {SYSTEM}1 port 2 hears nobody"), link(1, up)]),
        "two ends of one system that hear nobody": ([made.sends(made.Party(1, 7, port, 0xC7), None, made.at(port / 10, 20)) for port in (1, 2)],
                                                    "0 of 1 link carries. Both ends of a link have one system address.", ["Both ends of a link have one system address"],
                                                    [f"{SYSTEM}1 port 1 - {SYSTEM}1 port 2: does not carry: both ends have one system: a loop, or a copied identifier"]),
        "two passive ends": ([made.exchange(*made.one_link(made.FAST & ~1), range(4))],
                             "0 of 1 link carries. Both ends are passive.", ["Both ends are passive"], [link(1, "does not carry: both ends are passive")]),
        "a stranger that hears nobody": ([made.exchange(one, other, range(60)), made.sends(made.Party(3, 9, 5, 0x47), None, made.at(0.5, 60))],
                                         "1 of 2 links carries. A third system speaks on the link, and hears nobody.", ["A third system speaks on the link, and hears nobody"],
                                         [f"{SYSTEM}3 port 5 - nobody: not seen: nobody answers {SYSTEM}3 port 5; it may use the link alone", link(1, up)]),
        "a clock that is set back": ([made.exchange(one, other, [*made.at(3600, 30), *range(30, 60)])],
                                     "1 of 1 link carries. The clock was set back while it was captured.", ["The clock was set back while it was captured"], [link(1, up)]),
        "an end that starts anew": (restarted, "The link carries, both ways, since 51.0 s. Before, an end was silent, and starts anew.",
                                    ["Until 51.0 s: an end was silent, and starts anew", "Remark: a wait of less than 2 seconds before synchronization"], [link(1, up)]),
        "a partner that sends too seldom": (seldom, "0 of 1 link carries. An end loses its partner again and again, which sends too seldom.",
                                            ["An end loses its partner again and again, which sends too seldom"], [link(1, f"does not carry: {SYSTEM}1 port 1 hears nobody")]),
        "unequal keys behind a fast start": ([fast(1, 10, made.FAST), fast(2, 20, made.FAST_DOWN)],
                                             "1 of 2 links carries. Keys differ within one pair of systems.", ["Keys differ within one pair of systems", "Remark: more than three LACPDUs in a second"],
                                             [link(2, f"does not carry: {SYSTEM}2 has key 20 there, and 10 on the link that carries"), link(1, up)]),
    }
    for name, (parts, headline, causes, lines) in cases.items():
        tests.same(name, said_of(browser, path, *parts), [headline, causes, lines])
    said_of(browser, path, *dead)
    said, slowed = browser.value("document.getElementById('findings').textContent"), f"{SYSTEM}2 port 2 hears nobody since, and sends each 30.0 s alone: a status of {SYSTEM}1 port 2 says that it hears nobody, too"
    words = "lacp_rate", "Captured at its partner, two things look alike: it sends no more", slowed
    tests.same("of a dead end: lacp_rate is not blamed, the path may be, and its own status has the one direction as two", [it in said for it in words], [False, True, True])
    alone = "The link carries, both ways. It is one link: of a bundle capture all links, since keys and partners are compared between them."
    tests.same("one link of a bundle", said_of(browser, path, *made.keyed([(10, 10)])), [alone, [], [link(1, up)]])
    made.pcap(path, made.exchange(one, other, range(10)), 60)
    browser.choose(path)
    tests.same("packets of 60 octets", browser.value(f"[{HEADLINE}, {CAUSES}, document.getElementById('lasts').textContent.split('. ')[1]]"),
               [alone, [], "Its packets are cut behind 60 octets: both ends are in them, and what follows, as CollectorMaxDelay, is taken as 0."])


def of_files(tests: Tests, browser: Browser, folder: str) -> None:
    """Several files at once, names of interfaces, and comments."""
    paths = [os.path.join(folder, it) for it in ("eth1.pcap", "eth2.pcap")]
    for port, (path, key) in enumerate(zip(paths, (10, 20)), 1):
        one, other = (made.Party(system, it, port, made.FAST) for system, it in ((1, 7), (2, key)))
        made.pcap(path, made.exchange(one, other, (second + port / 10 for second in range(10))))
    shown = browser.choose(*paths)
    ends = "({0}1 port {1} - {0}2 port {1}): carries apart, both ways: {0}2 has key {2} there, and {3} on the other link"
    lines = [f"eth{port} {ends.format(SYSTEM, port, key, other)}" for port, key, other in ((1, 10, 20), (2, 20, 10))]
    tests.same("two files are read as one", [shown["name"], *browser.value(f"[{CAUSES}, {LINES}]")], ["eth1.pcap, eth2.pcap", ["Keys differ within one pair of systems"], lines])
    places = browser.value("[...document.querySelectorAll('#findings a')].map((it) => it.textContent)")
    tests.same("a packet is named by its file", [it.split(" packet ")[0] for it in places], ["eth1.pcap", "eth1.pcap"])
    of_doubled(tests, browser, folder)
    of_times(tests, browser, os.path.join(folder, "times"))
    of_one_source(tests, browser, folder)
    of_one_system(tests, browser, os.path.join(folder, "one-system"))
    empty = os.path.join(folder, "eth4.pcap")
    made.pcap(empty, [])
    shown = browser.choose(paths[0], empty)
    bond = "no LACPDU is in the file eth4: if it is of the bond itself, which has none, leave it out"
    silent = f"does not carry: {bond}. Else neither end sends on that link, as where LACP is off, or both ends are passive"
    wanted = [0, f"1 of 2 links carries. N{bond[1:]}.", f"eth4: {silent}"]
    tests.same("a file without an LACPDU is a link that does not carry", [shown["status"], *browser.value(f"[{HEADLINE}.split(' Else')[0], {LINES}[0]]")], wanted)
    broken = os.path.join(folder, "eth3.pcap.gz")
    with open(broken, "wb") as out:
        out.write(b"\x1f\x8b\x08" + bytes(40))
    with open(paths[1], "rb+") as it:
        it.truncate(os.path.getsize(paths[1]) - 7)
    shown = browser.choose(*paths, broken)
    wanted = [2, f"cannot read eth2.pcap: octet {os.path.getsize(paths[1]) - 133}: cut short, or broken\ncannot read eth3.pcap.gz: packed by gzip: unpack it first"]
    tests.same("of several files those that cannot be read are named", [shown[it] for it in ("status", "said")], wanted)
    path = os.path.join(folder, "named.pcapng")
    made.named(path, ["eth0", "eth1"], "look <b>here")
    browser.choose(path)
    tests.same("an interface has its name", [it.split(" ")[0] for it in browser.value(LINES)], ["eth1", "eth0"])
    browser.value("document.querySelectorAll('#links details').forEach((it) => { it.open = true; }), 1")
    browser.settle()
    tests.same("a comment stands at its packet", browser.value("[...document.querySelectorAll('.frames em')].map((it) => it.textContent)"), [" look <b>here"])


def links_at(folder: str, times: list[range], keys: tuple[int, int] = (8, 8), source: bytes = b"", up: int = made.FAST) -> list[str]:
    """A file for each link of the systems 1 and 2, with LACPDUs at these times; of several keys the first link does not carry."""
    os.makedirs(folder, exist_ok=True)
    paths = []
    for port, (seconds, key) in enumerate(zip(times, keys), 1):
        state = up if key == keys[-1] else made.FAST_DOWN
        one, other = made.Party(1, 7, port, state), made.Party(2, key, port, state)
        paths.append(os.path.join(folder, f"eth{port}.pcap"))
        made.capture(paths[-1], made.sends(one, other, map(float, seconds), source), made.sends(other, one, (it + 0.1 for it in seconds)))
    return paths


def of_times(tests: Tests, browser: Browser, folder: str) -> None:
    """Captures one behind the other are told first, and their links are compared; that one ends earlier is no silence. A file that ends before another one
    of its time does so since its link fell silent, or since its capture was stopped: both are told, and the link does not count as one that carries."""
    words = "These captures are of different times ({}): capture all links at once. As if they were of one time: "
    after = "eth1: 0.0 to 59.1 s; eth2: 90.0 to 149.1 s"
    both, keys, one = f"2 links carry, both ways: {HASH}", "1 of 2 links carries. Keys differ within one pair of systems.", f"1 of 2 links carries. {EARLY}: eth2."
    cases = {
        "one behind the other": ([range(60), range(90, 150)], (8, 8), words.format(after) + both, True),
        "one behind the other, with two keys": ([range(60), range(90, 150)], (9, 8), words.format(after) + keys, True),
        "for 10 s each": ([range(10), range(12, 22)], (8, 8), words.format("eth1: 0.0 to 9.1 s; eth2: 12.0 to 21.1 s") + both, True),
        "with long timeouts, at one time": ([range(3, 4), range(10, 11)], (8, 8), both, False),
        "of which one ends early": ([range(60), range(20)], (8, 8), one, False),
        "of which one ends 4 s before the other": ([range(60), range(56)], (8, 8), one, False),
        "of which one ends 2 s before the other": ([range(60), range(58)], (8, 8), both, False),
        "of which one ends early, and one begins late": ([range(50), range(25, 100)], (8, 8), one.replace("eth2", "eth1"), False),
        "begun 10 s apart": ([range(60), range(10, 70)], (8, 8), one.replace("eth2", "eth1"), False),
    }
    for name, (times, two, headline, is_moved) in cases.items():
        paths = links_at(folder, times, two, up=made.UP if "long" in name else made.FAST)
        browser.choose(*paths)
        said = browser.value(f"[{HEADLINE}, document.getElementById('lasts').textContent]")
        tests.same(f"captures {name}", [said[0], "as if they ended together" in said[1]], [headline, is_moved])
        tests.same(f"captures {name}, as text", told_first(explain(*paths)), [int(headline != both), headline])
    of_early(tests, folder)


def of_early(tests: Tests, folder: str) -> None:
    """Beside a link that carries for 100 s: one whose file ends early, after it carried, fell or never carried, or of which other packets or its own LACPDUs show
    that it is silent; and one whose file is cut short, which is judged up to the cut."""
    os.makedirs(folder, exist_ok=True)
    (one, other), paths = made.one_link(made.FAST, port=2), [os.path.join(folder, f"eth{port}.pcap") for port in (1, 2)]
    made.capture(paths[0], made.exchange(*made.one_link(made.FAST), range(100)))
    whole, down = made.exchange(one, other, range(60)), made.exchange(*made.one_link(made.FAST_DOWN, port=2), range(10))
    data = [(60.0 + second, made.frame(one.source(), b"")[:12] + b"\x08\x00" + bytes(46)) for second in range(40)]
    dead = [*made.sends(one, other, range(9)), *made.sends(other, one, made.at(0.1, 24))]
    taken = [*whole, *made.sends(one._replace(state=made.FAST & ~4), other, [60.0])]
    deaf = [*made.sends(one._replace(state=made.DEFAULTED), None, range(60)), *made.sends(other._replace(state=made.FAST_DOWN), one, made.at(0.1, 60))]
    early, not_seen, cut = f"{EARLY}: eth2.", "not seen: it carries up to {} s, where its file ends", "The file of a link is cut short."
    cases = {
        "stopped, or dead": (whole, early, not_seen.format("59.0"), 1),
        "of a link with a pause": ([it for it in whole if not 9 < it[0] < 16], "A link is silent at both ends for a while: eth2, and 1 more cause.", not_seen.format("59.0"), 1),
        "of a link that does not carry yet": (down, early, "attaches, up to 9.0 s, where its file ends", 1),
        "of a link that hears nobody": (deaf, "An end hears nobody for longer than 6 seconds: eth2, and 1 more cause.", "port 2 hears nobody, up to 59.1 s, where its file ends", 1),
        "of one direction": (made.sends(one, other, range(60)), early, "is not in this capture, up to 59.0 s, where its file ends", 1),
        "of a port that is taken out": (taken, "A port is taken out of its bundle: eth2.", "up to 60.0 s, where its file ends", 1),
        "with other packets behind": ([*whole, *data], "Both ends of a link send nothing more: eth2.", "does not carry: nothing is sent on it after 59.0 s", 1),
        "of which an end is dead before": (dead, "Nothing more comes from an end: eth2.", f"does not carry: nothing comes from {SYSTEM}1 port 2 after 8.0 s", 1),
        "cut short": (whole, cut, not_seen.format("58.0").replace("ends", "is cut short"), 2),
    }
    for name, (packets, cause, line, status) in cases.items():
        made.capture(paths[1], packets)
        if status == 2:
            os.truncate(paths[1], os.path.getsize(paths[1]) - 147)
        ended = explain(*paths)
        headline, first = ended.stdout.splitlines()[:2]
        found = [ended.returncode, headline, first.endswith(line), EARLY.lower() in ended.stdout.lower(), ended.stderr.startswith("lagtool: cannot read eth2.pcap: octet ")]
        tests.same(f"a file that ends early, {name}", found, [status, f"1 of 2 links carries. {cause}", True, not ("packets" in name or "dead before" in name or status == 2), status == 2])
    made.capture(paths[0], made.exchange(*made.one_link(made.FAST), range(100)), made.exchange(one, other, range(60)))
    tests.same("a link that falls silent, in one file", told_first(explain(paths[0])), [1, "1 of 2 links carries. Both ends of a link send nothing more: ports 2-2."])


def of_one_source(tests: Tests, browser: Browser, folder: str) -> None:
    """A system that sends from one address on all links: each of its LACPDUs counts, in the file of its link."""
    browser.choose(*links_at(os.path.join(folder, "one-source"), [range(20), range(20)], (8, 8), bytes([2, 0, 0, 0, 1, 9])))
    said = browser.value(f"[{HEADLINE}, document.getElementById('lasts').textContent.includes('several files')]")
    tests.same("two links, on which a system has one source address", said, [f"2 links carry, both ways: {HASH}", False])


def of_packed(tests: Tests, folder: str) -> None:
    """A capture that is packed is not said to have no LACPDU."""
    begins = {"gzip": b"\x1f\x8b\x08", "xz": b"\xfd7zXZ\0", "zstd": b"\x28\xb5\x2f\xfd"}
    for name, begin in begins.items():
        path = os.path.join(folder, f"eth9.pcap.{name}")
        with open(path, "wb") as out:
            out.write(begin + bytes(40))
        for given in [path], [path, path]:
            ended = explain(*given)
            wanted = [2, "", f"lagtool: cannot read eth9.pcap.{name}: packed by {name}: unpack it first"]
            tests.same(f"{len(given)} captures, packed by {name}", [ended.returncode, ended.stdout, ended.stderr.splitlines()[0]], wanted)


def of_unread(tests: Tests, folder: str) -> None:
    """Of several files the first line says how many were not read, and why; what the others show is behind it."""
    good, bare = (os.path.join(folder, it) for it in ("eth1.pcap", "bare.pcap"))
    made.pcap(good, made.exchange(*made.one_link(made.FAST), range(20)))
    made.pcap(bare, [])
    paths = [os.path.join(folder, it) for it in ("eth8.pcap.xz", "eth9.pcap")]
    for path, begin in zip(paths, (b"\xfd7zXZ\0", b"\0\1\2\3")):
        with open(path, "wb") as out:
            out.write(begin + bytes(40))
    cases = (
        ([good, paths[0]], "1 of 2 files was not read (xz). The link carries, both ways."),
        ([paths[1], good], "1 of 2 files was not read (neither pcap nor pcapng). The link carries, both ways."),
        ([*paths, good], "2 of 3 files were not read (xz, neither pcap nor pcapng). The link carries, both ways."),
        ([bare, paths[0]], "1 of 2 files was not read (xz). No LACPDU is in this capture. "),
    )
    for given, head in cases:
        ended = explain(*given)
        tests.same(f"files that are not read: {head[:22]}", [ended.returncode, ended.stdout.startswith(head), "cannot read eth" in ended.stderr], [2, True, True])
    tests.same("a file that is read, alone", explain(good).stdout.startswith("The link carries, both ways."), True)


def of_strangers(tests: Tests, folder: str) -> None:
    """Files of bundles that share no system are told as that, each with its own causes, and a bundle beside a broken one carries; of two links of one system
    nothing is said, nor of a third system beside a link."""
    os.makedirs(folder, exist_ok=True)
    said = "These files are of 2 bundles that share no system (eth1; eth2): nothing is compared between these."
    for name, systems in ("no system", (3, 4)), ("a system", (1, 4)):
        paths = [os.path.join(folder, f"eth{port}.pcap") for port in (1, 2)]
        for path, (one, other) in zip(paths, [(1, 2), systems]):
            made.pcap(path, made.exchange(made.Party(one, 7, 1, made.FAST), made.Party(other, 8, 1, made.FAST), map(float, range(20))))
        told = explain(*paths).stdout
        tests.same(f"files that share {name}", [said in told, "as 2 bundles: eth1; eth2. They share no system: " in told], [name == "no system"] * 2)
    stranger = made.sends(made.Party(5, 9, 5, made.FAST_DOWN), None, map(float, range(20)))
    made.capture(paths[1], made.exchange(made.Party(1, 7, 2, made.FAST), made.Party(2, 8, 2, made.FAST), map(float, range(20))), stranger)
    told = explain(*paths).stdout
    tests.same("files that share a system, and a third one beside", ["share no system" in told, "A third system" in told], [False, True])
    of_two_bundles(tests, folder)


def of_two_bundles(tests: Tests, folder: str) -> None:
    """Two bundles of two links each, a file a link: unequal keys in the first one, and in the second one nothing, or an end that is deaf."""
    paths, up, lost = [os.path.join(folder, f"eth{port}.pcap") for port in range(1, 5)], made.FAST, made.FAST_DOWN
    for path, (near, far, key, port, state) in zip(paths, [(1, 2, 8, 1, up), (1, 2, 9, 2, lost), (3, 4, 8, 1, up), (3, 4, 8, 2, up)]):
        made.pcap(path, made.exchange(made.Party(near, 7, port, state), made.Party(far, key, port, state), map(float, range(20))))
    keys, deaf = "eys differ within one pair of systems", "an end hears nobody for longer than 6 seconds"
    for name, head in ("a healthy one", f"3 of 4 links carry. K{keys}."), ("one with another cause", f"2 of 4 links carry. K{keys}, and 1 more cause."):
        ended = explain(*paths)
        lines = ended.stdout.splitlines()
        found = [ended.returncode, lines[0], lines[1].startswith("  eth2 "), f"1. k{keys}" in ended.stdout, f"2. {deaf}" in ended.stdout, "   key 8: eth1" in lines]
        tests.same(f"a bundle with unequal keys beside {name}", found, [1, head, True, True, "another" in name, True])
        one, other = made.Party(3, 7, 2, made.DEFAULTED), made.Party(4, 8, 2, lost)
        made.capture(paths[3], made.sends(one, None, map(float, range(20))), made.sends(other, one, made.at(0.1, 20)))


def of_one_system(tests: Tests, browser: Browser, folder: str) -> None:
    """What two boxes with one system are, and a loop beside a link."""
    os.makedirs(folder, exist_ok=True)
    paths = [os.path.join(folder, it) for it in ("eth1.pcap", "eth2.pcap")]
    one, far, twin, itself = made.Party(1, 7, 1, made.FAST), made.Party(2, 5, 1, made.FAST), made.Party(2, 6, 1, made.FAST), made.Party(1, 7, 2, made.FAST_DOWN)
    second = one._replace(port=2)
    made.pcap(paths[0], made.exchange(one, far, range(20)))
    made.capture(paths[1], made.sends(second, twin, range(20)), made.sends(twin, second, made.at(0.004, 20), bytes([2, 0, 0, 0, 3, 1])))
    browser.choose(*paths)
    said = "The far ends of eth1 and eth2 call themselves one port of one system, so two boxes"
    tests.same("two boxes with one system and two keys are told as that", said in browser.value(ADVICE), True)
    made.pcap(paths[1], made.exchange(itself, itself, range(20)))
    browser.choose(*paths)
    wanted = ["1 of 2 links carries. The partner's system is the end's own.", ["The partner's system is the end's own"]]
    tests.same("a loop beside a link is one cause", browser.value(f"[{HEADLINE}, {CAUSES}]"), wanted)


def of_doubled(tests: Tests, browser: Browser, folder: str) -> None:
    """Two files that hold one link, at one time and at two: it is one link, and each frame counts once."""
    packets = made.exchange(*made.one_link(made.FAST), range(20))
    near, far = (os.path.join(folder, it) for it in ("near.pcap", "far.pcap"))
    made.pcap(near, packets)
    for what, part, doubled in ("at one time", packets[4:24], "20 frames stand in several files: they are taken once."), ("at two times", [(time + 20, it) for time, it in packets], ""):
        made.pcap(far, part)
        browser.choose(near, far)
        said = browser.value(f"[{LINES}, document.getElementById('lasts').textContent]")
        tests.same(f"two files of one link {what}", [said[0], doubled in said[1]], [[f"near ({SYSTEM}1 port 1 - {SYSTEM}2 port 1): carries, both ways"], True])


def of_many(tests: Tests, browser: Browser, folder: str) -> None:
    """Findings of many ends fit on two screens, and the cause is the first."""
    path = os.path.join(folder, "crowded.pcap")
    headline, causes, _ = said_of(browser, path, made.crowded(24))
    tests.same("of many findings the cause comes first", [headline, causes],
               ["0 of 24 links carry. Keys differ within one pair of systems, and 2 more causes.",
                ["Keys differ within one pair of systems", "A frame with a tag", "More than three LACPDUs in a second", "Remark: a version other than 1"]])
    found = browser.value("(() => { const [top, end] = ['verdict', 'legend'].map((it) => document.getElementById(it).getBoundingClientRect()); return end.top - top.top; })()")
    tests.told("they fit on two screens", "" if found < 2 * 1080 else f"{found} pixels")


def of_unreadable(tests: Tests, browser: Browser, folder: str) -> None:
    """Behind a good capture a file that cannot be read says so, and nothing of the last is left."""
    path = os.path.join(folder, "good.pcap")
    said_of(browser, path, *made.keyed([(10, 10), (10, 10)]))
    browser.value("(() => { const it = new File(['x'], 'mine.pcap'); it.arrayBuffer = () => Promise.reject(new DOMException('The requested file could not be read', 'NotReadableError'));"
                  " window.shown = null; const data = new DataTransfer(); const event = new ClipboardEvent('paste', { clipboardData: data, bubbles: true });"
                  " Object.defineProperty(event, 'clipboardData', { value: { files: [it], getData: () => '' } }); document.body.dispatchEvent(event); })(), 1")
    browser.shown()
    said = browser.value(f"[{HEADLINE}, {LINES}.length, document.getElementById('said').textContent.slice(0, 35), document.getElementById('name').textContent]")
    tests.same("a file that cannot be read", said, ["", 0, "The browser may not read this file,", "mine.pcap"])
