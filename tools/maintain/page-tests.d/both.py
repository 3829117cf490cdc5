"""Tests of two texts: those of both ends of links, and those that are not, which are not explained as if they were."""

from __future__ import annotations

import os
import tempfile

from browser import Browser
from repository import write_text
from stored import CAPTURES, Tests
from texts import STATUS, explain, pasted, second_port, status, told_of_two

HEALTHY = "2 of 2 links carry. LACP is not your trouble"
ASKED = "if the other end says so, too"
MOST = "two texts at most: yours, then the far end's. Bonds of one host are one text: sudo tail -v -n +1 /proc/net/bonding/*"
# Two ends as the stored texts have them.
OURS, THEIRS = "02-00-00-01-0a-01", "02-00-00-01-0b-01"
DOWN = "MII Status: down\nSpeed"


def remarks(said: str) -> list[str]:
    """The causes and remarks that are printed, without their numbers."""
    return [line.partition(". ")[2] for line in said.splitlines() if line[:1].isdigit() and ". " in line[:4]]


def moved(text: str, number: str) -> str:
    """The same bond of another host, and of another partner: its addresses have another octet."""
    return text.replace("02:00:00:01:0a:", f"02:00:00:{number}:0a:").replace("02:00:00:01:0b:", f"02:00:00:{number}:0b:")


def of_others(tests: Tests, browser: Browser) -> None:
    """The second text is of another bond, of the same one, or of a system that nobody names: it is not used, and the page says so."""
    bond = status("healthy-bonding.txt")
    broken = moved(bond, "07").replace("MII Status: up\nSpeed", DOWN)
    cases = {
        "of another bond": (broken, "remark: the second text (system 02-00-00-07-0a-01) is not the partner of the first: not used",
                            f"The first one names {THEIRS}, the second one 02-00-00-07-0b-01. Give the text of the system that the first one names."),
        "the same text": (bond, f"remark: both texts are of one system, {OURS}: give the far end's", "The second one is not used."),
        "of one bond, by ip": (status("healthy-ip.json"), f"remark: both texts are of one system, {OURS}: give the far end's", "The second one is not used."),
        "of another time": (status("standby-bonding.other.txt"), f"remark: the second text (system {THEIRS}) has the system priority 32768, and the first one names 65535: not used",
                            "Read both texts anew, at one time."),
    }
    for name, (there, remark, advice) in cases.items():
        said = told_of_two(bond, there)
        tests.same(f"the second text is {name}", [said.partition(" One flow")[0], remarks(said)[0], advice in said, "is down" in said], [f"{HEALTHY}, {ASKED}.", remark, True, False])
        tests.same(f"the same in the page, {name}", [it.rstrip(".").lower() for it in pasted(browser, bond, there)[1:2]], [remark.lower()])
    alone, other = status("static-bonding.txt"), moved(status("static-bonding.txt"), "07")
    said = told_of_two(alone, other)
    tests.same("neither hears anybody", ["neither text names a partner: whether the second text (system 02-00-00-07-0a-01) is of the far end is not known, and it is not used" in said,
                                         "LACPDUs are lost both ways" in said], [True, True])  # fmt: skip
    said = told_of_two(alone, broken)
    tests.same("the first one hears nobody, the second one another", "The first one names nobody, the second one 02-00-00-07-0b-01. Give the text of the far end." in said, True)


def of_far_ends(tests: Tests) -> None:
    """A port of the far end is told as that, whichever cause names it; of several bonds there only those of these links are explained."""
    ours, theirs = status("healthy-bonding.txt"), status("healthy-bonding.other.txt")
    tests.same("both ends carry", [told_of_two(ours, theirs).startswith(f"{HEALTHY}. "), ASKED in told_of_two(ours, theirs)], [True, False])
    for form in "ip.json", "ip-text.txt":
        both = [told_of_two(*pair).partition(" One flow")[0] for pair in ((status(f"healthy-{form}"), theirs), (theirs, status(f"healthy-{form}")))]
        tests.same(f"both ends carry, one of them by healthy-{form}", both, [f"{HEALTHY}."] * 2)
    head, last = theirs.split("Slave Interface: q2")
    down = f"{head}Slave Interface: q2{last.replace('MII Status: up', 'MII Status: down', 1)}"
    said = told_of_two(ours, down)
    tests.same("the far end's link is down", [remarks(said)[0], "if it is set down there, ip link set q2 up; else" in said], ["the link of the far end's q2 is down", True])
    failed = theirs.replace("Link Failure Count: 0", "Link Failure Count: 2")
    tests.same("what a text says of a port of the far end", "remark: the far end's q2: its link failed 2 times since the bond has it" in remarks(told_of_two(ours, failed)), True)
    stranger = moved(ours, "07").replace("MII Status: up\nSpeed", DOWN).replace("Slave Interface: p", "Slave Interface: x")
    said = told_of_two(ours, f"{stranger}\n{theirs}")
    part = "remark: bond 1 of the second text (system 02-00-00-07-0a-01) is not the partner of the first: not used"
    tests.same("of two bonds there one is that of these links", [said.startswith(f"{HEALTHY}. "), remarks(said)[0], "x1" in said], [True, part, False])
    plain = theirs.replace("IEEE 802.3ad Dynamic link aggregation", "load balancing (xor)")
    tests.same("the bond there speaks no LACP", remarks(told_of_two(ours, plain))[0], 'in the second text: this bond does not speak LACP: its mode is "load balancing (xor)"')
    keys = told_of_two(status("keys-bonding.txt"), status("keys-bonding.txt"))
    tests.same("the evidence of a cause is of the first text", [keys.count("p1: key 79; p2: key 143"), "rule 29" in keys], [1, False])
    deaf = status("deaf-bonding.txt").replace(":0b:", ":0c:").replace(":0a:", ":0b:").replace(":0c:", ":0a:").replace("p2", "q2")
    said = told_of_two(second_port(13, 69), deaf)
    tests.same("who is deaf there", ["A port hears nobody: the far end's q2." in said, "the far end's q2 does not hear p2." in said], [True, True])


def of_mute(tests: Tests) -> None:
    """A text without LACPDUs, as bonding has it without root, does not say whose end it is, nor is it the far end of another one."""
    ours, plain, keys = status("healthy-bonding.txt"), status("healthy-bonding-user.txt"), moved(status("keys-bonding.txt"), "07")
    away, alone = moved(plain, "07"), "It has the LACPDUs, and the first one has none: give it alone."
    one = "remark: both texts are of one host, as an interface of both says: the second one is not used"
    cases = {
        "the first one has none, and is of this host": (plain, ours, one, alone),
        "the second one has none, and is of this host": (ours, plain, one, "Give the far end's."),
        "the first one has none": (away, ours, "the first text has", ""),
        "the second one has none": (keys, plain, "the second text has", ""),
        "neither has any": (plain, away, "both texts have", ""),
    }
    for name, (here, there, said, advice) in cases.items():
        told = told_of_two(here, there)
        remark = said if said.startswith("remark") else f"remark: {said} no LACPDUs, so nobody can say whose end the other is: the second one is not used"
        found = [remark in remarks(told), advice in told, "far end's p" in told, told.partition("\n")[0].startswith("The text lacks the LACPDUs." if here in (plain, away) else told_of_two(here, here)[:16])]
        tests.same(f"LACPDUs of two texts: {name}", found, [True, True, False, True])


def of_counts(tests: Tests, browser: Browser) -> None:
    """More than two texts, a text beside a capture, and empty files."""
    paths = [os.path.join(STATUS, it) for it in ("keys-bonding.txt", "third-bonding.txt", "healthy-bonding.txt")]
    capture = os.path.join(CAPTURES, "bonding.pcap")

    def explained(*given: str) -> list[object]:
        ended = explain(*given)
        return [ended.returncode, ended.stdout.partition("\n")[0], ended.stderr]

    def dropped(*given: str) -> list[object]:
        browser.begin(*given)
        shown = browser.shown()
        return [shown["said"] or browser.value("document.getElementById('said').textContent"), browser.value("document.querySelectorAll('#lines > li').length")]

    tests.same("three texts", explained(*paths), [2, "", f"lagtool: {MOST}\n"])
    tests.same("three texts in the page", dropped(*paths), [f"T{MOST[1:]}.", 0])
    tests.same("a text and a capture in the page", dropped(paths[0], capture), ["Captures and texts are explained apart: give bonding.pcap without keys-bonding.txt.", 0])
    with tempfile.TemporaryDirectory() as folder:
        zero = os.path.join(folder, "zero")
        write_text(zero, "")
        for path in paths[0], capture:
            tests.same(f"{os.path.basename(path)} and an empty file", explained(path, zero), [2, explained(path)[1], f"lagtool: cannot read {zero}: it is empty\n"])
        tests.same("a text and an empty file in the page", dropped(paths[0], zero), ["Empty: zero. Give keys-bonding.txt alone.", 0])
        tests.same("a capture and an empty file in the page", dropped(capture, zero)[0], "cannot read zero: it is empty")


def of_both(tests: Tests, browser: Browser) -> None:
    of_others(tests, browser)
    of_far_ends(tests)
    of_mute(tests)
    of_counts(tests, browser)
