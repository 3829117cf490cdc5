"""Tests of the picture on top: two systems, a line a link, and a text that says the same; on a phone what to do stands above the fold."""

from __future__ import annotations

import os

import identities
import made
from browser import Browser
from stored import Tests
from texts import pasted, status

PICTURE = "document.querySelector('#picture svg')"
LOOKS = f"[...{PICTURE}.querySelectorAll('path.link')].map((it) => it.getAttribute('class').slice(5))"
SYSTEM = "02-00-00-00-00-0"


def eight(path: str) -> None:
    """Eight links, on the last of which nobody answers."""
    links = identities.bundle(1, 10, 2, 5, [(port, port) for port in range(1, 9)])
    parts = identities.seen(links)
    parts[7] = made.sends(links[7][0]._replace(state=0x47), None, made.at(0.1, 40))
    made.interfaces(path, zip([f"eth{port}" for port in range(1, 9)], parts))


def of_overview(tests: Tests, browser: Browser, folder: str) -> None:
    path = os.path.join(folder, "eight.pcapng")
    eight(path)
    browser.choose(path)
    text = f"{SYSTEM}1 and {SYSTEM}2: eth8 does not carry: nobody answers; eth1 to eth7 carry."
    told = browser.value(f"[document.getElementById('verdict').textContent, {PICTURE}.getAttribute('aria-label'), {PICTURE}.querySelector('desc').textContent, {LOOKS}]")
    tests.same("eight links: headline, picture and its text", told, ["7 of 8 links carry. Nobody answers on eth8.", text, text, ["good"] * 7 + ["bad one-way"]])
    lines = browser.value("[...document.querySelectorAll('#lines > li')].map((it) => it.textContent)")
    tests.same("links that carry are one line", [len(lines), lines[1]], [2, "eth1 to eth7: carry, both ways"])
    browser.size(390, 844)
    browser.value("document.getElementById('name').scrollIntoView(), 1")
    browser.settle()
    tests.same("on a phone what to do is above the fold", browser.value("document.querySelector('#findings > li > span').getBoundingClientRect().bottom < 844"), True)
    letters = browser.value(f"[...{PICTURE}.querySelectorAll('text')].every((it) => {{ const box = it.getBBox(); return box.x >= 0 && box.x + box.width <= 420; }})")
    tests.same("no word of the picture is cut off", letters, True)
    browser.size(1200, 1500)
    pasted(browser, status("deaf-bonding.txt"))
    tests.same("the picture of a text", browser.value(f"[{PICTURE}.getAttribute('aria-label'), {LOOKS}]"), ["02-00-00-01-0a-01 and 02-00-00-01-0b-01: p2 does not carry: hears nobody; p1 carries.", ["good", "bad one-way"]])
    browser.value("document.getElementById('here').value = '', 1")
