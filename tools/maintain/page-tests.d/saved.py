"""Tests of what the page saves: a picture, and a report that needs no script."""

from __future__ import annotations

import os
import xml.etree.ElementTree

from browser import Browser
from stored import UNEQUAL, Tests

SVG = "{http://www.w3.org/2000/svg}"


def saved(browser: Browser, press: str) -> str:
    """The text of the file that a press of a button offers."""
    browser.value("window.offered = null, window.made ??= URL.createObjectURL, URL.createObjectURL = (it) => { window.offered = it; return window.made(it); }, 1")
    browser.value(f"document.{press}.click(), 1")
    browser.wait("window.offered !== null")
    text: str = browser.value("(async () => { const it = await window.offered.text(); URL.createObjectURL = window.made; return it; })()")
    return text


def of_saving(tests: Tests, browser: Browser, folder: str, page: str, pictures: str | None) -> None:
    printed = browser.choose(UNEQUAL)["printed"]
    picture = saved(browser, "querySelector('#links .tools + details').previousElementSibling.querySelector('button')")
    whole = xml.etree.ElementTree.fromstring(picture)
    tests.same("the picture is an SVG with its style, of two links", (whole.tag, len(whole.findall(f"{SVG}style")), picture.count('class="name"')), (f"{SVG}svg", 1, 4))
    tests.same("its colours are no variables", "var(" in picture, False)
    report = saved(browser, "getElementById('report')")
    for name, text in ("links.svg", picture), ("report.html", report):
        with open(os.path.join(folder, name), "w", encoding="utf-8") as out:
            out.write(text)
        browser.open(os.path.join(folder, name))
        if pictures:
            os.makedirs(pictures, exist_ok=True)
            browser.picture(os.path.join(pictures, f"saved-{name.partition('.')[0]}.png"))
    of_report(tests, browser, printed)
    browser.go(page)


def of_report(tests: Tests, browser: Browser, printed: str) -> None:
    """The report, which is open in the browser."""
    counts = browser.value("['script', 'button', 'input', '#picture svg[role=img] desc', 'svg.picture', '#findings > li'].map((it) => document.querySelectorAll(it).length)")
    rules = {it.split()[1] for it in printed.splitlines() if it.startswith("finding ")}
    tests.same("the report has the causes, both pictures, and no script", counts, [0, 0, 0, 1, 1, 2])
    told = browser.value("[...document.querySelectorAll('#findings .rule')].map((it) => it.textContent.split(' ')[2].replace(',', ''))")
    tests.same("what is folded is in it, too", sorted(told), sorted(rules))
    policy = browser.value("document.querySelector('meta[http-equiv]').content")
    tests.same("its policy allows a style and nothing else", policy.split("'sha256-")[0], "default-src 'none'; style-src ")
    tests.same("it has its style", browser.value("getComputedStyle(document.querySelector('svg .bit')).fill !== 'none'"), True)
    left = browser.value("[...document.querySelectorAll('a')].filter((it) => !document.querySelector(it.hash)).length")
    tests.same("each link of the report leads to a frame", left, 0)
    tests.same("it has the text of lagtool", browser.value("document.getElementById('text').textContent"), printed)
    browser.size(360, 760)
    tests.same("the report, narrow: nothing reaches beyond 360 pixels", browser.value("document.documentElement.scrollWidth") <= 360, True)
    browser.size(1200, 1500)
