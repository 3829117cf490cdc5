"""Tests of scripts and payloads in the page: the examples, faults at their places, steps, and what is decoded."""

from __future__ import annotations

import json
import os
from typing import Any

import made
from browser import Browser
from repository import read_text
from stored import EXAMPLES, Tests

RESTARTS = os.path.join(EXAMPLES, "a-peer-restarts.toml")
# Changes of this script, each with the line and the column of its fault, the marked text, and words of the fault.
FAULTS: list[tuple[str, str, str, list[str]]] = [
    ('"sense 2 1"', '"sens 2 1"', '"sens 2 1"', ["line 7, column 5: ", "did you mean sense?"]),
    ('"tick 1 20"', '"tick 1 0"', '"tick 1 0"', ["line 19, column 5: ", "event 15"]),
    ("short = false", "short = 3", "short = 3", ["line 72, column 1: ", "short"]),
    ("number = 2", "numbre = 2", "numbre = 2", ["line 74, column 1: ", "numbre"]),
    ("ends = [2, 2]", "ends = [2, 9]", "ends = [2, 9]", ["line 91, column 1: ", "9"]),
    ("events = [", "events = [[", "", ["line ", "column "]),
]

# Whether the mark in the editor is between its upper and its lower edge.
IN_SIGHT = """(() => {
    const [box, mark] = ["#script", "#behind mark"].map((it) => document.querySelector(it).getBoundingClientRect());
    return mark.top >= box.top && mark.bottom <= box.bottom;
})()"""


def scripts() -> list[str]:
    return sorted(it for it in os.listdir(EXAMPLES) if it.endswith(".toml"))


def of_scripts(tests: Tests, browser: Browser) -> None:
    listed = browser.value("[...document.querySelectorAll('#examples option')].map((it) => it.value)")
    tests.same("each script of examples/ is in the list", listed, scripts())
    for name in scripts():
        path = os.path.join(EXAMPLES, name)
        shown = browser.replay(path)
        tests.same(f"{name}: its report", (shown["status"], shown["printed"]), (0, read_text(f"{path[:-5]}.txt")))
        tests.same(f"{name}: the list names it", browser.value("document.getElementById('examples').value"), name)
        entries = [it.split(" ", 1)[1] for it in shown["printed"].splitlines() if " -> " in it]
        arrows = [it for it in entries if it.startswith(("deliver ", "repeat ")) and not it.endswith(("-> empty", "-> not control"))]
        drawn = browser.value("['.entry', '.tip'].map((it) => document.querySelectorAll(`#replayed ${it}`).length)")
        tests.same(f"{name}: each entry is drawn, and an arrow for each frame that arrives", drawn, [len(entries), len(arrows)])
    of_steps(tests, browser)
    of_faults(tests, browser)


def typed(browser: Browser, text: str) -> Any:
    """Writes a script into the editor, and waits until it has run."""
    browser.value(f"window.replayed = null, (() => {{ const it = document.getElementById('script'); it.value = {json.dumps(text)};"
                  " it.dispatchEvent(new Event('input')); })(), 1")
    return browser.wait("window.replayed")


def of_faults(tests: Tests, browser: Browser) -> None:
    whole = read_text(RESTARTS)
    for old, new, marked, said in FAULTS:
        found = typed(browser, whole.replace(old, new, 1))
        told = browser.value("document.getElementById('fault').textContent")
        tests.told(f"a fault, {new}: it is told with its place", "" if found["status"] == 2 and all(it in told for it in said) else told)
        if marked:
            tests.same(f"a fault, {new}: it is marked in the editor", browser.value("document.querySelector('#behind mark').textContent"), marked)
    typed(browser, whole)
    shown = browser.value("[document.getElementById('fault').hidden, document.getElementById('played').hidden]")
    tests.same("a script that is whole again is drawn", shown, [True, False])


def of_steps(tests: Tests, browser: Browser) -> None:
    """Steps back and on; the agreement is that of the script up to there."""
    browser.replay(RESTARTS)
    agreement = "[...document.querySelectorAll('#tables table:last-child tbody tr')].map((it) => it.cells[4].textContent).join()"
    whole = browser.value(agreement)
    for _ in range(29):
        browser.value("document.getElementById('back').click(), 1")
    browser.wait(f"!{agreement}.includes('..')")
    tests.same("a step has its entry", browser.value("document.getElementById('entry').textContent"), "30 of 59: restart 2: restarted")
    tests.same("a step has the agreement of its own", (whole, browser.value(agreement)), ("same,same", "not-both,not-both"))
    rows = browser.value("[...document.querySelectorAll('#tables table')].map((it) => [...it.tBodies[0].rows].map((row) => row.cells[3].textContent).join())")
    tests.same("a system that starts again has sent nothing", rows[:2], ["CURRENT,CURRENT", "none sent,none sent"])
    tests.same("what is not played yet is pale", browser.value("document.querySelectorAll('#replayed .later').length"), 29)
    tests.same("the entry is marked in the script", browser.value("document.querySelector('#behind mark').textContent"), '"restart 2"')
    tests.same("and stands in sight there", browser.value(IN_SIGHT), True)
    browser.value("document.getElementById('play').click(), 1")
    browser.wait("document.getElementById('entry').textContent.startsWith('32 ')")
    browser.value("document.getElementById('play').click(), 1")
    tests.same("it plays, and stops", browser.value("document.getElementById('play').textContent"), "Play")


def of_payloads(tests: Tests, browser: Browser) -> None:
    payload = made.lacpdu(made.Party(1, 7, 1, made.DOWN), made.Party(2, 9, 3, made.UP))
    marker = bytes.fromhex("0201011000010200000000010000000900000000") + bytes(90)
    header = "0180c20000020200000000018809"
    cases = {
        "a payload": (payload.hex(), "lacpdu\nactor 32768/02-00-00-00-00-01 key 7 port 255/1 state 05", ""),
        "a frame": (header + payload.hex(), "lacpdu\nactor 32768/02-00-00-00-00-01 key 7", "no answer lacpdu"),
        "a marker": (header + marker.hex(), "marker\nport 1 system 02-00-00-00-00-01 id 9", "0180c2000002020000000001880902010210"),
        "no payload": ("0101", "refused 1 short have 2", ""),
        "no digits": ("01z", "not hex", ""),
    }
    for name, (digits, decoded, answer) in cases.items():
        browser.value(f"(() => {{ const it = document.getElementById('hex'); it.value = {json.dumps(digits)}; it.dispatchEvent(new Event('input')); }})(), 1")
        came = browser.value("['decoded', 'answered'].map((it) => document.getElementById(it).textContent)")
        tests.same(f"{name} is decoded", (came[0].startswith(decoded), came[1].startswith(answer)), (True, True))
    browser.paste_text(payload.hex(" "))
    browser.wait("document.getElementById('decoded').textContent.startsWith('lacpdu')")
    tests.same("a payload that is pasted is decoded", browser.value("document.getElementById('payloads').open"), True)
    browser.value("document.getElementById('run-vectors').click(), 1")
    tests.same("the vectors are run", browser.value("document.getElementById('vectors').textContent").endswith("vectors 10 failed 0\n"), True)
