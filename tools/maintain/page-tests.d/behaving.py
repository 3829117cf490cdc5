"""Tests of how the page behaves: findings, frames and their fields, the time axis, keys, broken files, looks."""

from __future__ import annotations

import json
import os
from typing import Any

import made
from browser import Browser
from repository import read_bytes, read_text, write_bytes
from stored import CAPTURES, UNEQUAL, Tests, captures, printed
from summing import EACH

HOSTILE = '<img src=x onerror="window.taken = true"><script>window.taken = true</script>'
# The frame that is chosen, and the packet whose fields are shown.
CHOSEN = "[document.activeElement.dataset.packet ?? '', document.querySelector('.chosen-frame:not([hidden]) h3')?.textContent.split(' ')[1] ?? '']"
VERDICT = "[document.getElementById('verdict').textContent, document.getElementById('verdict').className]"
TITLES = "[...document.querySelectorAll('#findings > li > strong')].map((it) => it.firstChild.textContent)"
UNSHOWN, ONE = "This capture does not show why", "The link carries, both ways. It is one link: of a bundle capture all links, since keys and partners are compared between them."
ALONE = "No cause is in this capture: ask both ends, and capture all links for 100 s."
NOT_WHY = "this capture does not show why: ask both ends, and capture all links for 100 s."
UNATTACHED = "02-00-00-00-00-01 port 1 has not attached it: another aggregator is in use there, or it has links enough"
OPEN = "document.querySelectorAll('#findings details').forEach((it) => { it.open = true; }), 1"
# The fields of each frame that is drawn, by a click on it.
FIELDS = """(async () => {
    const all = {};
    for (let depth = 0; depth < 2; depth += 1) {
        for (const it of document.querySelectorAll('#links details')) it.open = true;
        await new Promise((done) => setTimeout(done, 100));
    }
    for (const it of [...document.querySelectorAll('.frames button')]) {
        it.click();
        const shown = () => [...document.querySelectorAll('.chosen-frame:not([hidden])')].find((box) => box.querySelector('h3').textContent.startsWith(`Packet ${it.textContent} `));
        for (let tries = 0; tries < 200 && !shown(); tries += 1) await new Promise((done) => setTimeout(done, 5));
        all[it.textContent] = [...shown().querySelectorAll('.fields tbody tr')].map((row) => [...row.cells].slice(0, 2).map((cell) => cell.textContent));
    }
    return all;
})()"""


def of_page(tests: Tests, browser: Browser, folder: str) -> None:
    """How the page behaves."""
    of_findings(tests, browser)
    of_verdicts(tests, browser, folder)
    of_idle_links(tests, browser, folder)
    of_effects(tests, browser, folder)
    of_copies(tests, browser, folder)
    of_fields(tests, browser)
    of_axis(tests, browser)
    of_bundles(tests, browser, folder)
    of_silence(tests, browser, folder)
    of_unread(tests, browser, folder)
    of_lasting(tests, browser, folder)
    of_hostile(tests, browser, folder)
    of_keyboard(tests, browser)
    tests.same("a file that is dropped is explained", [browser.drop(UNEQUAL)[it] for it in ("status", "said")], [1, ""])
    tests.same("a file that is pasted is explained", [browser.paste(UNEQUAL)[it] for it in ("status", "said")], [1, ""])


def of_unable(tests: Tests, browser: Browser, page: str) -> None:
    """Where no script runs, a sentence says which browser can."""
    browser.call("Emulation.setScriptExecutionDisabled", value=True)
    browser.open(page)
    shown = browser.value("['unable', 'ask', 'more', 'shown'].map((it) => document.getElementById(it).offsetHeight > 0)")
    tests.same("without scripts a sentence says which browser can", shown, [True, False, False, False])
    browser.call("Emulation.setScriptExecutionDisabled", value=False)
    browser.go(page)
    tests.same("the box for what a system prints is unfolded", browser.value("document.getElementById('texts').open"), True)


def of_findings(tests: Tests, browser: Browser) -> None:
    browser.choose(UNEQUAL)
    stored = [it for it in read_text(f"{UNEQUAL.rpartition('.')[0]}.report.txt").splitlines() if it.startswith("finding ")]
    browser.value(OPEN)
    browser.settle()
    links = browser.value("[...document.querySelectorAll('#findings a')].map((it) => it.textContent)")
    tests.same("each finding leads to its packet", sorted(links), sorted("packet " + it.split(" packet ")[1].split()[0] for it in stored))
    packet = links[0].split()[1]
    browser.value("document.querySelector('#findings a').click(), 1")
    browser.wait("document.querySelector('.chosen-frame:not([hidden])') !== null")
    tests.same("a packet of a finding is chosen in the diagram, and its fields are shown", browser.value(CHOSEN), [packet, packet])
    inside = browser.value("(() => { const it = document.activeElement.getBoundingClientRect(); return it.top >= 0 && it.bottom <= innerHeight * 0.6; })()")
    tests.same("it is in view, above its fields", inside, True)
    rows = browser.value("['#links > details', '#links > details[open] svg', '#links svg .name'].map((it) => document.querySelectorAll(it).length)")
    tests.same("two links of one pair of systems stand on one axis", rows, [1, 1, 4])


def of_verdicts(tests: Tests, browser: Browser, folder: str) -> None:
    """A fault is told from what often follows from it, and from what calls for nothing."""
    browser.choose(UNEQUAL)
    tests.same("beside a capture the box is folded", browser.value("document.getElementById('texts').open"), False)
    tests.same("unequal keys are one fault", browser.value(VERDICT), ["1 of 2 links carries. Keys differ within one pair of systems.", "bad"])
    counts = browser.value("document.getElementById('counts').textContent")
    tests.same("it is told with its effects", counts, "1 fault, 2 likely effects, 1 remark, at 9 places")
    tests.same("the fault stands first", browser.value(TITLES), ["Keys differ within one pair of systems", "Remark: a wait of less than 2 seconds before synchronization"])
    first = browser.value("document.querySelector('#findings .first').textContent")
    tests.same("it says which system has which keys", first, "02-00-00-00-02-00 has keys 20 and 21, where 02-00-00-00-01-00 has 10")
    effects = browser.value("[...document.querySelectorAll('#findings > li:first-child > details > summary')].at(-1).textContent")
    tests.same("its effects are folded", effects, "Likely effects: distributing while the partner is not collecting; synchronization lost")
    where = browser.value("[document.querySelector('#findings .rule').textContent, document.querySelector('#findings li > .quiet').textContent.split(', packet')[0]]")
    tests.same("a finding has its rule, and the system of its end", where, [" (rule 15, 6.3.6)", "a1 02-35-6b-bd-97-92 port 2 of system 02-00-00-00-01-00"])
    browser.choose(os.path.join(CAPTURES, "open-vswitch.pcap"))
    tests.same("a remark alone is no fault", browser.value(VERDICT), [ONE, "good"])
    tests.same("it is not drawn as one", browser.value("document.querySelectorAll('#links svg .found:not(.quiet), #links svg .bad').length"), 0)
    cut = os.path.join(folder, "cut.pcap")
    with open(os.path.join(CAPTURES, "open-vswitch.pcap"), "rb") as it, open(cut, "wb") as out:
        out.write(it.read()[:-1])
    browser.choose(cut)
    tests.same("of a capture that is cut short it is not said", browser.value(VERDICT), [ONE, "bad"])
    split = os.path.join(folder, "split.pcap")
    ends = ((made.Party(1, 7, port, made.UP), made.Party(port + 1, 8, 4, made.UP), made.at(port / 100, 10)) for port in (1, 2))
    made.capture(split, *(made.exchange(*it) for it in ends))
    browser.choose(split)
    said = "Links of one system lead to two systems", "02-00-00-00-00-01 leads to 02-00-00-00-00-02 and 02-00-00-00-00-03"
    named = [*browser.value(VERDICT), browser.value(TITLES), browser.value("document.querySelector('#findings .first').textContent")]
    tests.same("links to two systems are one fault, which names both", named, [f"2 of 2 links carry, {EACH}. {said[0]}.", "bad", [said[0]], said[1]])


def of_idle_links(tests: Tests, browser: Browser, folder: str) -> None:
    """Without a finding it is good news only where all links carry."""
    path = os.path.join(folder, "links.pcap")
    cases: dict[str, tuple[list[int], list[str]]] = {
        "a link that carries": ([made.UP], [ONE, "good"]),
        "a link that does not": ([made.DOWN], [f"0 of 1 link carries. {ALONE}", ""]),
        "one of three": ([made.UP, made.DOWN, made.UP], [f"2 of 3 links carry. {ALONE}", ""]),
        "two of three": ([made.UP, made.DOWN, made.DOWN], [f"1 of 3 links carries. {ALONE}", ""]),
    }
    for name, (states, wanted) in cases.items():
        made.capture(path, *(made.exchange(*made.one_link(state, port=port), made.at(port / 100, 20)) for port, state in enumerate(states, 1)))
        browser.choose(path)
        tests.same(f"{name}: without a finding the page says what carries", browser.value(VERDICT), wanted)


def of_effects(tests: Tests, browser: Browser, folder: str) -> None:
    """What often follows from a fault, where there is no other: LACPDUs that do not arrive are one; of others the capture does not show why."""
    first = "document.querySelector('#findings li').textContent"
    browser.choose(os.path.join(CAPTURES, "bonding.pcap"))
    tests.same("an effect without a fault has no cause in this capture", browser.value(VERDICT), [f"0 of 1 link carries. 02-00-00-00-0b-00 port 1 hears nobody; {NOT_WHY}", ""])
    said = browser.value(first)
    wanted = UNSHOWN, "rule 13 is normal if both ends distribute later"
    tests.same("it says so, and that it is normal after a start", [it in said for it in wanted], [True, True])
    path = os.path.join(folder, "attached.pcap")
    one, other = made.one_link(made.DOWN, made.ATTACHED)
    made.capture(path, made.sends(one, other, range(20)), made.sends(other, one, made.at(0.004, 20)))
    browser.choose(path)
    tests.same("so has a link that the partner does not attach", [*browser.value(VERDICT), UNSHOWN in browser.value(first)], [f"0 of 1 link carries. {UNATTACHED}; {NOT_WHY}", "", True])
    one, stray = made.one_link(made.DEFAULTED)
    made.capture(path, made.sends(one, None, range(20)), made.sends(other, one, made.at(0.004, 20)))
    browser.choose(path)
    tests.same("an end that hears nothing is a fault", browser.value(VERDICT), ["0 of 1 link carries. An end hears nobody for longer than 6 seconds.", "bad"])
    titles = ["An end hears nobody for longer than 6 seconds"]
    said = browser.value("document.getElementById('findings').textContent")
    tests.same("it stands first, and explains the other", [browser.value(TITLES), UNSHOWN in said], [titles, False])
    elsewhere = [(second, made.SLOW[:-1] + b"\x00" + octets[6:]) for second, octets in made.sends(stray, None, made.at(0.004, 20))]
    made.capture(path, made.sends(one, None, range(20)), elsewhere)
    browser.choose(path)
    tests.same("it follows from a fault of whoever is on its interface", browser.value(VERDICT), ["0 of 1 link carries. A frame to another destination.", "bad"])


def of_copies(tests: Tests, browser: Browser, folder: str) -> None:
    """Two machines with one system, and a port that hears itself."""
    copied = os.path.join(folder, "copied.pcap")
    one, itself = made.Party(1, 7, 1, made.DOWN), made.Party(1, 7, 2, made.DOWN)
    twin = made.sends(one, one, made.at(0.1, 10), made.Party(9, 7, 1, made.DOWN).source())
    made.capture(copied, made.sends(one, one, range(10)), twin, made.sends(itself, itself, made.at(0.2, 10)))
    browser.choose(copied)
    tests.same("each end is a place of a copied system", browser.value("document.getElementById('counts').textContent"), "1 fault, 1 likely effect, at 5 places")
    tests.same("what follows from it is no fault", browser.value(TITLES), ["The partner's system is the end's own"])
    ends = browser.value("[...document.querySelectorAll('#links svg .name')].map((it) => it.textContent)")
    alone = ["02-00-00-00-01-02 port 2", "the other end is not heard"]
    tests.same("a port that hears itself has no other end", ends, ["02-00-00-00-01-01 port 1", "02-00-00-00-09-01 port 1", *alone])


def fields_wanted(record: dict[str, Any]) -> list[list[str]]:
    """What the fields of a frame say, by its record."""
    if record["kind"] == "lacpdu":
        found: list[list[str]] = []
        for name in "actor", "partner":
            party = record[name]
            (priority, system), (port_priority, port) = party["system"].split("/"), party["port"].split("/")
            values = [priority, system, str(party["key"]), port_priority, port]
            found += [[f"{name} {it}", value] for it, value in zip(["system priority", "system", "key", "port priority", "port"], values)]
            found.append([f"{name} state", f"{party['state']:02x}"])
        return [*found, ["CollectorMaxDelay", str(record["max_delay"])]]
    if record["kind"] in ("marker", "marker-response"):
        return [["requester port", str(record["port"])], ["requester system", record["system"]], ["requester transaction ID", str(record["id"])]]
    return []


def of_fields(tests: Tests, browser: Browser) -> None:
    """The fields that the page reads out of the octets are those of the records."""
    for name in captures():
        path = os.path.join(CAPTURES, name)
        browser.choose(path)
        records = [json.loads(it) for it in printed(browser, path, "{ json: true }").splitlines()]
        frames = {str(it["packet"]): fields_wanted(it) for it in records if it["record"] == "frame"}
        shown = browser.value(FIELDS)
        came = {packet: [[name, value.split(":")[0] if name.endswith(" state") else value] for name, value in rows] for packet, rows in shown.items()}
        missing = [f"packet {packet}: {row}" for packet, rows in frames.items() for row in rows if row not in came.get(packet, [])]
        tests.told(f"{name}: the fields of {len(frames)} frames are those of the records", "; ".join(missing)[:400])


def of_axis(tests: Tests, browser: Browser) -> None:
    """The time axis by keys, wheel and drag."""
    browser.choose(UNEQUAL)
    marks = "[...document.querySelectorAll('.timeline svg .grid + text')].map((it) => it.textContent)"
    browser.wait(f"{marks}.length > 0")  # it is drawn with the next picture
    whole = browser.value(f"document.querySelector('.timeline svg').focus(), {marks}")
    for key in "ArrowRight", "ArrowRight", "Enter":
        browser.key(key)
    inside = browser.wait("document.activeElement.closest('.fields') !== null")
    at = browser.value("document.querySelector('.timeline .chosen').dataset.packet")
    tests.same("left and right go from frame to frame, in the order of times", at, "4")
    tests.same("Enter goes to the fields", inside, True)
    browser.key("ArrowDown")
    marked = browser.value("[document.activeElement.cells[0].textContent, document.querySelectorAll('.octets .marked').length]")
    tests.same("a field marks its octets", marked, ["source address", 6])
    browser.key("Escape")
    tests.same("Escape goes back to the frame", browser.value(CHOSEN), ["4", ""])
    browser.key("+")
    near = browser.value(f"new Promise((done) => requestAnimationFrame(() => requestAnimationFrame(() => done({marks}))))")
    browser.key("0")
    again = browser.value(f"new Promise((done) => requestAnimationFrame(() => requestAnimationFrame(() => done({marks}))))")
    tests.same("plus zooms, and 0 shows all again", (near != whole, again), (True, whole))
    x, y = browser.value("(() => { const it = document.querySelector('.timeline svg'); it.scrollIntoView(); const at = it.getBoundingClientRect(); return [at.x + 400, at.y + 60]; })()")
    browser.wheel(x, y, -240)
    browser.settle()
    near = browser.value(marks)
    tests.same("Ctrl and the wheel zoom", near != whole, True)
    browser.drag(x, y, -150)
    browser.settle()
    tests.same("a drag moves the axis", browser.value(marks) != near, True)


def of_silence(tests: Tests, browser: Browser, folder: str) -> None:
    """A capture without an LACPDU says that LACP may be off, or static."""
    path = os.path.join(folder, "silent.pcap")
    made.pcap(path, [(0.0, bytes([255] * 6 + [2, 0, 0, 0, 0, 1]) + b"\x08\x06" + bytes(46))])
    browser.choose(path)
    said = browser.value("document.getElementById('verdict').textContent")
    tests.same("without an LACPDU it asks whether LACP is on", [it in said for it in ("No LACPDU", "passive at both", "active, not on", "mode=802.3ad", "capture its members")], [True] * 5)


def of_unread(tests: Tests, browser: Browser, folder: str) -> None:
    """Frames of the slow protocols that are refused are no good news, unless they are of another protocol."""
    one, other = made.one_link(made.UP)
    whole, oam = [octets for _, octets in made.exchange(one, other, [0.0])], [made.frame(one.source(), b"\x03" + bytes(109))]
    frames, how, path = "frames of the slow protocols could not be read", "capture whole frames (tcpdump -s 0)", os.path.join(folder, "short.pcap")
    cases = {
        "no LACPDU": (whole, 50, [f"No LACPDU could be read: 2 of 2 {frames}: {how}.", "bad"]),
        "one of three": ([*whole, made.frame(one.source(), b"\x01\x01\x01\x13" + bytes(106))], 124, [f"1 of 3 {frames}: {how}, unless they are of another protocol, as OAM. {ONE}", "bad"]),
        "a short one": ([*whole, whole[0][:60]], 124, [f"1 of 3 {frames}: see rule 7. 1 of 1 link carries. A frame of another length.", "bad"]),
        "each": ([*whole, *oam], 124, [ONE, "good"]),
    }
    for name, (packets, most, wanted) in cases.items():
        made.pcap(path, [(float(number), it) for number, it in enumerate(packets)], most)
        browser.choose(path)
        tests.same(f"{name} of the frames could be read: the page says so", browser.value(VERDICT), wanted)
    made.pcap(path, [(0.0, oam[0])])
    browser.choose(path)
    tests.same("OAM alone is no LACP", browser.value(VERDICT)[0].startswith("No LACPDU is in this capture."), True)


def of_lasting(tests: Tests, browser: Browser, folder: str) -> None:
    """A capture says how long it lasts, and whether that is too short for timeouts."""
    path = os.path.join(folder, "long.pcap")
    for last, more in (92, ", shorter than 93 s: not each timeout may show."), (93, "."):
        made.capture(path, made.exchange(*made.one_link(made.UP), range(last + 1)))
        browser.choose(path)
        said = browser.value("document.getElementById('lasts').textContent")
        tests.same(f"{last} seconds of a capture", said, f"Its LACPDUs span {last}.0 s{more}")


def of_bundles(tests: Tests, browser: Browser, folder: str) -> None:
    """Many links, many ends, and packets without times."""
    names = {name: os.path.join(folder, name) for name in ("bundle.pcap", "crowd.pcap", "timeless.pcapng")}
    made.bundle(names["bundle.pcap"])
    made.crowd(names["crowd.pcap"], 5000)
    made.pcapng(names["timeless.pcapng"], [octets for _, octets in made.exchange(*made.one_link(made.UP), range(9))])
    browser.choose(names["bundle.pcap"])
    counts = browser.value("['#links > details', '#links svg .name', '#links svg .name.bad'].map((it) => document.querySelectorAll(it).length)")
    tests.same("eight links of two systems stand on one axis, the silent one too", counts, [1, 16, 1])
    browser.choose(names["crowd.pcap"])
    told = browser.value("document.getElementById('undrawn-frames').textContent")
    tests.same("of 5000 ends some are drawn", told, "Of 5000 frames 128 are drawn.")
    browser.choose(names["timeless.pcapng"])
    marks = browser.value("[...document.querySelectorAll('.timeline svg .grid + text')].map((it) => it.textContent)")
    tests.same("packets without times stand in their order", (len(marks) > 3, [it for it in marks if not it.isdigit()]), (True, []))


def of_hostile(tests: Tests, browser: Browser, folder: str) -> None:
    """Broken files, and words that a page must not take for its own."""
    whole = read_bytes(UNEQUAL)
    cases = {
        "cut.pcapng": whole[:1001],
        "nothing.pcap": b"",
        "lengths.pcap": bytes.fromhex("d4c3b2a1020004000000000000000000ffffffff01000000") + b"\xff" * 64,
        "noise.bin": bytes((7 * it * it + it) % 251 for it in range(100000)),
        HOSTILE.replace("/", "") + ".pcap": b"\xd4\xc3[[system]]\n",
    }
    for name, octets in cases.items():
        path = os.path.join(folder, name)
        write_bytes(path, octets)
        shown = browser.choose(path)
        tests.same(f"a broken file, {name}: it is refused by words", (bool(shown["said"] or shown["printed"]), shown["status"]), (True, 2))
        tests.same(f"a broken file, {name}: none of it runs", browser.value("[window.taken ?? 0, document.querySelectorAll('#shown img, #shown script').length]"), [0, 0])
    tests.same("behind broken files a capture is explained", browser.choose(UNEQUAL)["status"], 1)


def of_keyboard(tests: Tests, browser: Browser) -> None:
    browser.value("window.shown = null, scrollTo(0, 0), document.activeElement.blur(), document.getElementById('file').focus(), 1")
    browser.key("Tab")
    at = browser.value("document.activeElement.id")
    browser.key("Enter")
    tests.same("the keyboard shows the example", (at, browser.shown()["status"]), ("example", 1))
    tests.told("what can be used has a name for a screen reader", "; ".join(browser.nameless())[:300])


def of_looks(tests: Tests, browser: Browser, view: str, pictures: str | None) -> None:
    """Light, dark and narrow; the pictures are for a person to look at."""
    for name, width, height, dark in ("light", 1000, 1280, False), ("dark", 1000, 1280, True), ("narrow", 360, 760, False):
        browser.size(width, height)
        browser.dark(dark)
        browser.settle()
        reach = browser.value("document.documentElement.scrollWidth")
        tests.same(f"{view}, {name}: nothing reaches beyond {width} pixels", reach <= width, True)
        if pictures:
            os.makedirs(pictures, exist_ok=True)
            browser.picture(os.path.join(pictures, f"{view}-{name}.png"))
    browser.size(1200, 1500)
    browser.dark(False)
