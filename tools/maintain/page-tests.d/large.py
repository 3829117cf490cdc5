"""Tests of a capture of 1 GB: it is read piece by piece, shows how far it is, and can be stopped; and the memory that this takes."""

from __future__ import annotations

import os
import time

import made
from browser import Browser
from stored import Tests

SIZE = 1_000_000_000
MOST = 700_000_000  # octets of memory that the page may take at most
DATA = 1400  # octets of a packet of data
EACH = 20  # packets of data between two LACPDUs
PATIENCE = 900.0  # seconds


def write(path: str) -> tuple[int, int]:
    """Writes a capture of two ends with much data between their LACPDUs; gives how many packets and LACPDUs it has."""
    frames = [octets for _, octets in made.exchange(*made.one_link(made.UP), [0.0])]
    data, group = bytes.fromhex("0200000000020200000000010800") + bytes(DATA), EACH * (DATA + 30) + 140
    count = SIZE // group + 1
    made.pcap(path, ((number / 2 + part / 1000, [frames[number % 2], data][part > 0]) for number in range(count) for part in range(EACH + 1)))
    return count * (EACH + 1), count


def of_large(tests: Tests, browser: Browser, folder: str) -> None:
    path = os.path.join(folder, "large.pcap")
    packets, lacpdus = write(path)
    browser.begin(path)
    browser.wait("!document.getElementById('reading').hidden && document.getElementById('far').value > 0")
    browser.value("document.getElementById('stop').click(), 1")
    shown = browser.shown()
    tests.same("a capture of 1 GB shows how far it is read, and is stopped", shown["said"], "stopped")
    began = time.monotonic()
    shown = browser.choose(path, patience=PATIENCE)
    tests.same("a capture of 1 GB is read to its end", shown["printed"].splitlines()[-1].split(" ends")[0], f"packets {packets} slow {lacpdus}")
    took, most = time.monotonic() - began, browser.most_memory()
    print(f"a capture of 1 GB took {took:.0f} s; the page had {most / 1e6:.0f} MB in memory at most", flush=True)
    tests.same(f"the page has no more than {MOST // 1_000_000} MB in memory", most <= MOST, True)
    browser.value("document.querySelector('.timeline svg').focus(), 1")
    browser.key("End")
    browser.wait("document.querySelector('.chosen-frame:not([hidden]) .fields') !== null")
    last = browser.value("document.querySelector('.chosen-frame h3').textContent.split(' ')[1]")
    tests.same("the last LACPDU of 1 GB has its fields", last, str(1 + (lacpdus - 1) * (EACH + 1)))
    os.remove(path)
