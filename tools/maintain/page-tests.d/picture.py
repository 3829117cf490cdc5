"""README's picture of the page: the example, as the page shows it. The picture keeps what was said in it, so that an older one is told."""

from __future__ import annotations

import os
import struct
import zlib

from browser import Browser
from repository import TOP, read_bytes, write_bytes
from stored import UNEQUAL, Tests

PICTURE = os.path.join(TOP, "docs", "try.png")
SAID = """['name', 'verdict', 'lines', 'counts', 'lasts', 'findings'].map((it) => document.getElementById(it).textContent).join('\\n')
    + document.querySelector('header').textContent + document.getElementById('drop').textContent"""
KEY, SIGNATURE = b"page\0", 8


def chunks(octets: bytes) -> list[tuple[bytes, bytes]]:
    """The chunks of a PNG: their types and octets."""
    found, at = [], SIGNATURE
    while at < len(octets):
        (count,) = struct.unpack(">I", octets[at : at + 4])
        found.append((octets[at + 4 : at + 8], octets[at + 8 : at + 8 + count]))
        at += 12 + count
    return found


def digest(said: str) -> bytes:
    return KEY + f"{zlib.crc32(said.encode()):08x}".encode()


def shown(browser: Browser) -> str:
    """What the page says of the example, in the size of the picture."""
    browser.size(1000, 1280)
    browser.choose(UNEQUAL)
    browser.settle()
    said: str = browser.value(SAID)
    return said


def write_picture(browser: Browser) -> None:
    said = shown(browser)
    browser.picture(PICTURE)
    octets = read_bytes(PICTURE)
    whole = octets[:SIGNATURE]
    for kind, inside in [*chunks(octets)[:-1], (b"tEXt", digest(said)), chunks(octets)[-1]]:
        whole += struct.pack(">I", len(inside)) + kind + inside + struct.pack(">I", zlib.crc32(kind + inside))
    write_bytes(PICTURE, whole)


def of_picture(tests: Tests, browser: Browser) -> None:
    """README's picture is of this page."""
    kept = [inside for kind, inside in chunks(read_bytes(PICTURE)) if kind == b"tEXt"]
    tests.told("docs/try.png shows what the page says", "" if digest(shown(browser)) in kept else "tools/maintain/page-tests --picture writes it")
    browser.size(1200, 1500)
