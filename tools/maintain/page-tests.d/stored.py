"""What passed and what failed, and tests of the page by what examples/ stores."""

from __future__ import annotations

import base64
import os
import subprocess
from typing import Any

from browser import Browser
from repository import TOP, read_bytes, read_text

EXAMPLES = os.path.join(TOP, "examples")
CAPTURES = os.path.join(EXAMPLES, "captures")
UNEQUAL = os.path.join(CAPTURES, "unequal-keys.pcapng")


class Tests:
    """What passed and what failed so far."""

    def __init__(self) -> None:
        self.passed = self.failed = 0

    def told(self, what: str, why: str) -> None:
        """Tells of a test; it passed where there is no reason why not."""
        self.failed += bool(why)
        self.passed += not why
        print(f"FAILED: {what}: {why}" if why else f"passed: {what}", flush=True)

    def same(self, what: str, came: Any, wanted: Any) -> None:
        self.told(what, "" if came == wanted else f"{str(came)[:200]!r} in place of {str(wanted)[:200]!r}")

    def runs(self, what: str, words: list[str]) -> None:
        ended = subprocess.run(words, stdin=subprocess.DEVNULL, capture_output=True, text=True)
        self.told(what, (ended.stdout + ended.stderr).strip()[-300:] if ended.returncode else "")


def octets_of(path: str) -> str:
    """An expression that gives the octets of a file."""
    return f"Uint8Array.from(atob('{base64.b64encode(read_bytes(path)).decode()}'), (it) => it.charCodeAt(0))"


def printed(browser: Browser, path: str, options: str) -> str:
    text: str = browser.value(f"lagtool.capture({octets_of(path)}, {options}).printed")
    return text


def captures() -> list[str]:
    """The captures of examples/."""
    return sorted(it for it in os.listdir(CAPTURES) if ".pcap" in it)


def of_examples(tests: Tests, browser: Browser) -> None:
    """Each capture of examples/, chosen as a file."""
    for name in captures():
        path = os.path.join(CAPTURES, name)
        shown, stem = browser.choose(path), path.rpartition(".")[0]
        tests.same(f"{name}: it is read to its end", (shown["said"], shown["status"] < 2), ("", True))
        if os.path.exists(f"{stem}.json"):
            tests.same(f"{name}: its records", printed(browser, path, "{ json: true }"), read_text(f"{stem}.json"))
        if os.path.exists(f"{stem}.report.txt"):
            tests.same(f"{name}: its report", printed(browser, path, "{ frames: false }"), read_text(f"{stem}.report.txt"))
