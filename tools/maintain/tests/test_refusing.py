"""tools/maintain/refusing.py, tools/maintain/refuse.c and tools/maintain/refuse-memory: which call is refused, and which runs count."""

from __future__ import annotations

import os
import re
import subprocess
import sys
from typing import Any

import pytest

import loading

refusing = loading.module("", "refusing")
memory = loading.program("refuse-memory")


@pytest.fixture(scope="module")
def refuser() -> Any:
    with refusing.Refuser() as made:
        yield made


@pytest.mark.parametrize(("calls", "came"), [("malloc:1", True), ("malloc:1+", True), ("malloc:1000000000", False)])
def test_a_call_is_refused_or_never_comes(refuser: Any, calls: str, came: bool) -> None:
    ended, refused = refuser.run([sys.executable, "-c", ""], calls)
    assert refused == came
    assert came or ended.returncode == 0


def test_a_write_that_is_refused_fails(refuser: Any) -> None:
    words = [sys.executable, "-c", "import os; os.write(1, b'word')"]
    ended, refused = refuser.run(words, "write:1")
    assert (refused, ended.returncode, ended.stdout) == (True, 1, b"")
    ended, refused = refuser.run(words, "write:9")
    assert (refused, ended.returncode, ended.stdout) == (False, 0, b"word")


class Fake:
    """Runs whose first calls for memory come; each of them ends with one of these outputs."""

    def __init__(self, outputs: list[bytes]) -> None:
        self.outputs = outputs
        self.asked: list[str] = []

    def run(self, words: list[str], calls: str) -> tuple[subprocess.CompletedProcess[bytes], bool]:
        self.asked.append(calls)
        place = len(self.asked) - 1
        text = self.outputs[place] if place < len(self.outputs) else b"test result: ok\n"
        return subprocess.CompletedProcess(words, 0, text, b""), place < len(self.outputs)


def test_each_allocation_is_refused_until_none_is_left() -> None:
    fake = Fake([b"test result: ok\n"] * 3)
    assert memory.refuse_all(fake, "tests_system", "a_test") == (3, 0)
    assert fake.asked == ["malloc:1", "malloc:2", "malloc:3", "malloc:4"]


def test_a_run_that_does_not_pass_is_counted() -> None:
    assert memory.refuse_all(Fake([b"test result: ok\n", b"test result: FAILED\n", b""]), "tests_system", "a_test") == (1, 2)


@pytest.mark.parametrize(("crate", "test"), memory.TESTS)
def test_each_test_that_it_runs_stands(crate: str, test: str) -> None:
    *modules, name = test.split("::")
    assert re.search(rf"#\[test\]\nfn {name}\(", loading.text_of(os.path.join("crates", crate, "src", *modules) + ".rt"))
