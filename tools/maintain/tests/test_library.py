"""tools/library.py: what the library shows, and a command that fails."""

from __future__ import annotations

import os
from pathlib import Path
from types import SimpleNamespace

import pytest

import loading
import processors
import repository
from repository import Missing, read_text

library = loading.module("", "library")

HEADER = """\
int32_t lagffi_tick(struct lagffi_system *system);
uint32_t lagffi_abi(void);
typedef int lagffi_no_function;
"""


@pytest.mark.parametrize(("text", "found"), [(HEADER, ["lagffi_abi", "lagffi_tick"]), ("/* nothing */\n", None)])
def test_the_functions_of_a_header_in_the_order_of_their_names(tmp_path: Path, monkeypatch: pytest.MonkeyPatch, text: str, found: list[str] | None) -> None:
    header = tmp_path / "lag.h"
    header.write_text(text, encoding="utf-8")
    monkeypatch.setattr(library, "HEADER", str(header))
    if found:
        assert library.exports() == found
    else:
        with pytest.raises(Missing, match="declares no function"):
            library.exports()


def test_each_function_is_shown_in_its_version_and_nothing_else(tmp_path: Path, monkeypatch: pytest.MonkeyPatch) -> None:
    symbols = tmp_path / "symbols"
    symbols.write_text(" LAG_0@LAG_0 0.1.0\n LAG_1@LAG_1 0.2.0\n lagffi_a@LAG_1 0.2.0\n lagffi_b@LAG_0 0.1.0\n", encoding="utf-8")
    monkeypatch.setattr(library, "SYMBOLS", str(symbols))
    words = read_text(library.version_script(str(tmp_path))).split()
    assert words == ["LAG_0", "{", "global:", "lagffi_b;", "local:", "*;", "};", "LAG_1", "{", "global:", "lagffi_a;", "}", "LAG_0;"]


def test_what_a_command_prints() -> None:
    assert library.printed("cat", given="a text\n") == "a text\n"


@pytest.mark.parametrize(
    ("words", "why"),
    [(["sh", "-c", "echo no such thing >&2; exit 3"], "failed: no such thing"), (["no-such-command"], "there is no command no-such-command in PATH")],
)
def test_a_command_that_fails_or_is_not_here_is_told(words: list[str], why: str) -> None:
    with pytest.raises(Missing, match=why):
        library.printed(*words)


def test_a_library_of_another_command_keeps_its_stamp(tmp_path: Path, monkeypatch: pytest.MonkeyPatch) -> None:
    names = ("of_the_test_command", "of_another_command", "made_since")
    places = [tmp_path / name / "out" / "rlib" for name in names]
    for name, place in zip(names, places):
        (place / f"{name}.rlib").mkdir(parents=True)
        os.utime(place / f"{name}.rlib", (1, 1) if name != "made_since" else (2**33, 2**33))
    (places[1] / "stamp").write_text("older", encoding="utf-8")
    (tmp_path / "verdict").write_text("", encoding="utf-8")
    monkeypatch.setattr(repository, "VERDICT", str(tmp_path / "verdict"))
    found = [SimpleNamespace(folder=str(tmp_path / name), rlib=str(place / f"{name}.rlib"), stamp=lambda: "now") for name, place in zip(names, places)]
    monkeypatch.setattr(processors, "CRATES", str(tmp_path))
    monkeypatch.setattr(processors, "rtlib", lambda: SimpleNamespace(crates_below=lambda _: found))
    for passed, stamps in (False, [False, True, False]), (True, [True, True, False]):
        monkeypatch.setattr(processors, "has_passed", lambda: passed)
        processors.take_libraries()
        assert [(place / "stamp").exists() for place in places] == stamps
    assert [(place / "stamp").read_text(encoding="utf-8") for place in places[:2]] == ["now", "older"]
