"""What crates.txt says, and the commands that a tool wants."""

from __future__ import annotations

import os
import subprocess
import sys
from pathlib import Path

import pytest

import loading
import repository

LISTED = """# Each line names a crate.
low: bitflags
odd staticlib: clap low   # a library for C
other:

high: odd other arrayvec
"""


@pytest.fixture
def listed(tmp_path: Path, monkeypatch: pytest.MonkeyPatch) -> None:
    (tmp_path / "crates.txt").write_text(LISTED)
    monkeypatch.setattr(repository, "TOP", str(tmp_path))


def test_a_line_is_known_by_its_crate_without_its_comment(listed: None) -> None:
    assert repository.lines() == {"low": "low: bitflags", "odd": "odd staticlib: clap low", "other": "other:", "high": "high: odd other arrayvec"}


def test_a_crate_uses_those_of_the_repository(listed: None) -> None:
    assert repository.crates() == {"low": [], "odd": ["low"], "other": [], "high": ["odd", "other"]}


@pytest.mark.parametrize(
    ("names", "found"),
    [
        (["low"], ["low"]),
        (["odd"], ["low", "odd"]),
        (["high"], ["low", "odd", "other", "high"]),
        (["other", "odd"], ["other", "low", "odd"]),
        ([], []),
    ],
)
def test_what_is_below_comes_first_and_once(listed: None, names: list[str], found: list[str]) -> None:
    assert repository.below(*names) == found


@pytest.fixture
def commands(tmp_path: Path, monkeypatch: pytest.MonkeyPatch) -> Path:
    """A folder with the commands ccache and gcc, the only one of PATH."""
    for name in ("ccache", "gcc"):
        (tmp_path / name).write_text("#!/bin/sh\n")
        (tmp_path / name).chmod(0o755)
    monkeypatch.setenv("PATH", str(tmp_path))
    return tmp_path


@pytest.mark.parametrize("name", ["gcc", "ccache gcc", "ccache gcc -m64"])
def test_a_command_that_is_here_is_no_fault(commands: Path, name: str) -> None:
    repository.want(name)


@pytest.mark.parametrize("name", ["clang", "distcc gcc", "", "  "])
def test_a_command_that_is_missing_is_told(commands: Path, name: str) -> None:
    with pytest.raises(repository.Missing, match=f"there is no command {name} in PATH"):
        repository.want("gcc", name)


def test_a_command_may_stand_in_a_folder_with_a_space(commands: Path) -> None:
    folder = commands / "two words"
    folder.mkdir()
    (commands / "gcc").rename(folder / "rt")
    repository.want(str(folder / "rt"))


@pytest.mark.parametrize(
    ("given", "words"),
    [("gcc", ["gcc"]), ("ccache gcc", ["ccache", "gcc"]), ("'my cc' -m64", ["my cc", "-m64"]), (None, ["cc"])],
)
def test_a_command_line_begins_with_the_words_of_the_compiler(commands: Path, given: str | None, words: list[str]) -> None:
    env = {"PATH": str(commands), **({"CC": given} if given else {})}
    asked = "import repository; print(repository.COMPILER)"
    told = subprocess.run([sys.executable, "-c", asked], cwd=loading.TOOLS, env=env, capture_output=True, text=True, check=True)
    assert told.stdout.strip() == repr(words)


def test_a_missing_tool_ends_with_status_2(monkeypatch: pytest.MonkeyPatch, capsys: pytest.CaptureFixture[str]) -> None:
    def fails() -> int:
        raise repository.Missing("no tape")

    monkeypatch.setattr(sys, "argv", [os.path.join("tools", "some-tool")])
    with pytest.raises(SystemExit) as ended:
        repository.run(fails)
    assert (ended.value.code, capsys.readouterr().err) == (2, "some-tool: no tape\n")


@pytest.fixture
def tested(tmp_path: Path, monkeypatch: pytest.MonkeyPatch) -> Path:
    """A checkout with one commit, the file in which the test command leaves its verdict, and a program."""
    monkeypatch.setattr(repository, "TOP", str(tmp_path))
    monkeypatch.setattr(repository, "VERDICT", str(tmp_path / "out" / "verdict"))
    monkeypatch.setattr(repository, "RT", "echo")
    (tmp_path / ".gitignore").write_text("out\n")
    for folder in ("out", "crates"):
        (tmp_path / folder).mkdir()
    for file in ("out/program", "crates/a.rt", "crates.txt", "HANDLES"):
        (tmp_path / file).write_text("")
    for words in ["init", "-q"], ["add", "."], ["-c", "user.name=a", "-c", "user.email=a@example", "commit", "-qm", "one"]:
        subprocess.run(["git", *words], cwd=tmp_path, check=True)
    return tmp_path


@pytest.mark.parametrize(
    ("line", "edited", "made"),
    [
        ("140 passed, 0 failed (106 edits refused)", "", True),
        ("140 passed, 0 failed", "docs", True),
        ("139 passed, 1 failed", "", False),
        ("140 passed, 0 failed", "crates/b.rt", False),
        ("140 passed, 0 failed", "HANDLES", False),
        (None, "", False),
    ],
)
def test_what_the_gate_made_counts_where_it_passed_on_these_sources(tested: Path, line: str | None, edited: str, made: bool) -> None:
    if line:
        (tested / "out" / "verdict").write_text(f"{repository.tested_sources()}\n{line}\n")
    if edited:
        (tested / edited).write_text("more")
    os.utime(tested / "out" / "program", (1, 1))
    assert repository.verdict() == (None if edited not in ("", "docs") else line)
    assert repository.is_made_by_gate(str(tested / "out" / "program")) == made
    assert not repository.is_made_by_gate(str(tested / "out" / "none"))
    # Another command made it since.
    os.utime(tested / "out" / "program", (2**33, 2**33))
    assert not repository.is_made_by_gate(str(tested / "out" / "program"))
