"""tools/test: what it removes before the gate runs, and which last lines are a verdict."""

from __future__ import annotations

from pathlib import Path

import pytest

import loading

program = loading.program("test")


@pytest.fixture
def crates(tmp_path: Path, monkeypatch: pytest.MonkeyPatch) -> Path:
    """The folder of crates of a repository of its own, with the verdict of an earlier run."""
    for name, path in ("TOP", tmp_path), ("CRATES", tmp_path / "crates"), ("VERDICT", tmp_path / "out" / "verdict"):
        monkeypatch.setattr(program, name, str(path))
    (tmp_path / "out").mkdir()
    (tmp_path / "out" / "verdict").write_text("earlier\n1 passed, 0 failed\n")
    (tmp_path / "crates").mkdir()
    return tmp_path / "crates"


def test_libraries_without_a_stamp_and_the_verdict_of_an_earlier_run_go(crates: Path) -> None:
    for name in "gate", "check":
        (crates / name / "out" / "rlib" / f"{name}.rlib").mkdir(parents=True)
    (crates / "check" / "out" / "rlib" / "stamp").write_text("its sources")
    program.forget_earlier_runs()
    assert [(crates / name / "out" / "rlib").exists() for name in ("gate", "check")] == [False, True]
    assert not (crates.parent / "out" / "verdict").exists()


@pytest.mark.parametrize(
    ("last", "status", "before", "after", "is_one"),
    [
        ("2 passed, 0 failed", 0, "a", "a", True),
        ("1 passed, 1 failed", 1, "a", "a", True),
        ("2 passed, 0 failed", 1, "a", "a", False),
        ("rt: it was killed", 137, "a", "a", False),
        ("2 passed, 0 failed", 0, "a", "b", False),
        ("2 passed, 0 failed", 0, None, None, False),
    ],
)
def test_a_verdict_is_of_a_commit_and_as_the_run_ended(
    last: str, status: int, before: str | None, after: str | None, is_one: bool, crates: Path, monkeypatch: pytest.MonkeyPatch
) -> None:
    sources = iter((before, after))
    monkeypatch.setattr(program.sys, "argv", ["test"])
    monkeypatch.setattr(program, "want", lambda name: None)
    monkeypatch.setattr(program, "tested_sources", lambda: next(sources))
    monkeypatch.setattr(program, "passed_on", lambda words: (last, status))
    monkeypatch.setattr(program, "by_stock_rust", lambda: program.stock.Tests(0, 0))
    assert program.main() == status
    verdict = crates.parent / "out" / "verdict"
    assert verdict.exists() == is_one
    assert not is_one or verdict.read_text() == f"{before}\n{last}\n"


@pytest.mark.parametrize(
    ("last", "status", "erasers", "tests", "told"),
    [
        ("2 passed, 0 failed", 0, 0, (3, 0), ("6 passed, 0 failed", 0)),
        ("2 passed, 0 failed", 0, 1, (3, 0), ("5 passed, 1 failed", 1)),
        ("2 passed, 0 failed", 0, 0, (3, 1), ("6 passed, 1 failed", 1)),
        ("1 passed, 1 failed", 1, 0, (3, 0), ("5 passed, 1 failed", 1)),
        ("rt: it was killed", 137, 0, (3, 0), ("rt: it was killed", 137)),
    ],
)
def test_what_stock_rust_says_is_counted_in_the_last_line(
    last: str, status: int, erasers: int, tests: tuple[int, int], told: tuple[str, int], monkeypatch: pytest.MonkeyPatch, capsys: pytest.CaptureFixture[str]
) -> None:
    monkeypatch.setattr(program.stock, "missing", lambda: "")
    monkeypatch.setattr(program, "passed_on", lambda words: ("", erasers))
    monkeypatch.setattr(program.stock, "tests", lambda: program.stock.Tests(*tests))
    assert program.with_stock_rust(last, status) == told
    assert capsys.readouterr().out == (f"{told[0]}\n" if "passed" in last else "")


def test_without_cargo_the_last_line_is_that_of_the_gate(monkeypatch: pytest.MonkeyPatch, capsys: pytest.CaptureFixture[str]) -> None:
    monkeypatch.setattr(program.stock, "missing", lambda: "there is no cargo")
    assert program.with_stock_rust("2 passed, 0 failed", 0) == ("2 passed, 0 failed", 0)
    told = capsys.readouterr()
    assert told.out == "2 passed, 0 failed\n" and "not by stock Rust: there is no cargo" in told.err
