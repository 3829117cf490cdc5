"""An edit: its lines, and how it is put in and taken out."""

from __future__ import annotations

from pathlib import Path

import pytest

import loading  # noqa: F401  (tools/ is looked up)
import edits
from repository import Missing, crates

EDIT = """refused-by: tests_system systems::limits::a_limit_holds systems::limits::none_is_none
refused-by: tests_system systems::limits::most
file: specs/Limits.antt
old: most = 64
new: most = 65
file: src/limits.rt
everywhere: 64
new: 65
old: return kept;
new:
"""


@pytest.fixture
def crate(tmp_path: Path) -> Path:
    (tmp_path / "src").mkdir()
    (tmp_path / "src" / "a.rt").write_text("one two one\n")
    (tmp_path / "src" / "b.rt").write_text("three\n")
    return tmp_path


def test_an_edit_says_what_it_replaces() -> None:
    trial = edits.read_trial("lagsystem", "limit", EDIT.splitlines())
    assert trial.pairs == (("specs/Limits.antt", "most = 64", "most = 65"), ("src/limits.rt", "64", "65"), ("src/limits.rt", "return kept;", ""))
    assert [isinstance(old, edits.Everywhere) for _, old, _ in trial.pairs] == [False, True, False]
    assert trial.tests == tuple(("tests_system", f"systems::limits::{it}") for it in ("a_limit_holds", "none_is_none", "most"))
    assert trial.fault() is None


def test_another_line_is_refused_with_its_edit() -> None:
    with pytest.raises(Missing, match=r"lagsystem/limit: not a line of an edit: older: a"):
        edits.read_trial("lagsystem", "limit", ["file: src/x.rt", "older: a"])


@pytest.mark.parametrize(
    ("rows", "why"),
    [
        (["old: a", "new: b"], "no line `file:` says in which file this stands: old: a"),
        (["file: specs/A.antt", "old: a", "new: b", "body: a", "new: b"], "no line `file:` says in which file this stands: body: a"),
        (["file: specs/A.antt src/a.rt", "old: a", "new: b", "file: specs/B.antt", "body: a"], "in which file this stands: body: a"),
        (["file: src/a.rt", "new: b"], "not a line of an edit: new: b"),
        (["file: src/a.rt", "old: a", "old: b", "new: c"], "no line `new:` says what stands in the place of: a"),
        (["file: src/a.rt", "old: a", "new: b", "old: c"], "no line `new:` says what stands in the place of: c"),
        (["refused-by: tests_system", "file: src/a.rt"], "a line `refused-by:` has a crate and its tests: refused-by: tests_system"),
    ],
)
def test_a_text_has_a_file_and_a_new_text_an_old_one(rows: list[str], why: str) -> None:
    with pytest.raises(Missing, match=f"lagsystem/limit: .*{why}"):
        edits.read_trial("lagsystem", "limit", rows)


def test_a_file_has_edits_one_behind_the_other(tmp_path: Path) -> None:
    (tmp_path / "lagsystem.edits").write_text(f"edit: limit\n{EDIT}\nedit: other\nfile: src/a.rt\nold: 1\nnew: 2\n")
    first, second = edits.stored_in(str(tmp_path), "lagsystem")
    assert first == edits.read_trial("lagsystem", "limit", EDIT.splitlines())
    assert (second.name, second.pairs) == ("other", (("src/a.rt", "1", "2"),))
    assert edits.stored_in(str(tmp_path), "selection") == []


def test_the_files_hold_for_the_edits_that_follow(tmp_path: Path) -> None:
    rows = "file: specs/A.antt src/a.rt\nold: 1\nnew: 2\nbody: 3\nnew: 4\n\nedit: b\nbody: 5\nnew:\neverywhere: 6\nnew: 7\n"
    (tmp_path / "lagsystem.edits").write_text(f"edit: a\n{rows}\nedit: c\nfile: src/c.rt\nold: 8\nnew: 9\n\nedit: d\nold: 10\nnew: 11\n")
    assert [(it.name, it.pairs) for it in edits.stored_in(str(tmp_path), "lagsystem")] == [
        ("a", (("specs/A.antt", "1", "2"), ("src/a.rt", "3", "4"))),
        ("b", (("src/a.rt", "5", ""), ("specs/A.antt", "6", "7"))),
        ("c", (("src/c.rt", "8", "9"),)),
        ("d", (("src/c.rt", "10", "11"),)),
    ]


@pytest.mark.parametrize(
    ("text", "why"),
    [
        ("file: src/a.rt\nedit: one\n", "the first line is to be `edit: NAME`, and is: file: src/a.rt"),
        ("edit: one\nedit: two\nedit: one\n", "two edits have the name one"),
    ],
)
def test_a_file_without_names_is_refused(tmp_path: Path, text: str, why: str) -> None:
    (tmp_path / "lagsystem.edits").write_text(text)
    with pytest.raises(Missing, match=why):
        edits.stored_in(str(tmp_path), "lagsystem")


def test_a_file_of_no_crate_is_refused(tmp_path: Path) -> None:
    (tmp_path / "lagsystem.edits").write_text("edit: one\nfile: src/a.rt\nold: 1\nnew: 2\n")
    assert [it.name for it in edits.stored(str(tmp_path))["lagsystem"]] == ["one"]
    (tmp_path / "nothing.edits").write_text("")
    with pytest.raises(Missing, match="there is no crate nothing"):
        edits.stored(str(tmp_path))


@pytest.mark.parametrize(
    ("file", "tests", "is_edit"),
    [
        ("specs/A.antt", (), True),
        ("src/a.rt", (), False),
        ("src/a.rt", (("tests_system", "a::b"),), True),
        ("src/a.rt", (("tests_system", "a::b"), ("tests_parts", "c::d")), False),
    ],
)
def test_a_wrong_definition_makes_a_definition_wrong(file: str, tests: tuple[tuple[str, str], ...], is_edit: bool) -> None:
    assert (edits.Trial("lagsystem", "x", ((file, "1", "2"),), tests).fault() is None) == is_edit


def test_what_is_put_in_is_taken_out(crate: Path) -> None:
    pairs = [("src/a.rt", "two", "2"), ("src/a.rt", "2 one", "4"), ("src/b.rt", "three", "3")]
    was, fault = edits.apply(str(crate), pairs)
    assert fault is None
    assert (crate / "src" / "a.rt").read_text() == "one 4\n"
    assert (crate / "src" / "b.rt").read_text() == "3\n"
    edits.restore(was)
    assert (crate / "src" / "a.rt").read_text() == "one two one\n"
    assert (crate / "src" / "b.rt").read_text() == "three\n"


@pytest.mark.parametrize(("file", "old", "count"), [("src/a.rt", "one", 2), ("src/a.rt", "four", 0), ("src/none.rt", "three", 0)])
def test_a_text_that_does_not_stand_once_changes_nothing(crate: Path, file: str, old: str, count: int) -> None:
    was, fault = edits.apply(str(crate), [("src/b.rt", "three", "3"), (file, old, "x")])
    assert (was, fault) == ({}, f"the old text stands in {file} {count} times: {old}")
    assert (crate / "src" / "b.rt").read_text() == "three\n"


def test_everywhere_is_each_place(crate: Path) -> None:
    _, fault = edits.apply(str(crate), [("src/a.rt", edits.Everywhere("one"), "9")])
    assert (fault, (crate / "src" / "a.rt").read_text()) == (None, "9 two 9\n")


def test_a_test_that_ends_at_its_time_limit_or_is_killed_refuses_nothing() -> None:
    output = ["test a ... FAILED", "  it took the time limit of 60 s", "test b ... FAILED", "  7 and not 8", "the time limit", "test c ... FAILED", "  it was killed by signal 9"]
    assert [edits.is_cut_off(output, at) for at in (0, 2, 5)] == [True, False, True]


@pytest.mark.parametrize("crate", crates())
def test_a_crate_has_at_most_ten_edits_in_must_fail(crate: str) -> None:
    assert len(edits.must_fail(crate)) <= 10
