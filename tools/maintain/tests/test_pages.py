"""The pages and man pages that tools write."""

from __future__ import annotations

import os

import pytest

import loading

pages = loading.program("pages")
promises = loading.module("", "promises")
purposes = loading.module("", "purposes")
manual = loading.module("dist.d", "manual")
hints = loading.module("", "hints")


def test_rows_have_as_many_cells_as_their_head() -> None:
    text = "| a | b |\n|---|---|\n| 1 \\| 2 | 3 |\n| 4 |\n\n| c |\n|---|\n| 5 |\n"
    assert pages.uneven({"x.md": text}) == ["x.md: a row of 1 cells, and not 2: | 4 |"]


@pytest.mark.parametrize(
    ("text", "wanted", "found"),
    [
        ("a\nb 1\n", "a\nb 1\n", []),
        ("a\nb 1 us, c|2|\nd\n", "a\nb 3 us, c|4|\nd\n", ["x.md:2 has '1' and not '3', '2' and not '4'"]),
        ("a\n|b|c|\nd\n", "a\n|b|c|\n|e|f|\nd\n", ["x.md:3 has '' and not 'e f'"]),
        ("a\n|b|c|\nd\n", "a\nd\n", ["x.md:2 has 'b c' and not ''"]),
    ],
)
def test_each_line_that_differs_is_named(text: str, wanted: str, found: list[str]) -> None:
    assert pages.differing("x.md", text, wanted) == found


@pytest.mark.parametrize(
    ("sentence", "words"),
    [
        ("The machines of one port: receive, mux (6.4).", "The machines of one port"),
        ("Two systems, their cables and events, as values.", "Two systems, their cables and events"),
        ("`lagtool`: reads LACPDUs.", "reads LACPDUs"),
        ("Groups (6.3.6) of `Party`.", "Groups"),
    ],
)
def test_a_picture_has_the_first_words_of_a_sentence(sentence: str, words: str) -> None:
    assert purposes.brief(sentence) == words


def test_a_page_has_a_row_for_each_crate_but_those_of_tests(monkeypatch: pytest.MonkeyPatch) -> None:
    monkeypatch.setattr(purposes, "crates", lambda: {"a": [], "b": ["a"], "tests_b": ["b"]})
    monkeypatch.setattr(purposes, "below", lambda *names: list(names))
    monkeypatch.setattr(purposes, "purpose", lambda crate: f"{crate} | c.")
    text = f"before\n\n{purposes.HEAD}| `gone` | x |\n\n| behind |\n"
    assert purposes.with_table(text) == f"before\n\n{purposes.HEAD}|`a`|a \\| c.|\n|`b`|b \\| c.|\n\n| behind |\n"


def test_a_line_of_roff_is_no_request() -> None:
    assert [manual.guarded(it) for it in (".TH", "'x", "a.b")] == ["\\&.TH", "\\&'x", "a.b"]
    assert manual.escaped("a-b \\ é") == "a\\-b \\e \\[u00E9]"


def test_each_module_of_a_tool_is_read_for_its_types() -> None:
    looked_up = {folder for folders, _ in hints.groups() for folder in folders}
    inner = [os.path.join(place, it) for place in (loading.TOOLS, loading.MAINTAIN) for it in os.listdir(place) if it.endswith(".d")]
    assert {it for it in inner if hints.modules(it)} <= looked_up


def test_a_promise_is_read_from_the_comments_beside_its_contract() -> None:
    text = "    // promise: it waits, and\n    //    goes on\n    // contract: `a` (`b`)\n    // premises: 1 | 2\n    /// A.\n-- promise: x\n-- contract: y\n"
    assert list(promises.promises_in(text, "a.rt")) == [("it waits, and goes on", "`a` (`b`)", "1 | 2"), ("x", "y", "")]
    with pytest.raises(promises.Missing, match="a.rt: a promise names no contract"):
        list(promises.promises_in("// promise: x\n", "a.rt"))


def test_a_row_stays_in_its_place_and_a_new_one_comes_last() -> None:
    now = [promises.Promise("new", "c", ""), promises.Promise("one", "a", "x | y"), promises.Promise("two, changed", "b", "")]
    tables = [["|two|b||", "|gone|z||"], ["|one|a|x \\| y|"]]
    assert promises.rows_of(tables, now) == [["|two, changed|b||"], ["|one|a|x \\| y|", "|new|c||"]]
