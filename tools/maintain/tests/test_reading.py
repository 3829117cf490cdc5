"""tools/maintain/pages: how long pages, paragraphs, cells and sentences may be, and the parts that programs write."""

from __future__ import annotations

import pytest

import loading

parts = loading.module("", "page_parts")
reading = loading.module("", "reading")

SENTENCE = " ".join(["word"] * reading.SENTENCE) + "."


@pytest.mark.parametrize(
    ("text", "found"),
    [
        (f"{SENTENCE} {SENTENCE}\n", []),
        (f"{SENTENCE[:-1]} word.\n", ["a sentence of 36 words"]),
        (" ".join(["Two words."] * 40) + "\n", []),
        (" ".join(["Two words."] * 40) + "\none\n", ["a paragraph of 81 words"]),
        (f"|{' '.join(['a'] * 25)}|b \\| c|\n", []),
        (f"|{' '.join(['a'] * 26)}|b|\n", ["a cell of 26 words"]),
        (f"- {SENTENCE[5:]}\n- {SENTENCE[5:]}\n- {SENTENCE[5:]}\n", []),
        (f"    {SENTENCE[:-1]} word.\n\n```\n{SENTENCE[:-1]} word.\n```\n", []),
        (f"<!-- written by: tools/x -->\n\n{SENTENCE[:-1]} word.\n\n<!-- end -->\n", []),
        (f"# {SENTENCE[:-1]} word\n\n[word](a-long-target.md#a) {' '.join(['word'] * 34)}.\n", []),
    ],
)
def test_what_stops_a_reader_is_named(text: str, found: list[str]) -> None:
    said = reading.too_long("x.md", text)
    assert len(said) == len(found) and all(it in one for it, one in zip(found, said)), said


def test_a_page_above_its_number_is_refused(monkeypatch: pytest.MonkeyPatch) -> None:
    monkeypatch.setitem(reading.MOST, "x.md", 3)
    assert reading.too_long("x.md", "One two.\n\n|three|\n|---|\n\n    code is no word\n") == ["x.md: it has 4 words by hand, and is to have 3 at most (MOST of tools/maintain/reading.py)"]
    assert reading.too_long("x.md", "One two three.\n") == []


def test_each_page_has_a_number_that_is_there() -> None:
    assert [it for it in reading.MOST if not loading.text_of(it)] == [] and sum(reading.MOST.values()) <= 47_000


def test_a_part_is_made_anew_and_a_wrong_mark_is_named() -> None:
    rules, faults = parts.PARTS["rules"](), list[str]()
    text = "a\n\n<!-- written by: tools/maintain/pages rules -->\n\n|old|\n\n<!-- end -->\n\n<!-- written by: tools/maintain/sizes -->\n\n|kept|\n\n<!-- end -->\n"
    assert parts.with_parts("x.md", text, faults) == text.replace("|old|\n", rules) and faults == []
    for old, new in ("pages rules", "pages rulez"), ("tools/maintain/sizes", "tools/maintain/none"), ("|old|\n\n<!-- end -->\n", "|old|\n"):
        faults = []
        parts.with_parts("x.md", text.replace(old, new), faults)
        assert len(faults) == 1, (old, faults)


def test_columns_of_a_measurement_are_a_table(monkeypatch: pytest.MonkeyPatch) -> None:
    monkeypatch.setattr(parts, "source", lambda path: "# A run\n# repeat: x\n\none\ttwo\n1\t2\n\n# more\nway\tns\tMB\na\t3\t4\nb\t5\t6\n")
    assert parts.of_measured(["a", "2"]) == "|two|\n|---|\n|2|\n"
    assert parts.of_measured(["a:2", "1,3", "2-2"]) == "|way|MB|\n|---|---|\n|b|6|\n"
