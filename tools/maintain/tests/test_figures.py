"""The figures that sentences of pages copy: each one is compared, and what is missing is named."""

from __future__ import annotations

from typing import Any

import pytest

import loading

figures = loading.module("", "figures")
TABLE = "|way|frames|\n|lagd|10|\n"


@pytest.mark.parametrize("copy", figures.COPIES, ids=[f"{it.page}: {it.sentence[:40]} {it.sources}" for it in figures.COPIES])
def test_each_figure_of_each_copy_is_compared(copy: Any) -> None:
    text = loading.text_of(copy.page)
    place = figures.place_of(copy, text)
    assert figures.with_figures(copy, text, loading.text_of) == text and len(place.groups()) == copy.sentence.count("{}") > 0
    for group in range(1, len(place.groups()) + 1):
        wrong = text[: place.start(group)] + "7654321" + text[place.end(group) :]
        assert figures.with_figures(copy, wrong, loading.text_of) == text


@pytest.mark.parametrize(
    ("text", "source", "fault"),
    [
        ("Of 7 frames\nnone", TABLE, None),
        ("Of 7 frames", TABLE, "A has this 0 times"),
        ("Of 7 frames none. Of 8 frames none", TABLE, "A has this 2 times"),
        ("Of 7 frames none", "1way\n", "it finds 0 texts"),
        ("Of 7 frames none", TABLE + TABLE.replace("10", "11"), "it finds 2 texts"),
        ("Of 7 frames none", TABLE + TABLE, None),
    ],
)
def test_a_sentence_stands_once_and_its_source_says_one_thing(text: str, source: str, fault: str | None) -> None:
    faults: list[str] = []
    copies = [figures.Copy("A", "Of {} frames none", "B", r"^\|lagd\|(\d+)\|$"), figures.Copy("C", "{} ways", "B", "^.way", figures.count)]
    told = figures.written(lambda path: {"A": text, "B": source, "C": "9 ways"}[path], faults, copies)
    assert told["C"] == f"{source.count('way')} ways" and told.get("A", text) == (text if fault else text.replace("7", "10"))
    assert len(faults) == (1 if fault else 0) and (fault or "") in "".join(faults)


@pytest.mark.parametrize(
    ("rules", "wrong"),
    [("rules 11, 13 and 23", 0), ("rules 11 and 13; sorted rule 23", 1), ("rule 11", 1), ("rules 11, 12, 13 and 23", 1)],
)
def test_a_capture_has_the_rules_that_are_stored(rules: str, wrong: int) -> None:
    row = f"|[captures/a-b.pcapng](captures/a-b.pcapng)|what|{rules}|\n|[script](a.toml)|rule 7|\n"
    records = '{"record":"finding","rule":23}\n{"record":"end"}\n'
    assert len(figures.rules_found(row, lambda name: records + "finding 13 end\nfinding 11 end\nfinding 13 end\n")) == wrong
    assert figures.rules_found("|`a-b.pcap`|what|rule 5|\n", lambda name: "finding 5 end" if name == "a-b" else "") == []


def test_a_page_has_the_lines_of_what_is_to_be_read() -> None:
    texts = {"crates/low/specs/A.antt": "a\n\n b\n", "crates/low/specs/B.antt": "c\n", "crates/high/specs/C.antt": "d\n"}
    row = "|2, 5|`low`: `A`, `B`; `high`: `C`|{}|\n"
    assert figures.lines_to_read(row.format(4), texts.__getitem__) == []
    assert len(figures.lines_to_read(row.format(5), texts.__getitem__)) == 1
