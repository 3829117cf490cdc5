"""Wrong bodies that one check of a crate refuses: what is a function, which edits are tried together, and which lines refuse which edit."""

from __future__ import annotations

from pathlib import Path

import pytest

import loading  # by which modules of tools/maintain are found
import batches
import edits

SOURCE = """use std::fmt;

pub fn first(a: u8) -> u8
    ensures {
        result ≡ a
    }
{
    let inner = 1;
    a + inner
}

trait Named {
    fn name(&self) -> u8;
}

impl Named for First {
    fn name(&self) -> u8 {
        if self.0 == 0 {
            return 7;
        }
        self.0
    }
}

impl Named for Other {
    fn name(&self) -> u8 { 9 }
}

pub(crate) const fn last(
    a: u8,
) -> u8 {
    a - 3
}

pub fn holds()
    ensures always { 1 ≡ 1 }
{}

pub fn told()
    ensures always { 2 ≡ 2 }
{}

impl First {
    fn own()
        ensures always { 6 ≡ 6 }
    {}
}
"""
# In another file, which imports one law, and has another one of the name of the second.
OTHER = SOURCE.replace("use std::fmt;", "pub use crate::a::holds; // holds").replace("for First", "for Second")
OTHER = OTHER.replace("fn holds()", "fn stays()").replace("fn own()", "fn other()")
PAIRS = {
    "of_first": (("src/a.rt", "let inner = 1;", "let inner = 2;"),),
    "of_first_again": (("src/a.rt", "    a + inner", "    a"),),
    "of_both": (("src/a.rt", "return 7;", "return 8;"), ("src/a.rt", "    a - 3", "    a - 4")),
    "of_last": (("src/a.rt", "    a - 3", "    fn helped() {} a - 5"),),
    "of_a_contract": (("src/a.rt", "result ≡ a", "result ≡ 0"),),
    "of_one_line": (("src/a.rt", "{ 9 }", "{ 8 }"),),
    "of_a_law": (("src/a.rt", "1 ≡ 1", "1 ≡ 3"),),
    "of_a_law_that_has_another_name": (("src/a.rt", "holds()", "heard()"), ("src/a.rt", "1 ≡ 1", "1 ≡ 4")),
    "of_a_law_that_is_named": (("src/a.rt", "2 ≡ 2", "2 ≡ 3"),),
    "of_a_function_of_a_type": (("src/a.rt", "6 ≡ 6", "6 ≡ 7"),),
    "of_a_definition": (("specs/A.antt", "a", "b"),),
    "of_nothing": (("src/a.rt", "a", "b"),),
    "of_a_text_that_stands_twice_first": (("src/a.rt", "let inner = 1;", "let outer = 1;"), ("src/a.rt", "inner", "outer")),
}
TRIALS = {name: edits.Trial("low", name, pairs) for name, pairs in PAIRS.items()}


@pytest.fixture
def crate(tmp_path: Path) -> str:
    (tmp_path / "src").mkdir()
    (tmp_path / "src" / "a.rt").write_text(SOURCE)
    (tmp_path / "src" / "lib.rt").write_text("pub fn of_root()\n    ensures { 5 ≡ 5 }\n{}\n")
    (tmp_path / "src" / "b").mkdir()
    (tmp_path / "src" / "b" / "c.rt").write_text(OTHER)
    (tmp_path / "proofs" / "a" / "holds").mkdir(parents=True)
    (tmp_path / "proofs" / "a" / "holds" / "Answers.antt").write_text("use proofs.a.holds.Goals as goal")
    # What was made of them is no source.
    (tmp_path / "out").mkdir()
    (tmp_path / "out" / "a.rt").write_text(SOURCE)
    return str(tmp_path)


def test_functions_have_a_body_of_lines() -> None:
    found = [(it.name, it.first, it.opens, it.closes) for it in batches.functions(SOURCE)]
    assert found == [("first", 3, 7, 10), ("name", 17, 17, 22), ("last", 29, 31, 33), ("holds", 35, 37, 37), ("told", 39, 41, 41), ("own", 44, 46, 46)]
    around = [batches.around(batches.functions(SOURCE), line) for line in (2, 3, 8, 11, 20, 26, 32)]
    assert [it and it.name for it in around] == [None, "first", "first", None, "name", None, "last"]


def test_edits_of_different_bodies_are_tried_together(crate: str) -> None:
    tried = [[it.name for it in batch] for batch in batches.batches(crate, TRIALS.values())]
    assert tried == [["of_first", "of_both", "of_a_law"], ["of_first_again", "of_last"], ["of_a_text_that_stands_twice_first"]]


def test_what_is_edited_stays_in_its_line(crate: str) -> None:
    text = batches.edited(crate, [TRIALS["of_first"], TRIALS["of_both"]])["src/a.rt"]
    assert text == SOURCE.replace("inner = 1;", "inner = 2;").replace("return 7", "return 8").replace("a - 3", "a - 4")


NOTE = "it is not proved that what the function ensures holds when it returns (`returns`)"
LAST = f"note: src/a.rt:29:5: {NOTE}"
INNER = "src/a.rt:20:9: error: `returns`: no"
ROOT = "./proofs/of_root/Answers.antt:3:4: error: `returns`: no"
ANSWER = "./proofs/b/c/SecondNamed/name/Answers.antt:3:4: error: `returns`: `grind` found no proof"


@pytest.mark.parametrize(
    ("lines", "found"),
    [
        ([LAST, "note: src/a.rt:8:5: this took 7 s", INNER, "statements std: modules loaded=1"], {("src/a.rt", 29): LAST, ("src/a.rt", 17): INNER}),
        ([ANSWER, f"note: src/a.rt:8:1: {NOTE}"], {("src/b/c.rt", 17): ANSWER, ("src/a.rt", 3): f"note: src/a.rt:8:1: {NOTE}"}),
        ([ROOT], {("src/lib.rt", 1): ROOT}),
        (["./proofs/a/last/Answers.antt:1:1: error: `x` is not in scope", LAST], {("src/a.rt", 29): LAST}),
        ([LAST, "src/a.rt:32:5: error: `x` is not in scope"], None),
        ([LAST, "src/a.rt:32:5: error: `returns`: `x` is not in scope"], None),
        ([LAST, "src/a.rt:20:9: error: `returns`: antt ran out of the steps that the check of one declaration may take"], None),
        ([LAST, "fn first: could not tell"], None),
        ([LAST, "src/a.rt:32:5: error[no-such-name]: there is no x"], None),
        ([LAST, "./proofs/Law.antt:1:1: error: no"], None),
        ([LAST, "src/a.rt:2:1: error: no"], None),
        ([], {}),
    ],
)
def test_lines_blame_functions(crate: str, lines: list[str], found: dict[tuple[str, int], str] | None) -> None:
    assert batches.blamed(crate, lines) == found


def test_each_edit_of_a_batch_wants_a_line_of_its_own(crate: str, monkeypatch: pytest.MonkeyPatch) -> None:
    checker = batches.Checker.__new__(batches.Checker)
    checker.folder = crate
    batch = [TRIALS["of_first"], TRIALS["of_both"]]
    for lines, wanted in (
        ([LAST], {"of_both": LAST}),
        ([LAST, f"note: src/a.rt:3:1: {NOTE}"], {"of_both": LAST, "of_first": f"note: src/a.rt:3:1: {NOTE}"}),
        ([LAST, ANSWER], {}),
        ([], {}),
    ):
        monkeypatch.setattr(checker, "lines", lambda texts: lines)
        assert checker.refused(batch) == wanted


GOAL = "note: src/a.rt:3:4: it is not proved that what the function ensures holds when it returns (`returns`); `search` gave up at one of its limits"
GONE, LIMIT = "./proofs/A.antt:1:2: error: `b`: `c` is not in scope", "./proofs/A.antt:1:2: error: `b`: it ran out of the steps that the check has"
UNCOVERED = "fn a::f: no proof: expected `f_spec` in ./proofs/f/Proof.antt; the borrow checker does not cover this function yet"
OPEN = "logic=not-proved functions=3"


@pytest.mark.parametrize(
    ("status", "lines", "said"),
    [
        (1, [GONE, GOAL, OPEN], f"refused, as it must be: {GOAL[:160]}"),
        (1, ["./proofs/A.antt:3:4: error: `b`: no", OPEN], "refused, as it must be: ./proofs/A.antt:3:4: error: `b`: no"),
        (1, [GONE, OPEN], f"refused, as it must be (only because a proof file names what the edit took away): {GONE}"),
        (1, [GONE, LIMIT, OPEN], f"refused, as it must be (only by a limit of the prover, which gave no verdict): {LIMIT}"),
        (1, ["note: src/a.rt:3:4: it calls itself", OPEN], "refused, as it must be: note: src/a.rt:3:4: it calls itself"),
        (1, [OPEN], "refused, as it must be (only by a limit of the prover, which gave no verdict): "),
        (1, [UNCOVERED, OPEN], f"refused, as it must be (only by a limit of the prover, which gave no verdict): {UNCOVERED}"),
        (1, ["src/a.rt:1:2: error: expected `;`", OPEN], "BAD EDIT: the prover cannot read the edited text, so no contract was tried: src/a.rt:1:2: error: expected `;`"),
        (1, ["./specs/B.antt:1:2: error: `b`: `c` is not in scope", OPEN],
         "BAD EDIT: the prover cannot read the edited text, so no contract was tried: ./specs/B.antt:1:2: error: `b`: `c` is not in scope"),
        (0, ["logic=proved functions=3"], "NOT REFUSED: the crate is still proved with this edit"),
        (3, [GOAL, "rattle: no verdict"], f"BAD EDIT: it did not reach the prover: {GOAL} rattle: no verdict"),
        (-9, [], "BAD EDIT: it did not reach the prover: "),
    ],
)
def test_what_is_said_of_one_edit_by_itself(status: int, lines: list[str], said: str) -> None:
    assert batches.told_alone({"src/a.rt"}, status, lines) == said


def test_an_edit_that_is_not_refused_over_what_is_kept_is_tried_from_nothing(crate: str, monkeypatch: pytest.MonkeyPatch) -> None:
    checker = batches.Checker.__new__(batches.Checker)
    checker.folder = crate
    asked: list[bool] = []

    def checked(texts: dict[str, str], with_kept: bool = True) -> tuple[int, list[str]]:
        asked.append(with_kept)
        return (0, ["logic=proved"]) if with_kept else (1, [GOAL, OPEN])

    monkeypatch.setattr(checker, "checked", checked)
    assert (checker.alone(TRIALS["of_first"]), asked) == (f"refused, as it must be: {GOAL[:160]}", [True, False])
    assert checker.alone(edits.Trial("low", "x", (("src/a.rt", "is not there", ""),))).startswith("BAD EDIT: the old text stands in src/a.rt 0 times")
