"""tools/maintain/wrong-definitions and tools/maintain/wrong-bodies: which tests an edit names, and what an answer means."""

from __future__ import annotations

import os
from concurrent.futures import ThreadPoolExecutor
from pathlib import Path
from types import SimpleNamespace

import pytest

import loading
import batches
import edits

import prover
from repository import Missing, crates

named = loading.module("wrong-definitions.d", "by_tests")
# Those that calls of the library find stand on live.d, which can be looked up once one of its modules is loaded.
loading.module("live.d", "checking")
by_calls = loading.module("wrong-definitions.d", "by_calls")
by_prover = loading.module("wrong-definitions.d", "by_prover")

TESTS = """use lagsystem::calls;

/// It holds.
#[test]
fn one() {
    first();
}

#[test]
fn two() {
    second();
}

fn helper() {
}
"""


def test_the_other_tests_are_left_out() -> None:
    kept = named.keep_tests(TESTS, "m::n", ["m::n::two", "m::one"])
    assert kept == TESTS.replace("/// It holds.\n#[test]\nfn one() {\n    first();\n}\n", "")


def test_crates_and_tests_of_a_copy_have_its_number() -> None:
    assert named.renamed("lagsystem::a, lagsystems::b, old_lagsystem::c", ["lagsystem"], 7) == "lagsystem_7::a, lagsystems::b, old_lagsystem::c"
    assert named.copied("tests_system", 8, "lagsystem", "ports::mux::it_waits") == "ports_8::mux::it_waits"
    assert named.copied("lagexplain", 9, "lagexplain", "ports::mux::it_waits") == "copy_9::ports::mux::it_waits"
    assert named.place("/tests/src/systems/hostile.rt", "/tests/src") == "systems::hostile"


def test_an_edited_crate_is_copied_where_a_named_one_stands_on_it(tmp_path: Path) -> None:
    (tmp_path / "serving.rt").write_text("let next = lagworld::World::step(world);\n")
    assert sorted(named.using("lagscript", str(tmp_path), ["serving"])) == ["lagscript", "lagworld"]
    assert named.using("findings", str(tmp_path), ["serving"]) == []


def test_a_module_comes_with_those_that_it_names(tmp_path: Path) -> None:
    for file, text in {"a.rt": "use crate::b::x;", "a/deep.rt": "use crate::c::y;", "b.rt": "", "c.rt": "", "d.rt": ""}.items():
        (tmp_path / file).parent.mkdir(exist_ok=True)
        (tmp_path / file).write_text(text)
    assert named.with_named(str(tmp_path), ["a"]) == ["a", "b", "c"]


OK, FAILED = ["test m::t ... ok", "test m_1000::t ... ok"], "test m_3::t ... FAILED"


@pytest.mark.parametrize(
    ("lines", "right", "said"),
    [
        ([*OK, FAILED, "test result: FAILED"], True, "refused by tests_system: m::t"),
        ([*OK, "test m_3::t ... ok", "test result: ok"], False, "m::t does not refuse"),
        ([FAILED, "test result: FAILED"], False, "tests_system m::t does not pass without an edit"),
        ([*OK, FAILED, "  its time limit", "test result: FAILED"], False, "m::t does not end"),
        (["error: no"], False, "the tests do not build or do not end:\nerror: no"),
    ],
)
def test_a_named_test_fails_in_the_copy_alone(lines: list[str], right: bool, said: str) -> None:
    trial = edits.Trial("lagsystem", "five", (("specs/A.antt", "4", "5"),), (("tests_system", "m::t"),))
    assert named.verdict(lines, 3, 1000, trial, ("tests_system", ("m::t",))) == (right, said)


@pytest.mark.parametrize(("ends", "right", "said"), [("FAILED", True, "refused by tests_system: m::t"), ("ok", False, "nothing refuses")])
def test_any_test_may_refuse_what_names_none(ends: str, right: bool, said: str) -> None:
    lines = ["test m_1000::t ... ok", "test m_1000::u ... ok", f"test m_3::t ... {ends}", "test m_3::u ... ok", "test result: x"]
    trial = edits.Trial("lagsystem", "five", (("src/a.rt", "4", "5"),))
    assert named.verdict(lines, 3, 1000, trial, ("tests_system", ("m::t", "m::u"))) == (right, said)


def test_the_tests_that_look_at_a_crate() -> None:
    def modules(crate: str) -> list[tuple[str, set[str]]]:
        return [(place, {it.split("::")[0] for it in tests}) for place, tests in named.looks(edits.Trial(crate, "x", ()))]

    assert modules("collector") == [("tests_parts", {"of_collector"})]
    assert ("tests_parts", "of_lagtypes") in [(place, it) for place, found in modules("lagtypes") for it in found]
    assert [place for place, _ in named.looks(edits.Trial("lagsystem", "x", ()))][:1] == ["tests_system"]
    assert named.looks(edits.Trial("lagsystem", "x", (), (("tests_world", "m::t"),))) == [("tests_world", ("m::t",))]


EDITS = {"one": (("src/a.rt", "1", "2"), ("src/a.rt", "return 3;", ""), ("specs/A.antt", "4", "5")), "other": (("src/a.rt", "6", "7"),)}
TRIALS = [edits.Trial("captures", name, pairs) for name, pairs in EDITS.items()]


@pytest.mark.parametrize(
    ("text", "right"),
    [
        ("refused, as it must be: note: src/a.rt:3:4: it is not proved", True),
        ("refused, as it must be (only because a proof file names what the edit took away): ./proofs/A.antt:1:2: error: `b` is not in scope", True),
        ("refused, as it must be (only by a limit of the prover, which gave no verdict): ./proofs/A.antt:1:2: error", False),
        ("NOT REFUSED: the crate is still proved with this edit", False),
        ("BAD EDIT: it has no 'old:' and 'new:' pair", False),
        ("NOT TRIED: its check was killed, most likely for memory", False),
        (None, False),
    ],
)
def test_an_edit_passes_where_the_prover_reads_and_refuses_it(text: str | None, right: bool) -> None:
    _, is_right, told = prover.result(edits.Trial("low", "x", ()), *prover.judged(text))
    assert (is_right, told.startswith("FAILED ")) == (right, not right)
    assert (text or "was not tried") in told


def fake(monkeypatch: pytest.MonkeyPatch, folder: Path, *lines: str, status: int = 0) -> None:
    """A command rt that prints these lines. It proves each crate."""
    rt = folder / "rt"
    rt.write_text("#!/bin/sh\n[ $1 = check ] && exit\ncat <<'END'\n" + "".join(f"{it}\n" for it in lines) + f"END\nexit {status}\n")
    rt.chmod(0o755)
    monkeypatch.setattr(prover, "RT", str(rt))


ERROR = "./proofs/A.antt:3:4: error: no"
TOLD = "refused, as it must be: note: src/a.rt:3:4: it is not proved"


def test_each_edit_that_is_asked_has_a_line(tmp_path: Path, monkeypatch: pytest.MonkeyPatch, capsys: pytest.CaptureFixture[str]) -> None:
    fake(monkeypatch, tmp_path)
    asked: list[str] = []

    def alone(checker: batches.Checker, trial: edits.Trial) -> str:
        asked.append(trial.name)
        return {"one": TOLD, "other": "NOT REFUSED: the crate is still proved with this edit"}[trial.name]

    monkeypatch.setattr(batches.Checker, "alone", alone)
    monkeypatch.setattr(batches.Checker, "checked", lambda checker, texts: (0, ["logic=proved"]))
    results = list(prover.tried(str(tmp_path / "copy"), TRIALS))
    assert [(trial.name, is_right) for trial, is_right, _ in results] == [("one", True), ("other", False)]
    assert sorted(asked) == ["one", "other"] and "NOT REFUSED" in results[1][2]
    assert prover.told(iter(results)) == 1
    assert capsys.readouterr().out.endswith("\n1 passed, 1 failed\n")
    assert (prover.told(iter(results[:1])), prover.told(iter(()))) == (0, 1)


def test_what_was_proved_of_a_copy_is_left_where_nothing_is_kept(tmp_path: Path) -> None:
    copy, own, kept = (str(tmp_path / it) for it in ("copy", "own", "own/out/incremental"))
    prover.leave_kept(copy, own)
    assert not os.path.exists(own)
    for text in "new", "newer":
        (tmp_path / "copy" / "out" / "incremental").mkdir(parents=True, exist_ok=True)
        (tmp_path / "copy" / "out" / "incremental" / "a").write_text(text)
        prover.leave_kept(copy, own)
        assert (os.listdir(f"{own}/out"), os.listdir(kept), (tmp_path / "own/out/incremental/a").read_text()) == (["incremental"], ["a"], "new")


def test_what_another_command_has_not_made_to_its_end_is_not_copied(tmp_path: Path, monkeypatch: pytest.MonkeyPatch) -> None:
    source, made = "src/lib.rt", ["out/incremental/a.oantt", "out/rlib/cables.rlib/a"]
    part = ["out/incremental/b.oantt.tmp.7", "out/incremental.7/a.oantt", "out/rlib/cables.rlib.tmp-7/a", "out/rt-work-7-x/a"]
    for file in [source, *made, *part, "must-fail/x.edit"]:
        edits.write(str(tmp_path / "crates" / "cables" / file), "")
    monkeypatch.setattr(edits, "CRATES", str(tmp_path / "crates"))

    def copied(with_kept: bool) -> list[str]:
        crate = Path(edits.copy_crates(str(tmp_path / f"{with_kept}"), ["cables"], with_kept), "cables")
        return sorted(str(it.relative_to(crate)) for it in crate.rglob("*") if it.is_file())

    assert (copied(True), copied(False)) == ([*made, source], [source])


def test_why_a_crate_is_not_proved_is_told(tmp_path: Path, monkeypatch: pytest.MonkeyPatch, capsys: pytest.CaptureFixture[str]) -> None:
    fake(monkeypatch, tmp_path)
    (tmp_path / "rt").write_text(f"#!/bin/sh\necho '{ERROR}'\nexit 1\n")
    assert [it[1] for it in prover.tried(str(tmp_path / "copy"), TRIALS[:1])] == [False]
    assert capsys.readouterr().err == f"captures is not proved:\n{ERROR}\n"


def test_a_refusal_says_nothing_where_what_is_kept_is_refused_as_it_stands(monkeypatch: pytest.MonkeyPatch) -> None:
    monkeypatch.setattr(batches, "batches", lambda crate, trials: [])
    says: dict[int, dict[edits.Trial, str]] = {0: {it: TOLD for it in TRIALS}, 1: {}}
    with ThreadPoolExecutor(1) as pool:
        for status, said in says.items():
            checker = SimpleNamespace(folder="", alone=lambda trial: TOLD, checked=lambda texts, status=status: (status, []))
            monkeypatch.setattr(batches, "Checker", lambda folder, crate, checker=checker: checker)
            assert prover.said_of(pool, "", "captures", TRIALS) == said


def test_words_name_edits() -> None:
    every: dict[str, list[edits.Trial]] = {"captures": TRIALS, "cables": []}
    assert prover.named(every, []) == prover.named(every, ["captures"]) == TRIALS
    assert prover.named(every, ["captures/other", "cables"]) == TRIALS[1:]
    with pytest.raises(Missing, match="there is no edit captures/none"):
        prover.named(every, ["captures/none"])


PROVED, NOT_PROVED = (0, ["logic=proved"]), (1, [ERROR, "logic=not-proved"])


@pytest.mark.parametrize(
    ("runs", "right", "said"),
    [
        ([PROVED, PROVED, NOT_PROVED], True, f"refused, as it must be: {ERROR}"),
        ([PROVED, PROVED, PROVED], False, "NOT REFUSED: the crate is still proved with this edit"),
        ([PROVED, NOT_PROVED], False, "the prover refuses lagmodel"),
        ([PROVED, PROVED, (1, ["./specs/B.antt:3:4: error: no"])], False, "BAD EDIT: the prover cannot read the edited text, so no contract was tried: ./specs/B.antt:3:4: error: no"),
        ([PROVED, PROVED, (-9, [ERROR])], False, f"BAD EDIT: it did not reach the prover: {ERROR}"),
        ([NOT_PROVED], False, "is not proved as it stands"),
    ],
)
def test_an_edit_of_a_crate_below_is_refused_above_alone(
    tmp_path: Path, monkeypatch: pytest.MonkeyPatch, runs: list[tuple[int, list[str]]], right: bool, said: str
) -> None:
    trial = next(it for it in edits.stored_in(edits.DEFINITIONS, "lagnetwork") if by_prover.names_below(it))
    top = Path(edits.copy_crates(str(tmp_path), ["lagnetwork"]))
    edited = top / "lagnetwork" / trial.pairs[0][0]
    before = edited.read_text()
    asked = iter(runs)
    monkeypatch.setattr(by_prover, "checked", lambda crate: next(asked))
    assert (by_prover.try_below(str(top), trial), [*asked]) == ((right, said), [])
    assert edited.read_text() == before


@pytest.mark.parametrize(("line", "is_proved"), [("rt: captures proved", True), ("rt: captures is kept: an earlier run", True), ("rt: captures NOT PROVED", False)])
def test_a_counterexample_is_proved_now_or_was_before(line: str, is_proved: bool, tmp_path: Path, monkeypatch: pytest.MonkeyPatch) -> None:
    (tmp_path / "proof").write_text("ensures: x ≡ y\n---\nproof\n")
    trial = edits.Trial("captures", "x", ())
    monkeypatch.setattr(by_prover, "ran", lambda folder, word: (0, [line]))
    assert by_prover.try_counterexample(str(tmp_path / "top"), trial, str(tmp_path / "proof"))[0] == is_proved


def test_a_counterexample_is_of_an_edit() -> None:
    every = [it for its in edits.stored(edits.DEFINITIONS).values() for it in its]
    by_prover.want_edits(every)
    with pytest.raises(Missing, match="configure_can_send.counterexample is of no edit"):
        by_prover.want_edits(it for it in every if it.name != "configure_can_send")


def test_a_definition_that_does_not_read_is_none() -> None:
    assert by_prover.unread(["note: src/a.rt:1:2: it is not proved", "./proofs/A.antt:1:2: error: no", "(1)"]) is None
    assert by_prover.unread(["./proofs/A.antt:1:2: error: no", "specs/B.antt:1:2: error: no"]) == "specs/B.antt"


def called_by(name: str, function: str, *pairs: edits.Pair) -> edits.Trial:
    return edits.Trial("lagffi", name, pairs, (("tools/maintain/live", function),))


def test_edits_that_calls_find_are_tried_together_where_they_name_different_functions_and_stand_beside_each_other(tmp_path: Path) -> None:
    (tmp_path / "specs").mkdir()
    (tmp_path / "specs" / "A.antt").write_text("a = 1\nb = 2\nc = 3\n")
    one, two, same, clash = (called_by(name, function, ("specs/A.antt", old, new)) for name, function, old, new in (
        ("one", "f", "a = 1", "a = 2"), ("two", "g", "b = 2", "b = 3"), ("same", "f", "c = 3", "c = 4"), ("clash", "h", "a = 1", "a = 0")))  # fmt: skip
    body = called_by("body", "i", ("src/a.rt", "x", "y"))
    assert by_calls.batches(str(tmp_path), [one, two, same, clash, body]) == [[one, two], [same, clash]]


@pytest.mark.parametrize(("failed", "together"), [({"f", "g"}, ["one", "two"]), ({"f"}, []), ({"f", "g", "h"}, [])])
def test_of_edits_that_are_tried_together_just_what_they_name_has_to_fail(failed: set[str], together: list[str], monkeypatch: pytest.MonkeyPatch) -> None:
    pair = [called_by("one", "f", ("specs/A.antt", "a", "b")), called_by("two", "g", ("specs/A.antt", "c", "d"))]
    monkeypatch.setattr(by_calls, "failing", lambda words, crate, batch: (failed, None))
    assert [(it.name, right) for it, right, _ in by_calls.found_by_own([], "", pair)] == [(name, True) for name in together]
    assert by_calls.found_alone([], "", pair[:1])[0][1] == (failed == {"f"})
    assert not by_calls.found_alone([], "", [called_by("body", "f", ("src/a.rt", "a", "b"))])[0][1]
