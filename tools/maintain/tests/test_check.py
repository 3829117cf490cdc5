"""tools/check: which checks its words name, which of them run at a time, and what it says at the end."""

from __future__ import annotations

import os
import subprocess
from pathlib import Path
from threading import Event
from types import SimpleNamespace
from typing import Callable

import pytest

import loading
from repository import Missing

check = loading.program("check")


@pytest.fixture
def tool(tmp_path: Path, monkeypatch: pytest.MonkeyPatch) -> Callable[[str], None]:
    """Writes the one tool of all checks, `pages` and `live`, in a repository of its own."""
    subprocess.run(["git", "init", "-q", str(tmp_path)], check=True)
    for name in ("TOP", "TOOLS"):
        monkeypatch.setattr(check, name, str(tmp_path))
    monkeypatch.setattr(check, "LOGS", str(tmp_path / ".git"))
    monkeypatch.setattr(check, "CHECKS", {name: check.Check("tool", "", "") for name in ("pages", "live")})
    monkeypatch.setattr(check, "READS", {"live": "read"})
    monkeypatch.setattr(check, "GIVEN", [])

    def written(script: str) -> None:
        (tmp_path / "tool").write_text(f"#!/bin/sh\n{script}\n")
        (tmp_path / "tool").chmod(0o755)

    return written


def test_each_check_is_a_tool() -> None:
    assert all(os.access(os.path.join(loading.TOOLS, it.words.split()[0]), os.X_OK) for it in check.CHECKS.values())


def test_quick_checks_want_nothing_and_all_are_all() -> None:
    assert {check.CHECKS[name].wants for name, _ in check.asked(["--quick"])} == {""}
    assert [name for name, _ in check.asked(["--all"])] == list(check.CHECKS)


def test_words_of_a_check_stand_behind_its_name() -> None:
    assert check.asked(["pages", "live --sanitized held"]) == [("pages", []), ("live", ["--sanitized", "held"])]


@pytest.mark.parametrize("words", [[], ["none-such"], ["--quick", "--all"]])
def test_no_check_and_an_unknown_one_are_refused(words: list[str]) -> None:
    with pytest.raises(Missing):
        check.asked(words)


def test_no_two_checks_that_prove_in_one_folder_nor_two_that_measure_but_carry_run_at_a_time() -> None:
    carry, root, wrong, toolchain, packages, others = ([name for name, _ in it] for it in check.lanes(check.asked(["--all"])))
    assert sorted([*carry, *root, *wrong, *toolchain, *packages, *others]) == sorted(check.CHECKS)
    assert all(check.CHECKS[it].wants == "toolchain" for it in (*wrong, *toolchain)) and wrong == ["wrong-bodies", "wrong-definitions", "trusted"]
    assert (carry, {*root}, {*packages}) == (["carry"], {"live", "peers", "hosts"}, {"machines", "dist"})
    assert root[0] == "hosts" and [check.stands_on_proofs(it) for it in others] == sorted(map(check.stands_on_proofs, others))


def test_what_two_would_make_into_one_folder_is_made_first(monkeypatch: pytest.MonkeyPatch) -> None:
    told: list[str] = []

    def library(words: list[str], stdout: int) -> SimpleNamespace:
        told.append("library")
        return SimpleNamespace(returncode=0)

    monkeypatch.setattr(check, "kernel_programs", lambda: told.append("programs"))
    monkeypatch.setattr(check, "subprocess", SimpleNamespace(run=library, DEVNULL=0))
    for given, made in ("", ["programs", "library"]), ("liblagffi.a", ["programs"]):
        told.clear()
        monkeypatch.setattr(os, "environ", {"LIBRARY": given} if given else {})
        check.make_all()
        assert told == made


def test_the_library_is_made_where_the_programs_of_the_kernel_cannot_be(monkeypatch: pytest.MonkeyPatch, capsys: pytest.CaptureFixture[str]) -> None:
    def no_clang() -> None:
        raise Missing("no clang")

    monkeypatch.setattr(check, "kernel_programs", no_clang)
    monkeypatch.setattr(check, "subprocess", SimpleNamespace(run=lambda words, stdout: SimpleNamespace(returncode=0), DEVNULL=0))
    monkeypatch.setattr(os, "environ", {})
    check.make_all()
    assert os.environ["LIBRARY"].endswith("liblag.a") and "no clang" in capsys.readouterr().err


def test_no_check_begins_once_all_is_stopped(monkeypatch: pytest.MonkeyPatch) -> None:
    told: list[str] = []

    def ends(name: str, more: list[str], nice: int) -> str:
        told.append(name)
        raise KeyboardInterrupt

    monkeypatch.setattr(check, "CHECKS", {"live": check.Check("tool", "library, root", ""), "test": check.Check("tool", "toolchain", "")})
    monkeypatch.setattr(check, "ends", ends)
    with pytest.raises(KeyboardInterrupt):
        check.side_by_side([("live", []), ("test", [])])
    assert told == ["test"]


@pytest.mark.parametrize(("names", "ran"), [(["live", "pages", "test"], ["pages", "test", "made", "live"]), (["pages"], ["pages"]), (["live"], ["made", "live"])])
def test_what_stands_on_the_test_command_waits_until_that_is_made(names: list[str], ran: list[str], monkeypatch: pytest.MonkeyPatch) -> None:
    told: list[str] = []
    wants = {"live": "library, root", "pages": "", "test": "toolchain"}
    pages = Event()

    def ends(name: str, more: list[str], nice: int) -> str:
        told.append(name)
        if name == "pages":
            pages.set()
        return name

    def made() -> None:
        assert "pages" not in names or pages.wait(10)
        told.append("made")

    monkeypatch.setattr(check, "CHECKS", {name: check.Check("tool", wants[name], "") for name in names})
    monkeypatch.setattr(check, "ends", ends)
    monkeypatch.setattr(check, "make_all", made)
    monkeypatch.setattr(check, "take_libraries", lambda: None)
    monkeypatch.setattr(check, "has_passed_test", lambda: True)
    assert sorted(check.side_by_side([(name, []) for name in names])) == sorted(names)
    # Those beside test come in any order.
    before = ran.index("made") if "made" in ran else len(ran)
    assert (sorted(told[:before]), told[before:]) == (ran[:before], ran[before:])


def test_edits_are_tried_while_the_library_is_made(monkeypatch: pytest.MonkeyPatch) -> None:
    tried = Event()

    def ends(name: str, more: list[str], nice: int) -> str:
        if name == "wrong-bodies":
            tried.set()
        return name

    monkeypatch.setattr(check, "CHECKS", {it: check.Check("tool", "toolchain", "") for it in ("wrong-bodies", "lag-c")})
    monkeypatch.setattr(check, "ends", ends)
    monkeypatch.setattr(check, "take_libraries", lambda: None)
    monkeypatch.setattr(check, "make_all", lambda: tried.wait(10) or pytest.fail("the edits wait"))
    monkeypatch.setattr(check, "has_passed_test", lambda: True)
    assert check.side_by_side([("lag-c", []), ("wrong-bodies", [])]) == ["wrong-bodies", "lag-c"]


def test_the_kernel_goes_by_nice_alone_meanwhile(tmp_path: Path, monkeypatch: pytest.MonkeyPatch) -> None:
    setting = tmp_path / "sched_autogroup_enabled"
    monkeypatch.setattr(check, "AUTOGROUP", str(setting))
    with check.by_nice_alone():
        assert not setting.exists()
    for was in "1\n", "0\n":
        setting.write_text(was)
        with pytest.raises(KeyboardInterrupt), check.by_nice_alone():
            assert setting.read_text().strip() == "0"
            raise KeyboardInterrupt
        assert setting.read_text().strip() == was.strip()


def test_where_nothing_is_made_the_others_still_end(monkeypatch: pytest.MonkeyPatch) -> None:
    def made() -> None:
        raise Missing("no library")

    monkeypatch.setattr(check, "CHECKS", {"live": check.Check("tool", "library, root", "")})
    monkeypatch.setattr(check, "ends", lambda name, more, nice: name)
    monkeypatch.setattr(check, "make_all", made)
    monkeypatch.setattr(check, "take_libraries", lambda: None)
    monkeypatch.setattr(check, "has_passed_test", lambda: False)
    # It tells of the test command, too, which it ran as nothing that is here had passed it.
    assert check.side_by_side([("live", [])]) == ["test", "live"]


def test_the_end_has_the_longest_first_and_tells_what_did_not_run() -> None:
    ended = [check.Ended("pages", "passed", 6.0, 3.0, "1 passed, 0 failed"), check.Ended("live", "FAILED", 600.0, 1200.0, ""),
             check.Ended("carry", "not run", 0.1, 0.0, "")]
    assert check.summary(ended) == ["  10.0 min   20.0 of a processor  FAILED   live", "   0.1 min    0.1 of a processor  passed   pages",
                                    "   0.0 min    0.0 of a processor  not run  carry", "1 passed, 1 failed, 1 not run"]
    assert check.summary(ended[:1]) == ["1 passed, 0 failed"]
    left_out = ended[0]._replace(left_out=("skipped: types: there is no mypy", "SKIPPED [1] a.py:3: not root"))
    assert check.summary([left_out]) == ["pages: skipped: types: there is no mypy", "pages: SKIPPED [1] a.py:3: not root", "1 passed, 0 failed"]


@pytest.mark.parametrize(
    ("script", "how", "last"),
    [
        ("echo last line", "passed", "last line"),
        ("echo last line; exit 1", "FAILED", "last line"),
        ("echo last line; exit 2", "not run", "last line"),
        ("echo 'row: inconclusive, the machine was too slow: a restart'; echo inconclusive: another; echo 2 passed", "passed", "2 passed, 2 inconclusive"),
        ("echo skipped: one: no peer; echo '  skipped: two: not root'; echo 1 passed, 0 failed", "passed", "1 passed, 0 failed, 2 skipped"),
        ("echo skipped: one: no peer; echo 0 passed, 0 failed", "not run", "0 passed, 0 failed, 1 skipped"),
        ("echo 1 passed, 0 failed; echo 9 processor minutes", "passed", "1 passed, 0 failed"),
    ],
)
def test_a_status_says_how_a_check_ended(script: str, how: str, last: str, tool: Callable[[str], None]) -> None:
    tool(script)
    ended = check.ends("pages", [])
    assert (ended.how, ended.last) == (how, last)


def test_the_rest_is_what_has_not_passed_on_these_files(tmp_path: Path, tool: Callable[[str], None]) -> None:
    tool("echo 1 passed, 0 failed")
    (tmp_path / "read").write_text("as it was")
    assert check.ends("pages", []).how == check.ends("live", []).how == "passed"
    assert check.asked(["--rest"]) == []
    (tmp_path / "other").write_text("new")
    assert check.asked(["--rest"]) == [("pages", [])]
    (tmp_path / "read").write_text("as it is")
    assert check.asked(["--rest"]) == [("pages", []), ("live", [])]


def test_what_passed_and_fails_on_the_same_files_is_of_the_rest(tmp_path: Path, tool: Callable[[str], None]) -> None:
    (tmp_path / "read").write_text("as it is")
    tool("echo skipped: two: no peer; echo 1 passed, 0 failed; exit $(cat .git/status)")
    for status, rest, skipped in ("0", [], ["skipped: two: no peer"]), ("2", [], ["skipped: two: no peer"]), ("1", ["live"], None):
        (tmp_path / ".git" / "status").write_text(status)
        check.ends("live", [])
        assert [name for name, _ in check.asked(["--rest"]) if name == "live"] == rest
        assert check.passed_before("live") == skipped


def test_what_failed_or_ran_with_words_of_its_own_is_of_the_rest(tool: Callable[[str], None]) -> None:
    tool('[ "$1" = part ]')
    assert [check.ends("pages", words).how for words in ([], ["part"])] == ["FAILED", "passed"]
    assert check.asked(["--rest"]) == [("pages", []), ("live", [])]


def test_what_passes_over_a_library_that_is_given_is_of_the_rest(tool: Callable[[str], None], monkeypatch: pytest.MonkeyPatch) -> None:
    tool("echo 1 passed, 0 failed")
    monkeypatch.setattr(check, "GIVEN", ["LIBRARY"])
    assert check.ends("live", []).how == "passed"
    assert check.asked(["--rest"]) == [("pages", []), ("live", [])]


def test_what_wants_the_toolchain_is_of_the_rest_by_another_one(tmp_path: Path, tool: Callable[[str], None], monkeypatch: pytest.MonkeyPatch) -> None:
    tool("echo 1 passed, 0 failed")
    (tmp_path / "read").write_text("as it was")
    monkeypatch.setattr(check, "CHECKS", {name: check.Check("tool", wants, "") for name, wants in (("pages", ""), ("live", "library, root"))})
    for version in "one", "another":
        monkeypatch.setattr(check, "toolchain", lambda: version)
        assert [name for name, _ in check.asked(["--rest"])] == ["pages", "live"][version == "another":]
        assert check.ends("pages", []).how == check.ends("live", []).how == "passed"
        assert check.asked(["--rest"]) == []


def test_a_check_reads_programs_in_c_that_are_named_without_their_ending() -> None:
    read = check.parts_of(os.path.join(loading.TOOLS, "maintain", "wrong-definitions"))
    assert {f"tools/maintain/live.d/{it}.c" for it in ("calls", "checks", "conversations", "payloads")} <= {*read}


def test_a_check_reads_its_tool_and_what_that_imports_and_names() -> None:
    read = check.parts_of(os.path.join(loading.TOOLS, "maintain", "peers"))
    assert {f"tools/{it}" for it in ("repository.py", *(f"maintain/{it}" for it in ("peers", "peers.d/hook.py", "live.d/usermode.py", "live.d/registers.c")))} <= {*read}
    assert not {"tools/maintain/carry", "tools/maintain/carry.d/bonds.py", "tools/maintain/live.d/fuzz.c"} & {*read}
