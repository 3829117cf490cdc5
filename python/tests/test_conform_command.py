"""The command `lagconform`: its words, refusals and reports, beside a device in memory."""

from __future__ import annotations

import argparse
import json
import os
import re
import signal
import struct
import subprocess
import sys
import xml.etree.ElementTree as xml
from dataclasses import replace
from pathlib import Path
from typing import Any, Iterator, Sequence, Type

import pytest
from conform_device import BY_NAME, LAST, Device, Individual, LongTimeouts, NoData, Waits, WaitsThree, World, beside, devices
from conform_faults import CutOff, KeyUnchecked, NoWait, SystemUnchecked
from conform_frames import NoMarkers
from niwhopera import __version__

from lagconform import causes, command, files, known, listing, options, page, pics, refusals, report
from lagconform.bench import Bench, most_within
from lagconform.groups import GROUPS, TESTS
from lagconform.model import CAVEAT, DEVICES, ERROR, FAIL, INCONCLUSIVE, LONG, MEMORY, NOT_APPLICABLE, PASS, PROFILE, SKIPPED, Result
from lagconform.runner import NoDevice, meet, run_one
from lagconform.shadow import compare


@pytest.fixture
def run(monkeypatch: pytest.MonkeyPatch, tmp_path: Path) -> Iterator[object]:
    """Runs the command beside a device; its status."""
    made: list[Device] = []

    def play(kind: Type[Device], *words: str, links: int = 2) -> int:
        def stand(_: object) -> Bench:
            made.append(kind())
            world = World(made[-1], links)
            b = Bench(world, world)
            meet(b)
            return b

        monkeypatch.setattr(command, "stand", stand)
        monkeypatch.chdir(tmp_path)
        return command.main([*[f"link{it}" for it in range(1, links + 1)], *words])

    yield play
    for it in made:
        it.stop()


def blocks(octets: bytes) -> list[tuple[int, bytes]]:
    """The blocks of a pcapng file."""
    found = []
    while octets:
        kind, size = struct.unpack("=II", octets[:8])
        found.append((kind, octets[8 : size - 4]))
        octets = octets[size:]
    return found


def test_reports(run, tmp_path: Path, capsys: pytest.CaptureFixture[str]) -> None:  # type: ignore[no-untyped-def]
    words = ["--only", "RX-07c", "--only", "TX-02c", "--only", "FM-01", "--shadow", "--device", "a <device>"]
    files = ["--json", "r.json", "--junit", "r.xml", "--report", "r.html", "--pcap", "r.pcapng"]
    assert run(KeyUnchecked, *words, *files) == 1
    said = capsys.readouterr().out
    assert "fail           RX-07c" in said and said.endswith(f"1 pass, 2 fail{LAST}") and "shadow: " in said and "up to 1.85 s late" in said
    told = json.loads((tmp_path / "r.json").read_text())
    assert told["counts"]["fail"] == 2 and told["tests"][1]["claims"][0]["holds"] is False and told["about"]["rules"] == CAVEAT
    assert [it.get("value") for it in xml.parse(tmp_path / "r.xml").getroot().iter("property") if it.get("name") == "rules"] == [CAVEAT] * 3
    shown = ", ".join(map(str, told["tests"][1]["claims"][0]["packets"]))
    assert f"\n{'':23}packets {shown}\n" in said
    tree = xml.parse(tmp_path / "r.xml").getroot()
    assert tree.get("name") == "a <device>" and tree.get("failures") == "2" and len(tree.findall(".//testcase")) == 3
    page = (tmp_path / "r.html").read_text()
    assert page.endswith(f"<p>{CAVEAT}</p>\n</html>\n") and "RX-07c (not run)" not in page and "RX-07a (not run)" in page and "(partial: 1 of " in page
    assert "a &lt;device&gt;" in page and page.count("<svg") == 4 and "the rule is carried by PROFILE" in page
    found = blocks((tmp_path / "r.pcapng").read_bytes())
    assert [kind for kind, _ in found[:3]] == [0x0A0D0D0A, 1, 1] and {kind for kind, _ in found[3:]} == {6}
    failing = told["tests"][1]["claims"][0]["packets"][0]
    assert b"RX-07c fails" in found[2 + failing][1]


def test_known_fails(run, tmp_path: Path, capsys: pytest.CaptureFixture[str]) -> None:  # type: ignore[no-untyped-def]
    (tmp_path / "known").write_text("# of the switch\nRX-07c compares no key\nFM-01 was wrong once\n")
    words = ["--only", "RX-07c", "--only", "FM-01", "--known", str(tmp_path / "known"), "--junit", "r.xml"]
    assert run(KeyUnchecked, *words) == 0
    said = capsys.readouterr().out
    assert "(known: compares no key)" in said and "known fail FM-01 did not fail" in said and said.endswith(f"1 pass, 1 fail (1 known){LAST}")
    assert xml.parse(tmp_path / "r.xml").getroot().get("failures") == "0"
    assert run(KeyUnchecked, *words, "--only", "TX-02c") == 1


@pytest.mark.parametrize(
    "kind, claims, last, why",
    [
        (NoMarkers, "marker-responder no  # none", "1 pass, 1 fail", "0 of 3 markers were answered"),
        (Device, "marker-responder no", "1 pass, 1 fail", "it claims to have no Marker Responder, which 6.2.6 wants of every system"),
        (Device, "active no", "1 pass, 1 fail", "claims active no"),
        (Device, "short-timeouts no", "1 pass, 1 fail", "claims short-timeouts no"),
        (LongTimeouts, "short-timeouts yes", "1 pass, 1 fail", "claims short-timeouts yes"),
        (Individual, "two-ports yes", "1 pass, 1 fail", "claims two-ports yes"),
        (LongTimeouts, "short-timeouts no\nactive yes\ntwo-ports no", "2 pass, 0 fail", "pass           FM-08"),
    ],
)
def test_what_a_statement_claims_holds(run, kind: Type[Device], claims: str, last: str, why: str, tmp_path: Path, capsys: pytest.CaptureFixture[str]) -> None:  # type: ignore[no-untyped-def]
    (tmp_path / "pics").write_text(claims + "\n")
    words = ["--pics", str(tmp_path / "pics"), "--only", "MK-01", "--only", "FM-08"]
    assert run(kind, *words) == (1 if "1 fail" in last else 0)
    said = capsys.readouterr().out
    assert said.endswith(f"{last}{LAST}") and why in said


def test_what_a_device_does_not_have_is_not_looked_at(run, tmp_path: Path, capsys: pytest.CaptureFixture[str]) -> None:  # type: ignore[no-untyped-def]
    (tmp_path / "pics").write_text("two-ports no\n")
    assert run(Individual, "--pics", str(tmp_path / "pics"), "--only", "SL-01", "--only", "FM-01", "--json", "r.json") == 0
    assert capsys.readouterr().out.endswith(f"1 pass, 0 fail, 1 not applicable{LAST}")
    assert "both links may join" in json.loads((tmp_path / "r.json").read_text())["tests"][1]["why"]


def test_a_known_fail_that_passes_fails_a_strict_run(run, tmp_path: Path, capsys: pytest.CaptureFixture[str]) -> None:  # type: ignore[no-untyped-def]
    (tmp_path / "known").write_text("FM-01 was wrong once\nSL-17 of the hook\n")
    words = ["--only", "FM-0[12]", "--only", "SL-17", "--known", str(tmp_path / "known"), "--junit", "r.xml", "--tap", "r.tap"]
    for strict, status, errors, point in ((), 0, "0", "ok 1 - FM-01"), (("--strict",), 1, "1", "not ok 1 - FM-01"):
        assert run(NoData, *words, *strict) == status
        said = capsys.readouterr().out
        assert "\nknown fail FM-01 did not fail\n" in said and "SL-17 did not fail" not in said  # which was skipped
        assert xml.parse(tmp_path / "r.xml").getroot().get("errors") == errors and f"\n{point}" in (tmp_path / "r.tap").read_text()
    assert [it.get("message") for it in xml.parse(tmp_path / "r.xml").getroot().iter("error")] == ["a known fail that passes: was wrong once"]
    assert '  message: "a known fail that passes: was wrong once"\n' in (tmp_path / "r.tap").read_text()


@pytest.mark.parametrize("text", ["marker-responder", "marker-responder maybe", "speed yes"])
def test_a_bad_statement_is_refused(text: str) -> None:
    with pytest.raises(pics.BadPics, match=f"line 1: .*the items are {', '.join(pics.ITEMS)}$"):
        pics.parsed(text)


@pytest.mark.parametrize("text", ["FM-99 why", "FM-01", "FM-01  "])
def test_a_bad_list_of_known_fails_is_refused(text: str) -> None:
    with pytest.raises(known.BadKnown, match="line 1"):
        known.parsed(text, BY_NAME)


def test_an_interrupted_run_reports_what_ran(run, tmp_path: Path, capsys: pytest.CaptureFixture[str], monkeypatch: pytest.MonkeyPatch) -> None:  # type: ignore[no-untyped-def]
    class Interrupts(Device):
        def ticked(self) -> None:
            if self.now > 8:
                raise KeyboardInterrupt

    assert run(Interrupts, "--only", "FM-*", "--json", "r.json", "--junit", "r.xml", "--tap", "r.tap") == 130
    told = json.loads((tmp_path / "r.json").read_text())
    root = xml.parse(tmp_path / "r.xml").getroot()
    assert [root.get(it) for it in ("tests", "errors")] == [str(len(told["tests"]) + 1), "1"] and len([*root.iter("testcase")]) == len(told["tests"]) + 1
    assert [it.get("message") for it in root.iter("error")] == [told["about"]["incomplete"]]
    assert (tmp_path / "r.tap").read_text().endswith(f"\nBail out! {told['about']['incomplete']}\n")
    assert told["counts"]["pass"] >= 1 and told["about"]["incomplete"] == f"interrupted; {len(told['tests'])} of 9 tests ran"


@pytest.mark.parametrize("why", [OSError(5, "it broke"), RuntimeError("it broke")])
def test_a_run_that_breaks_reports_what_ran(run, why: Exception, tmp_path: Path, capsys: pytest.CaptureFixture[str], monkeypatch: pytest.MonkeyPatch) -> None:  # type: ignore[no-untyped-def]
    def line(it: Result) -> str:
        if it.test.id == "FM-03":
            raise why
        return ""

    monkeypatch.setattr(report, "line", line)
    assert run(Device, "--only", "FM-*", "--json", "r.json") == 2
    assert run(CutOff, "--only", "FM-*") == 1  # FM-02 failed before
    assert "it broke; the reports have what was run" in capsys.readouterr().err
    assert json.loads((tmp_path / "r.json").read_text())["counts"]["pass"] == 3


def test_a_reader_that_goes_leaves_the_report(run, tmp_path: Path, monkeypatch: pytest.MonkeyPatch) -> None:  # type: ignore[no-untyped-def]
    end, begin = os.pipe()

    class Closes(Device):
        open = True

        def ticked(self) -> None:
            if self.open and self.now > 8:
                os.close(end)
                self.open = False

    with os.fdopen(begin, "w") as out:
        monkeypatch.setattr(sys, "stdout", out)
        assert run(Closes, "--only", "FM-*", "--json", "r.json") == 2
        monkeypatch.undo()
    assert json.loads((tmp_path / "r.json").read_text())["counts"]["pass"] >= 1


def test_a_report_that_fails_costs_no_other_one(run, tmp_path: Path, capsys: pytest.CaptureFixture[str], monkeypatch: pytest.MonkeyPatch) -> None:  # type: ignore[no-untyped-def]
    def breaks(*_: object) -> str:
        raise ValueError("it broke")

    monkeypatch.setattr(page, "as_html", breaks)
    monkeypatch.setattr(command, "compare", breaks)
    words = ["--only", "FM-01", "--shadow", "--json", "/dev/full", "--report", "r.html", "--junit", "r.xml"]
    assert run(Device, *words) == 2
    told = capsys.readouterr().err
    assert all(it in told for it in ("/dev/full was not written: No space", "r.html was not written: ValueError: it broke", "--shadow: ValueError: it broke"))
    assert xml.parse(tmp_path / "r.xml").getroot().get("tests") == "1"


def test_signals_wait_while_reports_are_written() -> None:
    before = signal.getsignal(signal.SIGTERM)
    with files.undisturbed():
        os.kill(os.getpid(), signal.SIGTERM)
        os.kill(os.getpid(), signal.SIGINT)
    assert signal.getsignal(signal.SIGTERM) is before


def test_a_signal_while_modules_are_read_is_told(tmp_path: Path) -> None:
    sends = f"if name == 'lagconform.command': os.kill(os.getpid(), {int(signal.SIGTERM)})"
    sent = f"import os, sys\nclass Sends:\n    @staticmethod\n    def find_spec(name, *_):\n        {sends}\nsys.meta_path.insert(0, Sends)\n"
    (tmp_path / "sitecustomize.py").write_text(sent)
    paths = os.pathsep.join([str(tmp_path), str(Path(__file__).parents[1])])
    words = [sys.executable, "-m", "lagconform", "none0", "--json", "r.json", "--tap", "r.tap"]
    ended = subprocess.run(words, cwd=tmp_path, env={**os.environ, "PYTHONPATH": paths}, capture_output=True, timeout=300, check=False)
    assert ended.returncode == 130 and b"lagconform: interrupted before the first test" in ended.stderr, ended
    assert json.loads((tmp_path / "r.json").read_text())["about"]["incomplete"] == "interrupted before the first test"
    assert (tmp_path / "r.tap").read_text().endswith("Bail out! interrupted before the first test\n")


@pytest.mark.parametrize("path, why", [("none/r.json", "there is no folder"), (".", "it is a folder"), ("/proc/sys/r", "can't be written")])
def test_a_report_that_can_not_be_written_is_refused_before_the_run(run, path: str, why: str, capsys: pytest.CaptureFixture[str]) -> None:  # type: ignore[no-untyped-def]
    for option in "--json", "--junit", "--report", "--pcap":
        assert run(Device, "--only", "FM-01", option, path) == 2
        told = capsys.readouterr()
        assert why in told.err and not told.out


def test_a_run_without_an_answer_is_no_success(run, capsys: pytest.CaptureFixture[str]) -> None:  # type: ignore[no-untyped-def]
    """Whatever its tests came to, also with --strict; with one that has an answer, that makes it 1. RX-14 wants a device of long timeouts."""
    for words, status in ("--only RX-14", 2), ("--only RX-14 --strict", 2), ("--only SL-06 --strict", 2), ("--only SL-06 --only FM-01 --strict", 1):
        assert run(NoData, *words.split()) == status
        assert ("no test came to pass or fail" in capsys.readouterr().err) == (status == 2)


def test_a_long_test_runs_by_its_name() -> None:
    assert [it.id for it in options.selected(["RX-14"], False, 1)] == ["RX-14"]
    assert not any(it.is_long for it in options.selected(["RX-*"], False, 1))


@pytest.mark.parametrize("text", ["nan", "inf", "-0.1", "soon", "1.1", "100"])
def test_slack_is_a_time(text: str, capsys: pytest.CaptureFixture[str]) -> None:
    with pytest.raises(SystemExit, match="2"):
        command.main(["lo", f"--slack={text}"])
    assert "--slack" in capsys.readouterr().err


def test_a_file_that_is_no_text_is_refused(tmp_path: Path) -> None:
    (tmp_path / "octets").write_bytes(b"FM-01 \xff")
    (tmp_path / "long").write_bytes(bytes(files.LONGEST + 1))
    os.mkfifo(tmp_path / "fifo")
    for name, why in ("octets", "octet 6 is ff"), ("long", "more than"), ("fifo", "no regular file"), ("/dev/urandom", "no regular file"), (".", "Is a directory"):
        with pytest.raises(refusals.Refused, match=why):
            files.read_text("--known", str(tmp_path / name))
    assert files.read_text("--known", os.devnull) == ""


def test_one_link_runs_tests_of_one_link(run, capsys: pytest.CaptureFixture[str]) -> None:  # type: ignore[no-untyped-def]
    assert run(Device, "--only", "SL-*", links=1) == 0
    assert capsys.readouterr().out.endswith(f"1 pass, 0 fail{LAST}")


@pytest.mark.parametrize(
    "words, why",
    [
        ([], "one to 4 interfaces"),
        (["a", "b", "c", "d", "e"], "one to 4 interfaces"),
        (["lo", "lo"], "named twice"),
        (["none0"], "there is no interface none0"),
        (["lo"], "no Ethernet interface"),
        (["lo", "--only", "XX-*"], "there is no test XX"),
        (["lo", "--known", "/none"], "--known /none: No such file or directory. It has to be a text with a line for each known fail, as `RX-08 reported"),
        (["lo", "--pics", "none"], f"--pics none: No such file or directory in {os.getcwd()}. It has to be a text with a line for each item"),
        (["lo", "--resume", "/none"], "--resume /none: No such file or directory. It has to be the JSON that --json of an earlier run wrote"),
        (["lo", "--tests", "/none"], "--tests /none: No such file or directory. It has to be a file of Python that makes a lagconform.model.Group"),
        (["--memory", "/none"], "--memory /none: No such file or directory. It has to be a file of Python with a class Device, or a shared library"),
        (["lo", "--only", "RX-14*"], "RX-14* wants --long"),
        (["lo", "--only", "SL-01", "--only", "FM-01"], "SL-01 wants 2 links"),
        (["lo", "--set", "a=b"], "--set wants --hook"),
        (["lo", "--hook", "true", "--set", "a"], "--set a: it is KEY=VALUE"),
    ],
)
def test_refusals(words: list[str], why: str, capsys: pytest.CaptureFixture[str]) -> None:
    assert command.main(words) == 2
    assert why in capsys.readouterr().err


NONE = "there is no interface none0: `ip link` lists them"


REPORTS = {"--json": "r.json", "--junit": "r.xml", "--tap": "r.tap", "--matrix": "r.md", "--report": "r.html"}
WORDS = [word for pair in REPORTS.items() for word in pair]


def test_a_run_that_never_began_leaves_no_report_of_another(tmp_path: Path, monkeypatch: pytest.MonkeyPatch) -> None:
    monkeypatch.chdir(tmp_path)
    for it in REPORTS.values():
        (tmp_path / it).write_text("of the run before")
    assert command.main(["none0", *WORDS]) == 2
    root = xml.parse(tmp_path / "r.xml").getroot()
    assert root.get("errors") == "1" and [it.get("message") for it in root.iter("error")] == [NONE]
    assert (tmp_path / "r.tap").read_text() == f"TAP version 14\nBail out! {NONE}\n"
    told = json.loads((tmp_path / "r.json").read_text())
    assert told["about"]["incomplete"] == NONE and told["about"]["begun"] and not told["tests"] and not any(told["counts"].values())
    assert (tmp_path / "r.md").read_text() == f"No test has a result: {NONE}\n" and f"No test has a result: {NONE}" in (tmp_path / "r.html").read_text()


def test_a_run_that_is_killed_leaves_no_report_of_another(tmp_path: Path, monkeypatch: pytest.MonkeyPatch) -> None:
    """What stands there while it runs is what stays behind SIGKILL."""
    monkeypatch.chdir(tmp_path)
    (tmp_path / "r.json").write_text("of the run before")
    seen: list[dict[str, str]] = []

    def stand(_: object) -> Bench:
        seen.append({it.name: it.read_text() for it in tmp_path.iterdir()})
        raise NoDevice("none")

    monkeypatch.setattr(command, "stand", stand)
    assert command.main(["link1", *WORDS]) == command.SILENT
    assert {*seen[0]} == {*REPORTS.values()} and json.loads(seen[0]["r.json"])["about"]["incomplete"] == command.UNENDED
    assert all(command.UNENDED in it for it in seen[0].values())


def test_a_report_takes_the_place_of_one_at_once(tmp_path: Path, monkeypatch: pytest.MonkeyPatch) -> None:
    own, link = tmp_path / "own", tmp_path / "link"
    own.write_text("of the run before")
    own.chmod(0o640)
    link.symlink_to(own)
    before = own.open()
    files.put(str(link), b"new")
    assert link.is_symlink() and own.read_text() == "new" and own.stat().st_mode & 0o777 == 0o640
    assert before.read() == "of the run before"  # whoever reads it reads one of both
    before.close()

    def busy(*_: object) -> None:
        raise OSError(16, "a file system of its own")

    monkeypatch.setattr(os, "replace", busy)
    files.put(str(link), b"newer")
    assert own.read_text() == "newer" and sorted(it.name for it in tmp_path.iterdir()) == ["link", "own"]


def test_a_run_that_never_began_leaves_what_it_was_to_resume(run, tmp_path: Path, capsys: pytest.CaptureFixture[str], monkeypatch: pytest.MonkeyPatch) -> None:  # type: ignore[no-untyped-def]
    assert run(Device, "--only", "FM-0*", "--json", "r.json") == 0
    before = (tmp_path / "r.json").read_text()
    monkeypatch.undo()
    monkeypatch.chdir(tmp_path)
    assert command.main(["link1", "link2", "--resume", "./r.json", *WORDS]) == 2
    assert (tmp_path / "r.json").read_text() == before and "r.json stays as it was" in capsys.readouterr().err
    assert f"No test has a result: {NONE.replace('none0', 'link1')}" in (tmp_path / "r.html").read_text()
    assert run(Device, "--only", "FM-0*", "--only", "MK-01", "--resume", "r.json", "--json", "r.json") == 0
    assert json.loads((tmp_path / "r.json").read_text())["counts"]["pass"] == 10
    assert run(Device, "--only", "MK-01", "--resume", "r.json") == 0 and "\n0 tests on 2 links\n" in capsys.readouterr().out


@pytest.mark.parametrize(
    "name, words, links",
    [
        ("device", ["--device", "other build"], 2), ("links", [], 1), ("hook", ["--hook", "true"], 2), ("set", ["--hook", "./hook", "--set", "a=c"], 2),
        ("pics", ["--pics", "pics"], 2), ("system", ["--system", "06:d1:00:00:00:03"], 2), ("flap", ["--flap"], 2), ("slack", ["--slack", "0.3"], 2),
        ("links", ["--memory"], 0), ("repeat", ["--repeat", "2"], 2),
    ],
)  # fmt: skip
def test_verdicts_of_another_device_are_not_taken_over(run, name: str, words: list[str], links: int, tmp_path: Path, capsys: pytest.CaptureFixture[str]) -> None:  # type: ignore[no-untyped-def]
    (tmp_path / "pics").write_text("two-ports no\n")
    (tmp_path / "device.py").write_text("from conform_device import Device\n")
    same = ["--hook", "./hook", "--set", "a=b"] if name == "set" else []
    assert run(Device, "--only", "FM-0*", *same, "--json", "r.json") == 0
    assert run(Device, "--only", "FM-0*", *same, "--resume", "r.json") == 0
    words = [*words, "device.py"] if links == 0 else words
    capsys.readouterr()
    assert run(Device, "--only", "FM-0*", *words, "--resume", "r.json", links=links) == 2
    told = capsys.readouterr()
    assert f"lagconform: --resume r.json: {name} was " in told.err and not told.out


@pytest.mark.parametrize("verdict, wants", [("64", SKIPPED), ("255", INCONCLUSIVE), ("127", INCONCLUSIVE)])
def test_a_hook_that_fails_skips_no_test(verdict: str, wants: str) -> None:
    with beside(World(Device()), Waits(f"exit {verdict} #")) as b:
        found = [run_one(b, BY_NAME[it]) for it in ("RX-13", "RX-15", "SL-17")]
        assert [it.verdict for it in found] == [wants] * 3 and not any(it.stuck for it in found)
        said = [it.why for it in found]
        assert said[0] == ("the hook does not do: down 1" if wants == SKIPPED else f"the hook failed with status {verdict} (64 means: it does not know the words): down 1")
        shared = run_one(b, BY_NAME["SL-01"])  # broadcasts take the place of what the hook does not know, and not of what fails
        assert f"failed with status {verdict}" in shared.why if wants == INCONCLUSIVE else "would show it (the hook does not do: data start)" in shared.why


@pytest.mark.parametrize("line, words, why", [
    ("exit 1 #", [], "the hook failed with status 1 (64 means: it does not know the words): reset"),
    ("exit 64 #", ["a=b"], "the hook does not do: set a b"), ("exit 64 #", [], ""), ("exit 0 #", ["a=b"], ""),
])  # fmt: skip
def test_a_hook_that_fails_before_the_first_test_ends_the_run(line: str, words: list[str], why: str) -> None:
    given = argparse.Namespace(hook=line, set=words)
    with beside(World(Device()), Waits(line), meets=False) as b:
        if not why:
            command.prepare_device(given, b)
            return
        with pytest.raises(refusals.Refused, match=f"^--hook {re.escape(f'{line}: {why}')}$"):
            command.prepare_device(given, b)


def test_a_fault_of_the_bench_before_the_first_test_is_no_fail(tmp_path: Path, monkeypatch: pytest.MonkeyPatch, capsys: pytest.CaptureFixture[str]) -> None:
    def stand(_: object) -> Bench:
        raise ZeroDivisionError("of the bench")

    monkeypatch.chdir(tmp_path)
    monkeypatch.setattr(command, "stand", stand)
    assert command.main(["link1", *WORDS]) == 2
    told = "the bench has a fault: ZeroDivisionError: of the bench"
    assert json.loads((tmp_path / "r.json").read_text())["about"]["incomplete"] == told and "in stand" in capsys.readouterr().err


@pytest.mark.parametrize("line, why", [("/none/hook", "does not find it"), ("{}/data", "may not run it")])
def test_a_hook_that_can_not_be_run_is_refused_by_name(line: str, why: str, tmp_path: Path) -> None:
    (tmp_path / "data").write_text("no program")
    line = line.format(tmp_path)
    told = f"^--hook {re.escape(line)}: the shell {why}: .*{re.escape(line)}"
    with beside(World(Device()), Waits(line), meets=False) as b, pytest.raises(refusals.Refused, match=told):
        command.prepare_device(argparse.Namespace(hook=line, set=[]), b)


FREE = refusals.Interface(True, True, True, "", "master")


@pytest.mark.parametrize(
    "changes, why",
    [
        ({"is_ethernet": False}, "is no Ethernet interface"), ({"is_up": False}, "is down"), ({"has_carrier": False}, "no carrier"), ({}, "held by lagd"),
        ({"master": "m0", "kind": "bond"}, "in the bond m0"), ({"master": "m0", "kind": "bridge"}, "in the bridge m0"), ({"master": "m0"}, "in the master m0"),
    ],
)  # fmt: skip
def test_an_interface_that_is_not_free(changes: dict[str, Any], why: str, monkeypatch: pytest.MonkeyPatch) -> None:
    monkeypatch.setattr(refusals, "asked", lambda _: FREE._replace(**changes))
    monkeypatch.setattr(refusals, "lacp_speaker", lambda _: "lagd (process 7)")
    with pytest.raises(refusals.Refused, match=why):
        refusals.check_interface("eth9")


def test_a_silent_device_is_refused_with_the_usual_causes() -> None:
    (silent,) = devices(Device, "may_send", ("Silent", "Says nothing.", "", lambda self: False))
    with beside(World(silent()), meets=False) as b:
        with pytest.raises(NoDevice, match="^the device is silent: no LACPDU came in 35 s on link1, link2. The usual causes"):
            meet(b)
        assert b.now() >= 35


def result(name: str, verdict: str = FAIL) -> Result:
    return Result(BY_NAME[name], verdict)


def test_causes() -> None:
    found = causes.grouped([result("RX-12b"), result("RX-12c"), result("MX-05", PASS), result("SL-09"), result("FM-01")])
    assert [(it.name, [one.test.id for one in it.explains]) for it in found] == [("RX-12b", ["RX-12c", "SL-09"]), ("FM-01", [])]
    one = causes.grouped([result("RX-09"), result("MX-02"), result("MX-03")])
    assert [(it.name, len(it.explains)) for it in one] == [("MX-02", 2)]


def test_each_cause_is_a_test() -> None:
    assert {name for it in TESTS for name in it.causes} <= set(BY_NAME)


def test_a_test_without_its_hook_is_skipped_and_leaves_nothing_for_the_shadow() -> None:
    with beside(World(Device())) as b:
        assert run_one(b, BY_NAME["RX-15"]).verdict == SKIPPED and not b.events
        assert run_one(b, BY_NAME["RX-14"]).verdict == NOT_APPLICABLE


@pytest.mark.parametrize("why, verdict, told", [
    (ZeroDivisionError("of\nit"), ERROR, "the test broke by ZeroDivisionError: of it; line "), (SystemExit(0), ERROR, "the test broke by SystemExit: 0; line "),
    (ConnectionRefusedError(111, "it sleeps"), INCONCLUSIVE, "ConnectionRefusedError: [Errno 111] it sleeps; line "), (MemoryError(), INCONCLUSIVE, "MemoryError: ; line "),
])  # fmt: skip
def test_a_fault_of_a_test_is_an_error_and_one_of_the_network_is_not(why: BaseException, verdict: str, told: str) -> None:
    def wrong(_: Bench) -> None:
        raise why

    with beside(World(Device()), meets=False) as b:
        found = run_one(b, replace(BY_NAME["FM-01"], run=wrong))
        assert found.verdict == verdict and found.why.startswith(told) and found.why.endswith(__file__)
        found = run_one(b, replace(BY_NAME["FM-01"], run=lambda: None))
        assert found.verdict == ERROR and found.why.endswith("takes 0 positional arguments but 1 was given") and "Traceback" in found.notes[-1]


def test_the_list_has_each_test(capsys: pytest.CaptureFixture[str]) -> None:
    titles = {it.name: it.title for it in GROUPS}
    text, table = listing.as_text(TESTS, titles), listing.as_markdown(TESTS, titles)
    assert all(f"  {name} " in text and f"\n| {name}" in table for name in BY_NAME)
    assert all(f"standard: IEEE 802.1AX-2014; tests: lagconform {__version__}, SHA-256 " in it for it in (text, table))
    assert command.main(["--list"]) == 0 and command.main(["--list", "--markdown", "--only", "FM-*"]) == 0


def test_the_list_has_the_times_of_tests_that_run_again(capsys: pytest.CaptureFixture[str]) -> None:
    short = [it for it in TESTS if not it.is_long and it.links == 1]
    assert command.main(["--list", "--repeat", "10"]) == 0
    assert f"one link: {len(short)} tests, each 10 times, some {round(sum(it.takes for it in short) / 6)} min, at most" in capsys.readouterr().out
    most = 10 * (listing.most(short) - listing.BEFORE / 60)
    assert abs(listing.most(short, 10) - listing.BEFORE / 60 - most) <= 11


def test_a_list_that_nobody_reads_to_its_end_is_no_error(monkeypatch: pytest.MonkeyPatch, capsys: pytest.CaptureFixture[str]) -> None:
    reading, writing = os.pipe()
    os.close(reading)
    with monkeypatch.context() as patch, open(writing, "w", encoding="utf-8") as out:
        patch.setattr(sys, "stdout", out)
        assert command.main(["--list"]) == 0
    assert not capsys.readouterr().err


def test_a_wrong_line_is_told_with_its_file(tmp_path: Path, capsys: pytest.CaptureFixture[str]) -> None:
    for option in "--known", "--pics":
        (tmp_path / "wrong").write_text("FM-99 why\n")
        assert command.main(["lo", option, str(tmp_path / "wrong")]) == 2
        assert f"lagconform: {tmp_path}/wrong: line 1: " in capsys.readouterr().err


def test_each_test_tells_what_it_does() -> None:
    assert len(BY_NAME) == len(TESTS)
    for it in TESTS:
        assert it.basis in (PROFILE, DEVICES, MEMORY) and it.purpose and it.rule and it.clause and it.steps, it.id
        assert set(it.needs) <= set(pics.ITEMS) and 1 <= it.links <= 3


def test_the_shadow_agrees_with_a_right_device() -> None:
    for kind, differs in (Device, False), (NoWait, True), (SystemUnchecked, True):
        world = World(kind())
        with beside(world, world) as b:
            for name in "RX-01", "RX-07b", "RX-12b", "RX-02", "MX-01", "VN-01", "SL-03":
                run_one(b, BY_NAME[name])
            shadow = compare(b)
            assert shadow.compared > 20 and bool(shadow.differences) == differs, shadow.text


def test_the_shadow_says_what_it_can_not_see() -> None:
    with beside(World(WaitsThree())) as b:
        assert compare(b).text.startswith("nothing was compared: LACPDUs of the first 5 s")
        found = [run_one(b, BY_NAME[it]).verdict for it in ("MX-01", "RX-12b", "MX-08")]
        assert found == [FAIL] * 3
        shadow = compare(b)
        assert shadow.compared > 10 and shadow.text.endswith("place, up to 1.85 s late, so it clears no fail of time"), shadow.text


def test_most_within() -> None:
    assert most_within([], 1) == 0
    assert most_within([0, 0.4, 0.9, 1.0, 1.3], 1) == 4


def page_of(name: str) -> str:
    """A page of the repository; none where the module stands alone."""
    page = Path(__file__).parents[2] / "docs" / name
    return page.read_text() if page.exists() else ""


def test_the_page_has_what_carries_the_tests() -> None:
    text, kinds = page_of("CONFORM.md"), {kind: [it.id for it in TESTS if it.basis == kind] for kind in (PROFILE, DEVICES, MEMORY)}
    assert not text or f"\n|`PROFILE`|all {len(kinds[PROFILE])} others|" in text
    vn, rb = ([it.id for it in TESTS if it.group == group] for group in ("VN", "RB"))
    assert kinds[DEVICES] == [*vn[: vn.index("VN-10") + 1], *rb]
    row = next((it for it in text.splitlines() if it.startswith("|`memory`|")), "")
    assert not text or set(row.split("|")[2].split(", ")) == set(kinds[MEMORY])


# The keys of JSON that stay while `format` is 1; others may come beside them.
OF_RUN = {"format", "run", "about", "counts", "causes", "clauses", "tests"}
OF_ABOUT = {"device", "standard", "tests", "begun", "slack", "seed", "rules", "the bench's first system", "the bench was late", "link 1"}
OF_TEST = set("id clause basis title rule causes verdict why known notes seconds late packets claims frames".split())
OF_FRAME = {"seconds", "link", "from", "octets"}
OF_LISTED = set("id clause basis title purpose steps rule tolerance links takes most needs hooks causes".split())


def test_the_keys_of_json_stay(run, tmp_path: Path) -> None:  # type: ignore[no-untyped-def]
    assert report.FORMAT == 1 and (not page_of("CONFORM.md") or "JSON has `format`, now 1. In format 1 keys stay" in page_of("CONFORM.md"))
    assert run(Device, "--only", "FM-01", "--json", "r.json") == 0 and command.main(["--list", "--json", "l.json"]) == 0
    told, tests = (json.loads((tmp_path / it).read_text()) for it in ("r.json", "l.json"))
    assert OF_RUN <= {*told} and OF_ABOUT <= {*told["about"]} and OF_TEST <= {*told["tests"][0]}
    assert {"format", "about", "tests"} <= {*tests} and OF_LISTED <= {*tests["tests"][0]}
    assert {*told["tests"][0]["claims"][0]} == {"holds", "text", "packets"} and {*next(iter(told["tests"][0]["frames"].values()))} == OF_FRAME


def test_the_page_has_a_statement_of_each_item() -> None:
    lines = re.search(r"^    # device.pics\n(?:    .*\n)+", page_of("CONFORM.md"), re.M)
    assert not page_of("CONFORM.md") or lines and [*pics.parsed(lines[0])] == [*pics.ITEMS]


def test_the_page_says_what_makes_the_counts_differ() -> None:
    text = page_of("CONFORM.md")
    if not text:
        return
    long, three = listed([it.id for it in TESTS if it.is_long]), listed([it.id for it in TESTS if it.links == 3])
    assert f"`--long` adds {long}, which take more than {LONG} s each. Three links add {three}." in " ".join(text.split())
    with beside(World(Device())) as b:
        wanted = [run_one(b, it) for it in TESTS if it.hooks and it.links < 3]
        skipped = listed([it.test.id for it in wanted if it.verdict == SKIPPED]).replace("RX-13", "RX-13 (but with `--flap`)").replace("RX-21", "RX-21 (likewise)")
        assert f"without `--hook`, {skipped} are skipped" in " ".join(text.split())


def listed(names: Sequence[str]) -> str:
    """Names as sentences have them."""
    return f"{', '.join(names[:-1])} and {names[-1]}"


def test_the_page_says_which_tests_ran_beside_peers() -> None:
    wanted = f"that take at most {LONG} s each"
    assert wanted in (" ".join(page_of("MEASURED.md").split()) or wanted)


def test_the_version_says_which_library_runs(capsys: pytest.CaptureFixture[str]) -> None:
    assert command.main(["--version"]) == 0
    first, second = capsys.readouterr().out.splitlines()
    assert first.startswith("lagconform ") and second.startswith(("with native liblag, ", "with liblag of lag.c, "))
