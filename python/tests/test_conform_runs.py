"""What a whole run makes of floods, early faults, a busy machine and the options for CI, beside devices in memory."""

from __future__ import annotations

import json
import os
import re
import shutil
import subprocess
import sys
import xml.etree.ElementTree as xml
from contextlib import ExitStack
from dataclasses import replace
from pathlib import Path
from textwrap import dedent, indent
from typing import Iterable, Iterator, Sequence, Type

import pytest
from conform_device import BY_NAME, LAST, Device, Full, Says, World, beside, devices, play, put
from conform_faults import CutOff, DataTwice, GroupSystem, KeyUnchecked, PartnerLength, RestartsOnChange, SecondFallsSilent, SecondPartnerKey, WrongEcho
from conform_frames import BadLengths, OtherId, Responds, VersionChecked
from conform_machines import NoNtt

from lagconform import causes, child, command, floods, matrix, memory, page, report
from lagconform.bench import Bench
from lagconform.edition import edition
from lagconform.groups import TESTS
from lagconform.model import CAVEAT, FAIL, INCONCLUSIVE, NOT_APPLICABLE, PASS, SKIPPED, SURE, Claim, Result
from lagconform.model import Test as Case
from lagconform.runner import IN_TURN, CameToNothing, Flood, StoppedForGood, judge, run_all, run_times
from lagconform.wires import Answer

EXAMPLES = Path(__file__).parents[2] / "examples" / "conform"
PAGE = Path(__file__).parents[2] / "docs" / "CONFORM.md"
HEADER = Path(__file__).parents[2] / "crates" / "lagffi" / "include"
needs_library = pytest.mark.skipif(not HEADER.exists() or not shutil.which("cc") or "NIWHOPERA_LIBRARY" not in os.environ, reason="no C compiler, or no library")


@pytest.fixture
def bench() -> Iterator[object]:
    """Makes benches that have met devices."""
    with ExitStack() as made:

        def make(kind: Type[Device]) -> Bench:
            world = World(kind())
            return made.enter_context(beside(world, world))

        yield make


SometimesWrong, LateKey, Uncarrying = devices(
    Says, "said",
    ("SometimesWrong", "Sends a wrong version in the first 8 s of its life.", "",
     lambda self, port, frame: put(frame, 1, b"\x09") if self.now < 8 else frame),
    # A partner that tells the key back is out of sync for it, so that the link no longer carries.
    ("LateKey", "Tells another key on its second link from a second on.", "",
     lambda self, port, frame: put(frame, 12, b"\0\x77") if port == 2 and self.now > 600 else frame),
    ("Uncarrying", "Never carries.", "", lambda self, port, frame: put(frame, 18, bytes([frame[32] & 0x0F]))),
)  # fmt: skip
(LateSilence,) = devices(SecondFallsSilent, "silent_from", ("LateSilence", "Its second link falls silent once it has carried.", "", 100.0))
(DataManyTimes,) = devices(Device, "puts", ("DataManyTimes", "Sends more copies than the bench keeps.", "", lambda self, port, frame: [port] * 20))
(Mute,) = devices(Device, "may_send", ("Mute", "Says nothing more once its links were up for a while.", "", lambda self: self.now < 10))


class Loop(Device):
    """Stands behind a loop: each tick brings as many frames as the link can take."""

    octets = b"\x01\x80\xc2\0\0\2" + bytes([2, 0, 0, 0, 9, 9]) + b"\x88\x09\1" + bytes(109)

    def ticked(self) -> None:
        for _ in range(600 if self.now > 0.5 else 0):
            self.send(1, self.octets)


class BesideALoop(Loop):
    """Copies of its own LACPDUs come back by the loop."""

    def says(self, port: int, frame: bytes) -> Iterable[bytes]:
        self.octets = frame
        yield frame


@pytest.mark.parametrize("kind", [Loop, BesideALoop])
def test_a_flood_is_told_and_ends_the_run(bench, kind: Type[Device]) -> None:  # type: ignore[no-untyped-def]
    b, results = bench(kind), list[Result]()
    with pytest.raises(CameToNothing, match=f"{IN_TURN} tests in turn came to nothing.*link 1 .link1. is flooded: [0-9]+ frames a second came on average"):
        run_all(b, [BY_NAME[it] for it in ("RX-01", "RX-02", "RX-04", "RX-06", "RX-09", "RX-10", "TX-01", "MX-07")], results.append)
    assert b.now() < 120 and len(b.frames) < 2 * floods.KEPT * b.now()
    assert not any(it.verdict == FAIL for it in results)
    told = [it for it in results if "is flooded" in it.why]
    assert told and re.search("came at up to 6[0-9]{3} a second: [0-9]+ beyond 1000 a second were not kept, as one of subtype 1 from", told[-1].why)
    assert "The usual causes: a loop" in told[-1].why


class BesideAShortLoop(BesideALoop):
    """The loop ends after some seconds."""

    def ticked(self) -> None:
        if self.now < 12:
            super().ticked()


def test_what_looks_at_all_frames_takes_none_of_a_flood_for_the_device(bench) -> None:  # type: ignore[no-untyped-def]
    b, results = bench(BesideAShortLoop), list[Result]()
    run_all(b, [BY_NAME[it] for it in ("FM-01", "RX-04", "FM-02", "IV-03", "IV-05")], results.append)
    assert b.now() > 14 and [it.verdict for it in results[-3:]] == [PASS, INCONCLUSIVE, INCONCLUSIVE], [it.why for it in results]
    assert "is flooded" in results[-1].why and not [it.test.id for it in results if it.verdict == FAIL]


def test_a_fail_beside_the_traffic_of_others_stays_and_tells_of_it() -> None:
    class Busy(World):
        def received(self, link: int) -> int:
            return int(self.clock * 20000)

    world = Busy(KeyUnchecked())
    with beside(world, world) as b:
        fails, passes = (run_times(b, BY_NAME[it], None, 1) for it in ("RX-07c", "FM-01"))
        assert fails.verdict == FAIL and "has to be at most 0.65 s. Beside it, link 1 (link1) is flooded: 20000 frames a second came on average" in fails.why
        assert passes.verdict == PASS and not fails.stuck


def test_a_device_that_answers_all_of_a_storm_is_no_flood() -> None:
    meters = floods.Meters()
    for _ in range(2000):
        meters.sent(1.0)
    assert all(meters.takes(1.2, bytes(20)) for _ in range(5000)) and meters.takes(2.0, bytes(20))
    assert not meters.spilled()
    assert not all(meters.takes(3.0, bytes(20)) for _ in range(1001))
    assert "came at up to 1001 a second: 1 beyond 1000 a second were not kept" in meters.spilled() and not meters.spilled()


def test_data_that_a_hook_asks_for_is_no_flood_of_lacpdus() -> None:
    meters = floods.Meters()
    assert all(meters.takes(1.2, memory.flow(it % 64, 1)) for it in range(floods.DATA_KEPT)) and not meters.takes(1.3, memory.flow(0, 1))
    assert all(meters.takes(1.4, bytes(20)) for _ in range(floods.KEPT))
    assert "data of the device's client came at up to 5001 a second: 1 beyond 5000 a second were not kept, as one of type 0800" in meters.spilled()


@pytest.mark.parametrize("kind, flooded", [(DataTwice, False), (DataManyTimes, True)])
def test_data_that_comes_twice_is_a_fail_also_in_a_flood(kind: Type[Device], flooded: bool) -> None:
    one, twice, rate = play(World(kind()), [BY_NAME[it] for it in ("SL-01", "SL-17", "IV-05")])
    assert twice.verdict == FAIL and " came twice; has to be none" in twice.why and ("Beside it, link 1 (link1) is flooded" in twice.why) == flooded
    assert one.verdict == rate.verdict == (INCONCLUSIVE if flooded else PASS), (one.why, rate.why)


def test_one_number_that_is_told_wrong_costs_no_other_test() -> None:
    results = play(World(WrongEcho()), [it for it in TESTS if not it.is_long])
    assert not [it.test.id for it in results if it.verdict == INCONCLUSIVE]
    assert [it.name for it in causes.grouped(results)] == ["FM-06"] and len([it for it in results if it.verdict == FAIL]) < 10
    assert "has to be what was sent, 258/02-cf" in next(it.why for it in results if it.test.id == "FM-06")


@pytest.fixture
def stack(monkeypatch: pytest.MonkeyPatch, tmp_path: Path) -> object:
    """Runs the command beside a stack in a file, whose class has these lines in the place of the right device's; its status."""
    monkeypatch.chdir(tmp_path)

    def play(lines: str, *words: str) -> int:
        (tmp_path / "device.py").write_text("from conform_device import Device as Right\n\nclass Device(Right):\n" + indent(dedent(lines), "    "))
        return command.main(["--memory", "device.py", *words])

    return play


@pytest.mark.parametrize("kind, fails", [(CutOff, ["FM-02", "FM-03", "FM-06", "IV-03"]), (PartnerLength, ["FM-03", "FM-06", "IV-03"])])
def test_lacpdus_that_can_not_be_read_get_a_report(run, kind: Type[Device], fails: list[str], capsys: pytest.CaptureFixture[str], tmp_path: Path) -> None:  # type: ignore[no-untyped-def]
    assert run(kind, "--json", "r.json", "--junit", "r.xml") == 1
    told = json.loads((tmp_path / "r.json").read_text())
    assert [it["id"] for it in told["tests"] if it["verdict"] == "fail"] == fails
    assert "5 tests in turn came to nothing" in told["about"]["incomplete"] and "is no LACPDU" in capsys.readouterr().err
    assert len(told["tests"]) < 20 and [it for it in told["causes"] if it not in ("FM-02", "FM-03")] == [] and xml.parse(tmp_path / "r.xml").getroot().get("failures") == str(len(fails))


def test_a_pass_stands_beside_a_late_bench_and_is_told(bench, monkeypatch: pytest.MonkeyPatch) -> None:  # type: ignore[no-untyped-def]
    b, found = bench(Device), Result(BY_NAME["FM-01"], claims=[Claim(True, "it is right", ())])
    b.late = 2.48
    judge(b, found)
    assert (found.verdict, found.late) == (PASS, 2.48)
    lines = report.closing(report.Run(b, {}, {}, [found, Result(BY_NAME["FM-02"], late=0.1), Result(BY_NAME["FM-03"], FAIL, late=0.3)]))
    assert lines[:-1] == ["late: the bench was up to 2.48 s late, more than --slack 0.15, in what passed: FM-01"]
    monkeypatch.setattr(b.wire, "drops", lambda: 1)
    judge(b, lost := Result(BY_NAME["FM-01"], claims=[Claim(True, "it is right", ())]))
    assert (lost.verdict, lost.why) == (INCONCLUSIVE, "this machine is too busy for a verdict: it dropped 1 frame that came. Seen: what came between was right")


def test_a_late_bench_excuses_no_count_of_lacpdus(bench) -> None:  # type: ignore[no-untyped-def]
    b, calm, flood, told = bench(Device), Flood(), Flood("link 1 is flooded", True), "came too soon"
    for name, bears, flooded, late, latest, verdict, why in (
        ("TX-01", SURE, calm, 0.3, 0.0, FAIL, told),
        ("TX-01", SURE, calm, 1.3, 0.0, INCONCLUSIVE, "too busy"),
        ("TX-01", 0.0, calm, 0.3, 0.0, INCONCLUSIVE, "too busy"),
        ("TX-01", SURE, flood, 0.0, 0.0, INCONCLUSIVE, "link 1 is flooded"),
        ("IV-05", SURE, calm, 0.0, 1.3, INCONCLUSIVE, "the bench was 1.30 s late"),
        ("IV-05", SURE, calm, 0.0, 0.9, FAIL, told),
        ("SL-17", SURE, flood, 0.3, 0.0, FAIL, "link 1 is flooded"),
        ("SL-17", SURE, flood, 1.3, 0.0, INCONCLUSIVE, "link 1 is flooded"),
    ):
        found = Result(BY_NAME[name], claims=[Claim(False, told, (), bears, in_flood=name == "SL-17")])
        b.late, b.latest = late, latest
        judge(b, found, flooded)
        assert found.verdict == verdict and why in found.why and (why != told or found.why == told), (name, bears, late, latest, found.why)


def test_junit_and_tap_have_what_the_device_said(run, tmp_path: Path) -> None:  # type: ignore[no-untyped-def]
    assert run(KeyUnchecked, "--only", "RX-07c", "--only", "FM-01", "--junit", "r.xml", "--tap", "r.tap", "--device", "a switch") == 1
    suite = xml.parse(tmp_path / "r.xml").getroot()[0]
    assert [(it.get("classname"), it.get("name")) for it in suite.iter("testcase")] == [("FM", "FM-01")]
    assert [it.get("value") for it in suite.iter("property") if it.get("name") == "title"] == ["Destination, source and type"]
    assert suite.get("timestamp") and {it.get("name"): it.get("value") for it in suite.iter("property")}["device"] == "a switch"
    text = next(xml.parse(tmp_path / "r.xml").getroot().iter("failure")).text or ""
    assert "FAILS: with another key of the device it stops carrying: never; has to be at most 0.65 s" in text and "bench: LACPDU 3f" in text
    tap = (tmp_path / "r.tap").read_text().splitlines()
    assert tap[:6] == ["TAP version 14", "1..2", "ok 1 - FM-01 Destination, source and type", "  ---", '  clause: "6.4.2.2, 6.2.10.1"', "  ..."]
    assert tap[6].startswith("not ok 2 - RX-07c") and tap[7:9] == ["  ---", '  clause: "6.4.9 (recordPDU)"']
    assert any(it.startswith('    - "FAILS\\x3a with another key of the device') for it in tap)
    assert tap[9] == '  message: "with another key of the device it stops carrying: never; has to be at most 0.65 s"'


def test_junit_and_tap_have_the_clause_of_each_test_and_what_explains_a_fail(run, tmp_path: Path) -> None:  # type: ignore[no-untyped-def]
    (tmp_path / "known").write_text("VN-03 of the chip\n")
    words = [word for it in ("FM-01", "RX-14", "VN-02", "VN-03") for word in ("--only", it)]
    assert run(VersionChecked, *words, "--known", "known", "--junit", "r.xml", "--tap", "r.tap", "--json", "r.json") == 1
    told = json.loads((tmp_path / "r.json").read_text())
    clauses = {it["id"]: it["clause"] for it in told["tests"]}
    causes_of = {name: cause for cause, explains in told["causes"].items() for name in explains}
    assert len(clauses) == 4 and causes_of == {"VN-03": "VN-02"}
    cases = {it.get("name"): {one.get("name"): one.get("value") for one in it.iter("property")} for it in xml.parse(tmp_path / "r.xml").getroot().iter("testcase")}
    assert {name: it["clause"] for name, it in cases.items()} == clauses
    assert {name: it["causes"] for name, it in cases.items() if "causes" in it} == causes_of
    points = re.findall(r"^(?:not )?ok \d+ - (\S+) .*\n  ---\n((?:  .*\n)*?)  \.\.\.\n", (tmp_path / "r.tap").read_text(), re.M)
    assert {name: json.loads(block.splitlines()[0].removeprefix("  clause: ")) for name, block in points} == clauses
    assert {name: re.findall(r'^  causes:\n    - "(.*)"$', block, re.M) for name, block in points if "causes" in block} == {"VN-03": ["VN-02"]}
    assert not re.findall(r"^    - \S+\s*:\s.*", "".join(block for _, block in points), re.M)  # which readers take for a map


@pytest.mark.parametrize("known", [[], ["--known", "known"]], ids=["none is known", "it is known"])
def test_what_has_no_answer_is_told_alike_and_is_no_known_fail(stack, known: list[str], tmp_path: Path, capsys: pytest.CaptureFixture[str]) -> None:  # type: ignore[no-untyped-def]
    (tmp_path / "known").write_text("SL-06 of the chip\n")
    words = ["--only", "FM-01", "--only", "SL-06", *known, "--junit", "r.xml", "--tap", "r.tap"]
    for strict, status, count, tag, point in ((), 0, "skipped", "skipped", "ok 2 - SL-06"), (("--strict",), 1, "errors", "error", "not ok 2 - SL-06"):
        assert stack("def data(self, on):\n    raise NotImplementedError", *words, *strict) == status
        said, root = capsys.readouterr().out, xml.parse(tmp_path / "r.xml").getroot()
        assert "\ninconclusive   SL-06 " in said and "known" not in said and said.endswith(f"1 pass, 0 fail, 1 inconclusive{LAST}")
        assert (root.get(count), root.get("failures"), [it.get("message", "")[:14] for it in root.iter(tag)]) == ("1", "0", ["inconclusive: "])
        assert f"\n{point}" in (tmp_path / "r.tap").read_text() and "TODO" not in (tmp_path / "r.tap").read_text()


def test_a_matrix_has_each_clause(run, tmp_path: Path) -> None:  # type: ignore[no-untyped-def]
    assert run(VersionChecked, "--only", "VN-0*", "--only", "FM-05", "--matrix", "m.md", "--json", "r.json") == 1
    lines = (tmp_path / "m.md").read_text().splitlines()
    assert lines[2:4] == ["| 6.3.2 | pass (partial: 1 of 3 tests) | FM-05, SL-02 (not run), SL-05 (not run) |", "| 6.3.4 | pass (partial: 1 of 2 tests) | FM-05, SL-02 (not run) |"]
    ran = re.fullmatch(r"\| 6\.4\.12 \| fail \(partial: 9 of (\d+) tests\) \| VN-01, VN-02 \(fail\), .* \|", lines[-3])
    assert ran and lines[-3].count("(not run)") == int(ran[1]) - 9 and "RX-08 (not run)" not in lines[-3] and lines[-2:] == ["", CAVEAT]
    assert json.loads((tmp_path / "r.json").read_text())["clauses"]["6.4.2.4"] == {"verdict": "fail", "told": "fail (partial: 1 of 2 tests)", "tests": ["VN-05"], "not run": ["VN-10"]}
    (tmp_path / "known").write_text("VN-02 of the chip\n")
    assert run(VersionChecked, "--only", "VN-02", "--known", "known", "--matrix", "m.md") == 0
    assert "VN-02 (fail, known), " in (tmp_path / "m.md").read_text()
    assert matrix.clauses(BY_NAME["RX-06"]) == ("6.4.12", "6.4.9")
    own = [Result(BY_NAME["FM-01"], it) for it in (PASS, NOT_APPLICABLE, SKIPPED)]
    told = [matrix.told(PASS, own[:2], []), matrix.told(PASS, own, ["FM-02"]), matrix.told(INCONCLUSIVE, own, [])]
    assert told == ["pass", "pass (partial: 1 of 3 tests)", "inconclusive"]
    assert sorted(["802.3 57A", "6.4.12", "6.4.9", "6.4.2.3"], key=matrix.order) == ["6.4.2.3", "6.4.9", "6.4.12", "802.3 57A"]


def test_a_capture_for_each_test(run, tmp_path: Path) -> None:  # type: ignore[no-untyped-def]
    assert run(KeyUnchecked, "--only", "RX-07c", "--only", "FM-0*", "--not", "FM-06", "--captures", "each") == 1
    assert sorted(it.name for it in (tmp_path / "each").iterdir()) == [*[f"FM-0{it}.pcapng" for it in (1, 2, 3, 4, 5, 7, 8, 9)], "RX-07c.pcapng"]
    assert b"RX-07c fails" in (tmp_path / "each" / "RX-07c.pcapng").read_bytes()
    (tmp_path / "file").write_text("")
    assert run(Device, "--captures", "file") == 2


def test_a_repeated_test_has_its_worst_verdict(bench) -> None:  # type: ignore[no-untyped-def]
    b = bench(SometimesWrong)
    found = run_times(b, BY_NAME["FM-02"], None, 4)
    assert found.verdict == FAIL and found.times[FAIL] + found.times[PASS] == 4 and found.times[PASS] > 0
    assert found.why.endswith(f"(in {found.times[FAIL]} of 4 runs)") and found.first == 1 + len([it for it in b.frames if it.number < found.first])


def test_a_run_goes_on_where_another_one_ended(run, tmp_path: Path, capsys: pytest.CaptureFixture[str]) -> None:  # type: ignore[no-untyped-def]
    assert run(KeyUnchecked, "--only", "FM-0*", "--only", "RX-07c", "--json", "one.json") == 1
    capsys.readouterr()
    assert run(KeyUnchecked, "--only", "FM-0*", "--only", "RX-07*", "--resume", "one.json", "--json", "two.json", "--report", "r.html") == 1
    said = capsys.readouterr().out
    assert said.startswith("7 tests on 3 links\nfail           RX-07c ") and said.endswith(f"15 pass, 2 fail{LAST}")
    assert f"\n{'':23}6.4.9 (recordPDU), by PROFILE: " in said and said.count(f"\n{'':23}of the run in one.json\n") == 1
    told = {it["id"]: it for it in json.loads((tmp_path / "two.json").read_text())["tests"]}
    assert len(told) == 17 and told["RX-07c"]["notes"] == ["of the run in one.json"] and told["RX-07c"]["verdict"] == "fail"
    assert run(Device, "--only", "FM-0*", "--only", "RX-07*", "--resume", "one.json") == 2  # another stack in a file of that name
    assert re.search("one.json: memory was .device.py, SHA-256 .* Verdicts are taken over from the same device and build", capsys.readouterr().err)
    for text, why in ("[]", "is no JSON of a run"), ('{"format": 1}', "is no JSON of a run"), ('{"tests": []}', "has format none, and --resume reads 1"):
        (tmp_path / "bad.json").write_text(text)
        assert run(Device, "--resume", "bad.json") == 2 and why in capsys.readouterr().err
    (tmp_path / "nothing.json").write_text(report.json_of_nothing({"incomplete": "it was killed"}))
    assert run(Device, "--only", "FM-01", "--resume", "nothing.json") == 0


KILLED = """def ticked(self):
    import os
    if self.now > 20 and 'KILLED' in os.environ:
        os.kill(os.getpid(), 9)
"""


def test_a_run_goes_on_where_another_one_was_killed(stack, tmp_path: Path) -> None:  # type: ignore[no-untyped-def]
    words = ["--only", "FM-*", "--only", "RX-0*", "--only", "IV-05", "--json", "r.json"]
    assert stack(KILLED, "--only", "FM-01") == 0
    line = f"import sys\nfrom lagconform import command\ncommand.KEEPS = 0\nsys.exit(command.main({['--memory', 'device.py', *words, '--tap', 'r.tap']}))"
    paths = os.pathsep.join([str(Path(__file__).parent), str(Path(__file__).parents[1])])
    ended = subprocess.run([sys.executable, "-c", line], cwd=tmp_path, env={**os.environ, "PYTHONPATH": paths, "KILLED": "1"}, stdout=subprocess.PIPE, text=True, timeout=300, check=False)
    told, count = json.loads((tmp_path / "r.json").read_text()), sum(it.id.startswith(("FM-", "RX-0", "IV-05")) for it in TESTS)
    ran = [it["id"] for it in told["tests"]]
    assert ended.returncode == -9 and 3 <= len(ran) < count and ran == re.findall(r"^pass +(\S+)", ended.stdout, re.M)
    assert told["about"]["incomplete"] == f"{command.UNENDED}; {len(ran)} of {count} tests ran"
    assert (tmp_path / "r.tap").read_text() == f"TAP version 14\nBail out! {command.UNENDED}\n"
    assert stack(KILLED, *words, "--resume", "r.json") == 0
    told = json.loads((tmp_path / "r.json").read_text())
    over = [it["id"] for it in told["tests"] if "of the run in r.json" in it["notes"]]
    assert over == ran and "incomplete" not in told["about"] and told["counts"]["pass"] == len(told["tests"])


def test_the_page_begins_with_what_failed(run, tmp_path: Path) -> None:  # type: ignore[no-untyped-def]
    assert run(NoNtt, "--only", "TX-*", "--only", "FM-01", "--report", "r.html") == 1
    said = (tmp_path / "r.html").read_text()
    assert said.index("<h2>Fails</h2>") < said.index("<th>device</th>") < said.index('id="FM-01"')
    assert "what the device tells comes " in said and 'name="viewport"' in said and "prefers-color-scheme:dark" in said
    assert '#only-fail:checked~.tests .t:not(.fail)' in said and 'id="only-fail"' in said and "<h2>Clauses</h2>" in said


def test_the_page_says_of_each_fail_what_carries_its_rule(run, tmp_path: Path) -> None:  # type: ignore[no-untyped-def]
    failed = [Result(BY_NAME[it], FAIL, "it failed") for it in ("MK-06", "VN-07", "RX-08", "RX-11")]
    said = page.fails(failed)
    assert '<a href="#MK-06">MK-06</a> (by memory) A burst of markers: it failed' in said and "VN-07</a> (by two devices) " in said
    assert 'RX-08</a> (by PROFILE) ' in said and 'explains <a href="#RX-11">RX-11</a> (by PROFILE)</li>' in said


OF_TIMES = [it for it in TESTS if it.group in ("RX", "TX", "MX") and not it.is_long]
OF_ONE_LINK = [it for it in TESTS if it.links == 1 and not it.is_long]


@pytest.mark.parametrize("kind, tests, root, most", [(NoNtt, OF_TIMES, "late", 25), (RestartsOnChange, OF_ONE_LINK, "RX-04", 10)])
def test_what_is_late_by_one_number_and_what_does_not_stay_up_have_one_cause(kind: Type[Device], tests: Sequence[Case], root: str, most: int) -> None:
    found = causes.grouped(play(World(kind()), tests))
    assert [it.name for it in found] == [root] and len(found[0].explains) > most, [it.text for it in found]


@pytest.mark.parametrize("kind, root, others", [
    (OtherId, "MK-02", ["MK-01", "MK-05", "MK-06", "MK-10", "EN-03", "MK-11"]), (VersionChecked, "VN-02", ["VN-03"]),
    (GroupSystem, "FM-05", ["RX-10", "EN-01", "SL-03"]),
])  # fmt: skip
def test_the_cause_is_the_fault(kind: Type[Device], root: str, others: list[str]) -> None:
    found = causes.grouped(play(World(kind()), [BY_NAME[it] for it in [root, *others]]))
    assert [it.name for it in found] == [root] and [it.test.id for it in found[0].explains] == others


class EchoesLength(OtherId):
    """Answers a marker of length 15 by the same length."""

    def took(self, port: int, frame: bytes) -> None:
        if frame[15:18] == b"\1\1\x0f" and (response := self.says_back(frame, frame[:16] + b"\2" + frame[17:])):
            self.send(port, response)


(EchoesLengthRight,) = devices(
    EchoesLength, "says_back", ("EchoesLengthRight", "The rest of its responses is right.", "", lambda self, marker, response: response)
)
(LengthAlone,) = devices(
    Responds, "says_back", ("LengthAlone", "Its responses have length 15.", "", lambda self, marker, response: put(response, 3, b"\x0f"))
)


def test_an_echo_of_a_wrong_marker_is_told_and_no_cause_of_its_own() -> None:
    for kind, roots in (EchoesLengthRight, []), (EchoesLength, ["MK-02"]), (LengthAlone, ["MK-01"]), (BadLengths, ["IV-03"]):
        results = play(World(kind()), [BY_NAME[it] for it in ("MK-01", "MK-02", "MK-09", "IV-03")])
        whole = results[-1]
        assert [it.name for it in causes.grouped(results)] == roots and (whole.verdict == FAIL) == bool(roots), (kind, whole.why)
        echoes = [it for it in whole.notes if re.fullmatch("1 response to wrong markers of the bench may be as wrong: packet [0-9]+: .*octet 3 is 15", it)]
        assert len(echoes) == (kind is EchoesLengthRight), whole.notes


def test_what_a_device_tells_wrong_on_one_link_is_told_with_the_link(bench) -> None:  # type: ignore[no-untyped-def]
    b = bench(SecondPartnerKey)
    fields, engine = (run_times(b, BY_NAME[it], None, 1) for it in ("FM-06", "EN-02"))
    assert fields.why.startswith("link 2: the partner told is 258/02-cf") and "key 65279 port 165/61454" in fields.why and "key 65534 port 165/61454" in fields.why
    assert "link 1 DISTRIBUTING, link 2 PARTNER_NOT_SYNCHRONIZED" in engine.why and ", where the device tells of our port 2 key 4352, and has to tell 17" in engine.why


def test_a_list_is_written_as_json(tmp_path: Path, monkeypatch: pytest.MonkeyPatch) -> None:
    assert command.main(["--list", "--json", str(tmp_path / "l.json"), "--not", "IV-*"]) == 0
    told = json.loads((tmp_path / "l.json").read_text())
    assert {it["id"] for it in told["tests"]} == {it.id for it in TESTS if it.group != "IV"} and told["tests"][0]["clause"] == "6.4.2.2, 6.2.10.1"
    assert told["format"] == report.FORMAT and told["about"] == edition()


@pytest.mark.parametrize("words, why", [(["--memory", "x.py", "eth0"], "--memory wants no interface"), (["--memory", "none.py"], "No such file"), (["--memory", "none.so"], "none.so")])
def test_a_stack_that_is_none_is_refused(words: list[str], why: str, capsys: pytest.CaptureFixture[str], tmp_path: Path, monkeypatch: pytest.MonkeyPatch) -> None:
    monkeypatch.chdir(tmp_path)
    assert command.main(words) == 2 and why in capsys.readouterr().err
    (tmp_path / "empty.py").write_text("Device = 7\n")
    assert command.main(["--memory", "empty.py"]) == 2 and "no class Device below lagconform.memory.Stack" in capsys.readouterr().err


def test_the_names_of_a_stack_are_its_makers(stack, capsys: pytest.CaptureFixture[str]) -> None:  # type: ignore[no-untyped-def]
    """All but those that the page has: a method of another name has no part in the run, and `__init__` need not call that of the base."""
    own = ("_child", "again", "clock", "do", "due", "emit", "is_inside", "leave", "pass_time", "starts", "wait", "world")
    lines = "".join(f"def {it}(self):\n    raise ValueError\n" for it in own)
    init = "def __init__(self):\n    from collections import defaultdict, deque\n    self.system, self.sends_data, self.count = None, False, 0\n    self.responses = defaultdict(deque)\n"
    assert stack(lines + init, "--only", "FM-01", "--only", "RX-13", "--only", "RX-15") == 0
    assert f"\n3 pass, 0 fail{LAST}" in capsys.readouterr().out
    names = {it for it in (*vars(memory.Stack), *memory.Stack.__annotations__) if not it.startswith("__")}
    assert names == {"_lagconform", "data", "link", "links", "now", "send", "start", "stop", "take", "tick", "tick_seconds"}
    told = PAGE.read_text().partition("write a class `Device`")[2].partition("\n## ")[0] if PAGE.exists() else ""
    assert not told or not [it for it in names if not re.search(rf"`(self\.)?{it}[`(]", told)]


def test_a_stack_that_can_not_be_made_is_no_fault_of_the_bench(stack, capsys: pytest.CaptureFixture[str]) -> None:  # type: ignore[no-untyped-def]
    assert stack("def __init__(self):\n    self.ports = list(self.links)\n") == 2
    assert capsys.readouterr().err == "lagconform: device.py breaks where its Device is made, by AttributeError: 'Device' object has no attribute '_lagconform'\n"


@pytest.mark.parametrize("kind", ["ValueError", "SystemExit"])
def test_a_stack_that_raises_fails_the_test_and_begins_again(stack, kind: str, tmp_path: Path, capsys: pytest.CaptureFixture[str]) -> None:  # type: ignore[no-untyped-def]
    lines = f"def ticked(self):\n    if {{}}:\n        raise {kind}('no partner')\n"
    assert stack(lines.format("self.now > 0") + "def take(self, port, frame):\n    pass\n", "--only", "FM-*", "--json", "r.json") == 2
    said = capsys.readouterr().err
    assert f"the stack broke by {kind} in tick: no partner" in said and "in ticked" in said
    assert stack(lines.format("8 < self.now < 8.2"), "--only", "FM-*", "--json", "r.json", "--shadow", "--captures", "each") == 1
    told = json.loads((tmp_path / "r.json").read_text())
    (failed,) = [it for it in told["tests"] if it["verdict"] == "fail"]
    assert told["counts"]["pass"] == 8 and failed["why"] == f"the stack broke by {kind} in tick: no partner; has to go on"
    assert "in ticked" in failed["notes"][-1] and told["about"]["the stack broke"] == f"and was started again 1 time, in {failed['id']}"


def test_a_stack_that_breaks_too_often_ends_its_run(stack, tmp_path: Path, monkeypatch: pytest.MonkeyPatch, capsys: pytest.CaptureFixture[str]) -> None:  # type: ignore[no-untyped-def]
    monkeypatch.setattr(memory, "MOST_STARTS", 2)
    words = [*(f"--only={it}" for it in ("FM-01", "VN-11", "VN-12", "VN-14", "MK-*")), "--junit", "r.xml", "--repeat", "2"]
    assert stack("def hears(self, port, frame):\n    assert frame[17] == 20\n    return super().hears(port, frame)\n", *words) == 1
    said = capsys.readouterr()
    assert said.err.endswith("lagconform: the device ended the run, which is a fail of the device\n")
    assert "the stack broke 3 times, and is not started again; the last time in" in said.err and "the reports have what was run" in said.err
    suites = xml.parse(tmp_path / "r.xml").getroot()
    assert [it.get("type") for it in suites.iter("error")] == ["the run ended early"] and suites.get("failures") == "2"


# Says nothing more from its second 20 on.
ENDS = "def says(self, port, frame):\n    yield from [frame] if self.now < 20 else []\n"


def test_a_device_that_stops_for_good_fails_its_run(stack, tmp_path: Path, capsys: pytest.CaptureFixture[str]) -> None:  # type: ignore[no-untyped-def]
    assert stack(ENDS, "--only", "FM-*", "--only", "RX-0[1-9]*", "--json", "r.json", "--tap", "r.tap") == 1
    said, told = capsys.readouterr(), json.loads((tmp_path / "r.json").read_text())
    assert said.err.endswith("lagconform: the device ended the run, which is a fail of the device\n")
    assert "5 tests in turn came to nothing" in told["about"]["incomplete"], told["about"]
    assert told["counts"]["fail"] == 0 and told["counts"]["pass"] > 0, told["counts"]
    assert stack(ENDS, "--only", "FM-*", "--json", "r.json") == 2
    last = "the last 2 tests, FM-08 to FM-09, came to nothing: no LACPDU of the device came in 35 s beside a right partner"
    assert f"lagconform: {last}; the reports have what was run\n" in capsys.readouterr().err and last in json.loads((tmp_path / "r.json").read_text())["about"]["incomplete"]


def test_a_run_that_goes_on_has_the_status_of_one_that_ends(run, stack, tmp_path: Path, capsys: pytest.CaptureFixture[str]) -> None:  # type: ignore[no-untyped-def]
    words = ["--only", "FM-*", "--only", "RX-0[1-9]*", "--keep-going", "--json", "r.json"]
    for status, play, device, last in (1, stack, ENDS, "the device stopped in the run, which is a fail of the device\n"), (2, run, Uncarrying, "; the reports have what was run\n"):
        assert play(device, *words) == status
        said, told = capsys.readouterr().err, json.loads((tmp_path / "r.json").read_text())
        assert "5 tests in turn came to nothing, " in said and "the run went on (--keep-going)" in said and said.endswith(last), said
        count = sum(it.id.startswith(("FM-", "RX-0")) for it in TESTS)
        assert len(told["tests"]) == count and told["about"]["incomplete"].endswith(f"{count} of {count} tests ran")


LOSES_HIGH_OCTETS = "def hears(self, port, frame):\n    yield frame[:26] + b'\\0' + frame[27:] if frame[12:15] == b'\\x88\\x09\\1' else frame\n"
DIES = "def says(self, port, frame):\n    yield from [frame] if self.now < 4 else []\n"
NO_DATA = "def data(self, on):\n    raise NotImplementedError\n"


@pytest.mark.parametrize("lines, tests, status, why", [
    (LOSES_HIGH_OCTETS, "SL-13", 1, "has to be one link alone"), (LOSES_HIGH_OCTETS + NO_DATA, "SL-13", 2, "both links carry (link 2 names 32768/"),
    ("def says(self, port, frame):\n    yield frame[:20] + b'\\3' + frame[21:]\n", "FM-07", 2, "its system has to have an individual address (FM-05): 32768/03-"),
    ("def says(self, port, frame):\n    yield frame[:32] + bytes([frame[32] & ~4]) + frame[33:]\n", "FM-07", 2, "synchronized: the device says that its links are individual: it aggregates none"),
    (DIES, "FM-01 MX-08", 2, "no LACPDU of the device came in 5.7 s\n"),
    (DIES, "FM-01 EN-01", 1, "link 1 DISTRIBUTING, and no LACPDU of the device came there"),
    (DIES, "FM-01 SL-06", 2, "no LACPDU of the device came in 8.0 s\n"),
])  # fmt: skip
def test_a_verdict_tells_what_the_device_says_and_does(stack, lines: str, tests: str, status: int, why: str, capsys: pytest.CaptureFixture[str]) -> None:  # type: ignore[no-untyped-def]
    assert stack(lines, *(f"--only={it}" for it in tests.split())) == status and why in capsys.readouterr().out


@pytest.mark.parametrize("kind, words, fails", [(LateSilence, ["--not", "MX-06"], 0), (LateSilence, [], 1), (LateKey, [], 0)])
def test_a_second_link_that_carried_and_stops_fails_its_run(run, kind: Type[Device], words: Sequence[str], fails: int, tmp_path: Path, capsys: pytest.CaptureFixture[str]) -> None:  # type: ignore[no-untyped-def]
    assert run(kind, "--json", "r.json", *words) == 1
    assert capsys.readouterr().err.endswith("lagconform: the device ended the run, which is a fail of the device\n")
    assert json.loads((tmp_path / "r.json").read_text())["counts"]["fail"] == fails


class Unplugged(World):
    """Its link has no carrier in the end."""

    def without_carrier(self) -> Sequence[str]:
        return ["link1"]


class NoStart(World):
    """Its hook ends the device, and does not start it."""

    def call(self, words: Sequence[str]) -> memory.Done:
        return memory.Done(Answer(1, "no")) if words[0] == "start" else super().call(words)


@pytest.mark.parametrize("kind, world, ends, why", [
    (Mute, World, StoppedForGood, "no LACPDU of the device came in 35 s"), (Mute, Full, CameToNothing, ""),
    (Mute, Unplugged, CameToNothing, "There is no carrier on link1$"), (Uncarrying, World, CameToNothing, "does not carry"),
    (Device, NoStart, CameToNothing, "no LACPDU of the device was heard on link 1 since it was taken down, or the device ended"),
])  # fmt: skip
def test_only_a_device_that_carried_is_to_blame_for_tests_that_come_to_nothing(kind: Type[Device], world: Type[World], ends: Type[Exception], why: str) -> None:
    wire = world(kind())
    with beside(wire, wire) as b:
        with pytest.raises(ends, match=why):
            run_all(b, [BY_NAME[it] for it in ("FM-01", "RX-15", "RX-02", "RX-03", "RX-05", "RX-06", "RX-16", "RX-17", "RX-18", "RX-14")], lambda _: None)


@pytest.mark.skipif(not EXAMPLES.exists(), reason="no examples")
def test_the_example_in_python_passes_all(capsys: pytest.CaptureFixture[str]) -> None:
    assert command.main(["--memory", str(EXAMPLES / "device.py"), "--strict"]) == 0
    said = capsys.readouterr().out
    assert said.startswith(f"{len(TESTS)} tests on 3 links\n") and said.endswith(f"{len(TESTS) - 1} pass, 0 fail, 1 not applicable{LAST}")
    assert command.main(["--memory", str(EXAMPLES / "device.py"), "--links", "1", "--only", "FM-01", "--repeat", "2"]) == 0
    assert capsys.readouterr().out.startswith("1 test on 1 link, each 2 times\n")


@pytest.mark.skipif(not PAGE.exists(), reason="no page")
def test_the_first_fail_is_as_the_page_has_it(tmp_path: Path, monkeypatch: pytest.MonkeyPatch, capsys: pytest.CaptureFixture[str]) -> None:
    told = re.split(r"^##+ ", PAGE.read_text().partition("## What does a fail look like?\n")[2], flags=re.M)[0]
    commands, printed = re.findall(r"(?:^    .*\n)+", told, re.M)
    edit, run = commands.strip().split("\n")
    begin, end = edit.split("'")[1].split("/")[1:3]
    monkeypatch.chdir(tmp_path)
    (tmp_path / "out").mkdir()
    text = (EXAMPLES / "device.py").read_text()
    assert begin in text and edit.split("'")[2].split() == ["examples/conform/device.py", ">", "out/many.py"]
    (tmp_path / "out" / "many.py").write_text(text.replace(begin, end))
    assert command.main(run.split()[1:]) == 1
    lines = iter(capsys.readouterr().out.splitlines())
    assert not [it for it in printed.splitlines() if it.strip() != ".." and it.removeprefix("    ") not in lines]  # in their order
    numbers = list(map(int, re.findall(r"packets (\d+), (\d+)", printed)[0]))
    blocks = (tmp_path / "out" / "many.pcapng").read_bytes().split(b"MK-06 fails: 40 Marker PDUs")
    assert len(blocks) == 1 + len(numbers) and (tmp_path / "out" / "many.html").read_text().count('class="a bad"') >= len(numbers)


def linked_to(example: str) -> list[str]:
    """What an example in C is compiled with: the loop of a switch has the library as one file, and memory from one buffer."""
    return ["-DNIW_POOL", str(EXAMPLES.parents[1] / "c" / "lag.c")] if example == "device_pool.c" else [os.environ["NIWHOPERA_LIBRARY"]]


@needs_library
@pytest.mark.parametrize("example, words", [("device.c", []), ("device_pool.c", []), ("device_pool.c", ["-DWITH_ROWS"])])
def test_the_example_in_c_passes_all(
    example: str, words: list[str], tmp_path: Path, capsys: pytest.CaptureFixture[str], monkeypatch: pytest.MonkeyPatch
) -> None:
    made = str(tmp_path / "device.so")
    line = ["cc", "-Wall", "-Wextra", "-Wconversion", "-Werror", "-shared", "-fPIC", f"-I{HEADER}", "-o", made, str(EXAMPLES / example), *words]
    subprocess.run([*line, *linked_to(example)], check=True)
    assert command.main(["--memory", made, "--strict"]) == 0
    assert f"\n{len(TESTS) - 1} pass, 0 fail, 1 not applicable{LAST}" in capsys.readouterr().out
    monkeypatch.chdir(tmp_path)
    assert command.main(["--memory", "device.so", "--only", "FM-01"]) == 0


def test_a_fail_that_the_profile_does_not_carry_has_a_mark(run, tmp_path: Path, capsys: pytest.CaptureFixture[str]) -> None:  # type: ignore[no-untyped-def]
    assert run(VersionChecked, "--only", "VN-02", "--junit", "r.xml", "--tap", "r.tap") == 1
    said = capsys.readouterr().out
    assert said.endswith(f"0 pass, 1 fail (1 not by PROFILE){LAST}") and "by two devices: " in said
    assert [it.get("type") for it in xml.parse(tmp_path / "r.xml").getroot().iter("failure")] == ["fail by two devices"]
    assert "  basis: two devices\n" in (tmp_path / "r.tap").read_text()


def test_what_a_stack_can_not_do_is_told_as_such(stack, capsys: pytest.CaptureFixture[str]) -> None:  # type: ignore[no-untyped-def]
    lacks = "def link(self, port, up):\n    raise NotImplementedError\n"
    assert stack(lacks, "--only", "RX-13", "--only", "FM-01") == 0
    assert "the stack does not do: down 1: it has no function `link`\n" in capsys.readouterr().out
    assert stack(f"{lacks}def may_send(self):\n    return False\n", "--json", "r.json") == 3
    said = capsys.readouterr().err
    assert "no LACPDU came in 35 s on link1, link2, link3. The usual causes: the stack does not call send" in said and "cable" not in said


def test_what_is_looked_past_is_that_one_parameter(bench) -> None:  # type: ignore[no-untyped-def]
    b = bench(WrongEcho)
    found = run_times(b, BY_NAME["FM-07"], None, 1)
    assert found.verdict == PASS and b.mistold == {"port_priority"}, found.why
    assert found.notes == ["the device tells our port_priority wrong (FM-06): tests go by the other parameters from here on"]
    partner, pdu = b.partner(), b.device()
    assert partner.is_named_by(pdu) and not partner.is_named_by(replace(pdu, partner=replace(pdu.partner, key=7)))


HANGS = """def {name}(self, *words):
    while {when}:
        try:
            pass
        except Exception:
            pass
    super().{name}(*words)
"""


@pytest.mark.parametrize("name, when, why", [("tick", "self.now > 40", "in tick"), ("take", "self.now > 40", "in take"), ("start", "True", "in start")])
def test_a_stack_in_python_that_goes_on_to_hang_ends_its_run(stack, name: str, when: str, why: str, tmp_path: Path, capsys: pytest.CaptureFixture[str], monkeypatch: pytest.MonkeyPatch) -> None:  # type: ignore[no-untyped-def]
    monkeypatch.setattr(child, "CALL_SECONDS", 0.5)
    monkeypatch.setattr(memory, "MOST_STARTS", 1)
    assert stack(HANGS.format(name=name, when=when), "--only", "FM-*", "--only", "RX-*", "--junit", "r.xml", "--tap", "r.tap") == (2 if name == "start" else 1)
    said = capsys.readouterr()
    assert f"the stack hangs {why}: no return in 0.5 s" in said.err
    assert name == "start" or f"the stack hangs {why}: no return in 0.5 s; has to go on" in said.out
    assert [it.get("type") for it in xml.parse(tmp_path / "r.xml").getroot().iter("error")] == ["the run ended early"]
    last = (tmp_path / "r.tap").read_text().splitlines()[-1]
    assert last.startswith(f"Bail out! the stack hangs {why}" if name == "start" else "Bail out! the stack broke 2 times, and is not started again")


def test_a_stack_that_breaks_where_it_is_loaded_is_refused(tmp_path: Path, capsys: pytest.CaptureFixture[str]) -> None:
    path = tmp_path / "device.py"
    for text, why in ("import nothing_of_this_name\n", "ModuleNotFoundError: No module named"), ("class Device(\n", "SyntaxError: "), ("raise SystemExit(0)\n", "SystemExit: 0"):
        path.write_text(text)
        assert command.main(["--memory", str(path)]) == 2
        assert f"{path} breaks where it is loaded, by {why}" in capsys.readouterr().err


@needs_library
@pytest.mark.parametrize(
    "fault, why",
    [
        ("*(volatile int *)0 = 1", "crashed by SIGSEGV in device_tick"),
        ("for (;;)", "hangs in device_tick: no return in 0.5 s"),
        ("_exit(3)", "ended its process with status 3 in device_tick"),
    ],
)
def test_a_library_that_breaks_fails_the_test_and_begins_again(fault: str, why: str, tmp_path: Path, capfd: pytest.CaptureFixture[str], monkeypatch: pytest.MonkeyPatch) -> None:
    monkeypatch.setattr(child, "CALL_SECONDS", 0.5)
    made = broken(tmp_path, "    ticks++;\n", f"    if (ticks++ == 150)\n        {fault};\n")
    assert command.main(["--memory", made, "--only", "FM-*", "--json", str(tmp_path / "r.json"), "--tap", str(tmp_path / "r.tap")]) == 1
    assert f"the stack {why}; has to go on" in capfd.readouterr().out
    told = json.loads((tmp_path / "r.json").read_text())
    (failed,) = [it for it in told["tests"] if it["verdict"] == "fail"]
    assert told["counts"]["pass"] == 8 and told["about"]["the stack broke"].endswith(failed["id"]) and "incomplete" not in told["about"]
    assert "Bail out!" not in (tmp_path / "r.tap").read_text()


def shared(folder: Path, text: str, *words: str) -> str:
    """A shared library of a text in C."""
    (folder / "broken.c").write_text(text)
    made = str(folder / "broken.so")
    subprocess.run(["cc", "-shared", "-fPIC", f"-I{HEADER}", f"-I{EXAMPLES}", "-o", made, str(folder / "broken.c"), *words], check=True)
    return made


def broken(folder: Path, line: str, other: str) -> str:
    """The example in C with another line, as a shared library."""
    text = (EXAMPLES / "device.c").read_text()
    assert line in text
    return shared(folder, f"#include <stdio.h>\n#include <unistd.h>\n{text.replace(line, other)}", os.environ["NIWHOPERA_LIBRARY"])


@needs_library
def test_what_a_library_prints_stands_before_the_line_of_its_test(tmp_path: Path) -> None:
    begin = "    uint8_t response[NIW_FRAME];\n"
    made = broken(tmp_path, begin, f'{begin}    static int count;\n    if (count++ == 0)\n        puts("it takes a frame");\n')
    given = {it: text for it, text in os.environ.items() if it != "PYTHONUNBUFFERED"}
    line = [sys.executable, "-m", "lagconform", "--memory", made, "--only", "FM-01"]
    ended = subprocess.run(line, env={**given, "PYTHONPATH": str(Path(__file__).parents[1])}, capture_output=True, text=True, timeout=60, check=False)
    assert ended.returncode == 0 and ended.stdout.startswith("it takes a frame\n1 test on 3 links\npass "), ended


@needs_library
def test_a_library_that_crashes_on_a_runt_fails_the_tests_that_send_one(tmp_path: Path, capfd: pytest.CaptureFixture[str], monkeypatch: pytest.MonkeyPatch) -> None:
    monkeypatch.chdir(tmp_path)
    begin = "    uint8_t response[NIW_FRAME];\n"
    made = broken(tmp_path, begin, f"{begin}    if (size < 50)\n        *(volatile int *)0 = 1;\n")
    words = ["--memory", made, "--only", "VN-*", "--only", "RB-*", "--only", "IV-*", "--only", "EN-*", "--junit", "r.xml"]
    assert command.main(words) == 1
    found = {it.get("name", ""): it for it in xml.parse(tmp_path / "r.xml").getroot().iter("testcase")}
    fails = [name for name, it in found.items() if it.find("failure") is not None]
    assert "cause: VN-22 the stack crashed by SIGSEGV in device_take, behind a frame that is no PDU: explains RB-01, RB-04\n" in capfd.readouterr().out
    assert fails == ["VN-22", "RB-01", "RB-04"] and not [*xml.parse(tmp_path / "r.xml").getroot().iter("error")]
    assert all("crashed by SIGSEGV in device_take; has to go on" in str(it.get("message")) for it in xml.parse(tmp_path / "r.xml").getroot().iter("failure"))
    (tmp_path / "known").write_text("".join(f"{it} crashes\n" for it in fails))
    assert command.main([*words, "--known", "known"]) == 0


@pytest.mark.skipif(not HEADER.exists() or not shutil.which("cc"), reason="no C compiler")
@pytest.mark.parametrize("fault, seconds, why", [("__builtin_trap()", 60, "crashed by SIG"), ("for (;;)", 0.5, "hangs in device_start")])
def test_a_library_that_breaks_at_its_start_is_refused(
    fault: str, seconds: float, why: str, tmp_path: Path, capfd: pytest.CaptureFixture[str], monkeypatch: pytest.MonkeyPatch
) -> None:
    monkeypatch.setattr(child, "CALL_SECONDS", seconds)
    for text, told in (
        (f"void device_start(void) {{ {fault}; }}\nvoid device_take(void) {{ }}\nvoid device_tick(void) {{ }}\n", [f"the stack {why}"]),
        (f"__attribute__((constructor)) static void begin(void) {{ {fault}; }}\n", [f"the stack {why.partition(' in ')[0]}", " as it was loaded"]),
        ("void device_start(void) { }\n", ["has no device_take"]),
    ):
        assert command.main(["--memory", shared(tmp_path, text)]) == 2
        said = capfd.readouterr().err
        assert all(it in said for it in told), said
