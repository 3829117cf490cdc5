"""Each test comes to the same alone as in a run of all, and behind `--resume`; the bench's systems; tests of one's own; and how long a test may take."""

from __future__ import annotations

import json
import re
from pathlib import Path
from xml.etree import ElementTree
from typing import Any, Optional, Sequence, Type

import pytest
from conform_device import BY_NAME, Device, World, beside, devices, put
from conform_device import play as play_in
from conform_faults import KeyUnchecked, NeverBack, SecondPartnerKey, StartsTooLate, WrongEcho
from conform_frames import FourthUnanswered, NoMarkers, Responds
from test_conform_kinds import Bridge, JoinsKeys
from test_conform_right import NoIndividual

from lagconform import causes, command
from lagconform.bench import Bench
from lagconform.edition import edition
from lagconform.groups import GROUPS, TESTS
from lagconform.model import ERROR, FAIL, INCONCLUSIVE, PASS, SKIPPED, SPARE, WHOLE_RUN, Group, Result
from lagconform.model import Test as Case
from niwhopera import Mac

PAGE = Path(__file__).parents[2] / "docs" / "CONFORM.md"


def play(kind: Type[Device], tests: Sequence[Case], **how: Any) -> list[Result]:
    """Runs tests beside a device with three links and a hook."""
    return play_in(World(kind(), 3), tests, **how)


@pytest.fixture(scope="module")
def whole() -> dict[str, str]:
    """The verdicts of a run of all tests."""
    return {it.test.id: it.verdict for it in play(Device, TESTS)}


@pytest.mark.parametrize("group", [it.name for it in GROUPS])
def test_each_test_alone_comes_to_what_it_comes_to_in_a_run(whole: dict[str, str], group: str) -> None:
    beside = [BY_NAME["FM-01"]] if group == WHOLE_RUN else []  # whose frames it looks at
    alone = {it.id: play(Device, [*beside, it])[-1] for it in TESTS if it.group == group}
    assert not [f"{name} {it.verdict}: {it.why}" for name, it in alone.items() if it.verdict != whole[name]]


@pytest.mark.parametrize("kind", [SecondPartnerKey, WrongEcho, Bridge, JoinsKeys])
def test_what_a_device_does_is_found_out_by_each_test_that_wants_it(kind: Type[Device]) -> None:
    tests = [BY_NAME[it] for it in ("FM-06", "MX-02", "SL-01", "SL-03", "SL-04", "SL-05", "SL-06", "SL-07", "SL-13", "SL-15")]
    run = {it.test.id: it.verdict for it in play(kind, tests)}
    assert {it.id: play(kind, [it])[0].verdict for it in tests} == run


(OnOneLink,) = devices(
    Device, "puts",
    ("OnOneLink", "Sends the data of an aggregator on one of its links alone.", "",
     lambda self, port, frame: [port] if port == min(it for it in self.links if self.on.choice(it) == self.on.choice(port)) else []),
)  # fmt: skip


def test_where_data_of_one_aggregator_comes_on_one_link_the_reason_is_right() -> None:
    alone = play(OnOneLink, [BY_NAME["SL-03"]])[0]
    assert alone.verdict == INCONCLUSIVE and alone.why.endswith("data came on one: but the device does so for one aggregator, too")


class IdBefore(Responds):
    """Answers each marker but the first with the identifier of the one before."""

    before = b""

    def says_back(self, marker: bytes, response: bytes) -> Optional[bytes]:
        before, self.before = self.before, marker[26:30]
        return put(response, 12, before) if before else response


def test_a_marker_without_a_right_answer_is_a_fail_where_others_have_one() -> None:
    told = play(IdBefore, [BY_NAME["MK-11"]])[0]
    assert (told.verdict, told.why) == (FAIL, "link 2: answered wrongly there, and 0 times on the other link; has to be answered there alone")
    tests = [BY_NAME[it] for it in ("MK-01", "MK-02", "MK-11")]
    assert [it.verdict for it in play(FourthUnanswered, tests)] == [PASS, FAIL, PASS]
    assert [it.verdict for it in play(NoMarkers, tests)] == [FAIL, SKIPPED, SKIPPED]


def test_a_run_that_is_resumed_comes_to_what_a_whole_one_does(run, whole: dict[str, str], tmp_path: Path) -> None:  # type: ignore[no-untyped-def]
    assert run(Device, "--not", "SL-03", "--not", "SL-0[4-7]", "--not", "SL-13", "--json", "one.json", "--system", "06:d1:00:00:00:03") == 0
    assert run(Device, "--resume", "one.json", "--json", "two.json") == 0
    told = json.loads((tmp_path / "two.json").read_text())
    assert {it["id"]: it["verdict"] for it in told["tests"]} == whole
    assert told["about"]["the bench's first system"] == "06-d1-00-00-00-03"
    again = {it["id"] for it in told["tests"] if "of the run in one.json" not in it["notes"]}
    assert again >= {it.id for it in TESTS if it.group == WHOLE_RUN} | {"SL-03"} and "SL-01" not in again


def test_a_resumed_run_keeps_the_verdicts_of_tests_that_it_was_not_asked_for(run, tmp_path: Path, capsys: pytest.CaptureFixture[str]) -> None:  # type: ignore[no-untyped-def]
    assert run(KeyUnchecked, "--only", "FM-*", "--only", "RX-07c", "--only", "IV-0[23]", "--only", "RX-14", "--json", "r.json") == 1
    capsys.readouterr()
    assert run(KeyUnchecked, "--only", "MK-*", "--resume", "r.json", "--json", "r.json", "--junit", "r.xml") == 1
    said = capsys.readouterr().out
    assert said.startswith("13 tests on 3 links\nfail           RX-07c ") and "\n24 pass, 1 fail, 1 not applicable. " in said
    told = json.loads((tmp_path / "r.json").read_text())
    kept = [f"FM-0{it}" for it in range(1, 10)] + ["RX-07c", "RX-14"], ["IV-02", "IV-03"]
    assert [it["id"] for it in told["tests"] if "of the run in r.json" in it["notes"]] == [*kept[0], *kept[1]]
    assert len(told["tests"]) == 26 and told["tests"][-1]["id"] == "IV-03" and (tmp_path / "r.xml").read_text().count("<testcase ") == 26
    assert run(KeyUnchecked, "--only", "MK-01", "--not", "RX-*", "--resume", "r.json", "--json", "s.json") == 0
    assert len(json.loads((tmp_path / "s.json").read_text())["tests"]) == 24
    told["tests"][0]["verdict"] = INCONCLUSIVE
    (tmp_path / "r.json").write_text(json.dumps(told))
    assert run(KeyUnchecked, "--only", "MK-01", "--not", "RX-07c", "--resume", "r.json", "--json", "s.json") == 0
    assert json.loads((tmp_path / "s.json").read_text())["counts"][INCONCLUSIVE] == 1
    assert run(KeyUnchecked, "--only", "FM-01", "--not", "RX-07c", "--resume", "r.json", "--json", "s.json") == 0
    assert json.loads((tmp_path / "s.json").read_text())["counts"][INCONCLUSIVE] == 0


class Stalls(Device):
    """The machine stands still for half a second in the first test."""

    stall = 0.5

    def ticked(self) -> None:
        if self.stall and self.now > 3:
            self._lagconform.clock += self.stall
            self.stall = 0


def test_what_passed_beside_a_late_bench_is_told_until_it_ran_again(run, tmp_path: Path, capsys: pytest.CaptureFixture[str], monkeypatch: pytest.MonkeyPatch) -> None:  # type: ignore[no-untyped-def]
    words, late = ["--only", "FM-01", "--only", "FM-02", "--only", "MX-01", "--only", "IV-01"], "the bench was up to 0.50 s late, more than --slack 0.15"
    reports = ["--json", "r.json", "--junit", "r.xml", "--tap", "r.tap", "--report", "r.html"]

    def told() -> tuple[dict[str, float], str]:
        whole, said = json.loads((tmp_path / "r.json").read_text()), capsys.readouterr().out
        page, case = (tmp_path / "r.html").read_text(), ElementTree.parse(tmp_path / "r.xml").getroot()[0][1]
        seconds, is_late = {it["id"]: it["late"] for it in whole["tests"]}, f"\nlate: {late}, in what passed: FM-01, IV-01" in said
        assert whole["about"]["the bench was late"] == f"{max(seconds.values()):.3f} s at most" and whole["counts"][PASS] == 4
        assert is_late == (case[0][2:] != []) == (f'  late: "{late}, which' in (tmp_path / "r.tap").read_text()) == ("Passed while the bench was late" in page)
        return seconds, said

    was = {"FM-01": 0.5, "FM-02": 0.0, "MX-01": 0.0, "IV-01": 0.5}
    assert run(Stalls, *words, *reports) == 0 and told()[0] == was
    assert run(Stalls, "--only", "FM-02", "--resume", "r.json", *reports) == 0
    seconds, said = told()
    assert seconds == was and said.startswith("0 tests on 3 links\nlate: ")
    assert run(Stalls, "--only", "FM-02", "--resume", "r.json", "--strict", *reports) == 1
    assert told()[1].startswith(f"0 tests on 3 links\nlate: {late}, in what passed: FM-01, IV-01; by --strict that is no answer\n")
    errors = list(ElementTree.parse(tmp_path / "r.xml").getroot().iter("error"))
    assert [(it.get("type"), it.get("message")) for it in errors] == [("pass by PROFILE", f"pass: {late}, which may have hidden a fault")] * 2
    assert re.findall("^not ok.*", (tmp_path / "r.tap").read_text(), re.M) == ["not ok 1 - FM-01 Destination, source and type", f"not ok 4 - IV-01 {BY_NAME['IV-01'].title}"]
    monkeypatch.setattr(Stalls, "stall", 0)
    assert run(Stalls, "--only", "FM-0[12]", "--only", "IV-01", "--resume", "r.json", "--strict", *reports) == 0
    seconds, said = told()
    assert set(seconds.values()) == {0.0} and said.startswith("2 tests on 3 links\npass           FM-01   ")


def test_a_resumed_run_looks_at_its_own_frames_too(run, tmp_path: Path) -> None:  # type: ignore[no-untyped-def]
    assert run(Device, "--only", "IV-*", "--only", "FM-01", "--json", "one.json") == 0
    told = json.loads((tmp_path / "one.json").read_text())
    told["tests"][-1]["verdict"] = FAIL
    (tmp_path / "one.json").write_text(json.dumps(told))
    assert run(Device, "--only", "IV-*", "--only", "FM-01", "--only", "MX-01", "--resume", "one.json", "--json", "two.json") == 1
    taken = [it["id"] for it in json.loads((tmp_path / "two.json").read_text())["tests"] if "of the run in one.json" in it["notes"]]
    assert taken == ["FM-01", told["tests"][-1]["id"]]


def test_what_looks_at_all_frames_tells_whose_and_wants_some() -> None:
    whole = [it for it in TESTS if it.group == WHOLE_RUN]
    alone, found = play(Device, whole), play(Device, [BY_NAME["FM-01"], BY_NAME["RX-14"], *whole])[2:]
    assert {(it.verdict, it.why) for it in alone} == {(INCONCLUSIVE, "no other test ran, and so there were no frames to look at")}
    assert {it.verdict for it in found} == {PASS} and all("it looked at the frames of 1 other test of this run" in it.notes for it in found)


def test_a_resumed_run_has_the_seed_of_the_first_and_tests_of_one_edition(run, tmp_path: Path, capsys: pytest.CaptureFixture[str]) -> None:  # type: ignore[no-untyped-def]
    words = ["--only", "RB-04", "--only", "FM-01"]
    assert run(Device, *words[:2], "--seed", "7", "--json", "one.json") == 0
    for seed in [], ["--seed", "7"]:
        assert run(Device, *words, *seed, "--resume", "one.json", "--json", "two.json") == 0
        assert json.loads((tmp_path / "two.json").read_text())["about"]["seed"] == "7"
    assert run(Device, *words, "--seed", "8", "--resume", "one.json") == 2 and "seed was 7 there, and is 8 now" in capsys.readouterr().err
    (tmp_path / "old.json").write_text((tmp_path / "one.json").read_text().replace(edition()["tests"], "lagconform 0.1"))
    assert run(Device, *words, "--resume", "old.json") == 2 and 'tests was "lagconform 0.1" there' in capsys.readouterr().err


def test_the_systems_of_a_bench_are_those_that_it_was_given(run, capsys: pytest.CaptureFixture[str]) -> None:  # type: ignore[no-untyped-def]
    base = Mac("06d100000003")
    assert [it.verdict for it in play(Device, [BY_NAME["SL-02"], BY_NAME["IV-04"]], base=base)] == [PASS, PASS]
    with beside(World(Device(), 1), base=base) as b:
        assert str(b.device().partner.system.mac) == "06-d1-00-00-01-03" and b.is_ours(b.new_mac())
    reasons = {"03:d1:00:00:00:01": "is a multicast address", "06-d1-00-01-00-01": "counts its systems in octets 3 to 5", "lag0": "an address, as 02-cf"}
    for text, why in reasons.items():
        with pytest.raises(SystemExit) as ended:
            run(Device, "--system", text)
        assert ended.value.code == 2 and why in capsys.readouterr().err


OWN = '''
from lagconform.bench import Bench
from lagconform.model import Group

group = Group("LAB", "Of our lab", basis="our lab")


@group.test("01", "6.4.16", "It carries in time", "be a partner", rule="it carries within 5 s", takes=3)
def carries(b: Bench) -> None:
    """A port carries soon."""
    b.up(limit=5)
    b.holds(b.carries(), "it carries", b.frame())
'''


# Two tests that take the link down and up, and ask what they know of it then.
FLAPS = '''
from lagconform.bench import Bench
from lagconform.model import Group

group = Group("LAB", "Of our lab", basis="our lab")


def flap(b: Bench, down: str, up: str, *link: str) -> None:
    b.up(1)
    b.hook(down, *link)
    b.wait(0.5)
    b.hook(up, *link)
    b.wait(0.5)


@group.test("01", "6.4.12", "It carries again", "take the link down", rule="it carries again", takes=10, hooks=("down", "up"))
def link(b: Bench) -> None:
    """A link that comes back carries again."""
    flap(b, "down", "up", "1")
    b.until(8, lambda: b.carries(1) and b.names_us(1))
    b.claim(b.carries(1), "it says that it carries")


@group.test("02", "6.4.12", "It carries again behind a start", "have it start", rule="it carries again", takes=10, hooks=("stop", "start"))
def start(b: Bench) -> None:
    """A device that starts anew carries again."""
    flap(b, "stop", "start")
    b.until(8, lambda: b.carries(1) and b.names_us(1))
    b.claim(b.carries(1), "it says that it carries")


@group.test("03", "6.4.12", "The link is up still", "take the link down", rule="it carries again", takes=10, hooks=("down", "up"))
def stays(b: Bench) -> None:
    """What is up still carries beside a right partner."""
    flap(b, "down", "up", "1")
    b.still_up()
    b.claim(b.carries(1), "it says that it carries")
'''


@pytest.mark.parametrize("kind, status, verdicts", [(Device, 0, [PASS] * 3), (NeverBack, 1, [FAIL, INCONCLUSIVE, INCONCLUSIVE]), (StartsTooLate, 1, [PASS, FAIL, INCONCLUSIVE])])
def test_what_a_device_told_before_its_link_went_down_is_no_answer(run, kind: Type[Device], status: int, verdicts: list[str], tmp_path: Path) -> None:  # type: ignore[no-untyped-def]
    (tmp_path / "lab.py").write_text(FLAPS)
    assert run(kind, "--tests", "lab.py", "--only", "LAB-*", "--json", "r.json") == status
    assert [it["verdict"] for it in json.loads((tmp_path / "r.json").read_text())["tests"]] == verdicts


def test_tests_of_ones_own_run_beside_those_of_the_bench(run, tmp_path: Path, capsys: pytest.CaptureFixture[str]) -> None:  # type: ignore[no-untyped-def]
    (tmp_path / "lab.py").write_text(OWN)
    assert run(Device, "--tests", str(tmp_path / "lab.py"), "--only", "LAB-*", "--only", "IV-04", "--report", "r.html", "--captures", "frames") == 0
    said = capsys.readouterr().out
    assert said.startswith("2 tests on 3 links") and "pass           LAB-01  It carries in time\n" in said
    assert (tmp_path / "frames" / "LAB-01.pcapng").exists() and "Of our lab" in (tmp_path / "r.html").read_text()
    assert run(Device, "--tests", str(tmp_path / "lab.py"), "--list") == 2 and "a name of its own" in capsys.readouterr().err


# The test of OWN fails by a claim, and then breaks.
BROKEN = OWN.replace('b.holds(b.carries(), "it carries", b.frame())', 'b.claim(False, "it failed")\n    return b.frame() + 1')


def test_a_test_that_breaks_is_an_error_that_no_known_fail_hides(run, tmp_path: Path, capsys: pytest.CaptureFixture[str]) -> None:  # type: ignore[no-untyped-def]
    (tmp_path / "lab.py").write_text(BROKEN)
    (tmp_path / "known").write_text("LAB-01 of the chip\n")
    reports = ["--json", "r.json", "--junit", "r.xml", "--tap", "r.tap", "--report", "r.html", "--matrix", "r.md"]
    words = ["--only", "LAB-01", "--only", "FM-01", "--known", "known", *reports]
    for strict, status in ((), 2), (("--strict",), 1):
        assert run(Device, *([] if strict else ["--tests", "lab.py"]), *words, *strict) == status
        said, line = capsys.readouterr(), BROKEN[: BROKEN.index("return b.frame")].count("\n") + 1
        why = f"the test broke by TypeError: unsupported operand type(s) for +: 'Frame' and 'int'; line {line} of lab.py"
        assert f"\nerror          LAB-01  It carries in time\n{'':23}{why}\n1 pass, 0 fail, 1 error. " in said.out
        assert said.err == "lagconform: LAB-01 broke by a fault of the test, which says nothing of the device: mend it\n"
        told = json.loads((tmp_path / "r.json").read_text())
        assert told["counts"]["error"] == 1 and told["tests"][1]["verdict"] == ERROR and "return b.frame() + 1" in told["tests"][1]["notes"][-1]
        assert f'errors="1" skipped="0"' in (tmp_path / "r.xml").read_text() and 'type="error by our lab" message="error: the test broke' in (tmp_path / "r.xml").read_text()
        assert "\nnot ok 2 - LAB-01 It carries in time\n" in (tmp_path / "r.tap").read_text() and "\n  severity: error\n" in (tmp_path / "r.tap").read_text()
        assert "| error | LAB-01 (error), " in (tmp_path / "r.md").read_text() and f"It carries in time: {why.partition(' type')[0]}" in (tmp_path / "r.html").read_text()
    assert run(Device, *words, "--resume", "r.json", "--repeat", "2") == 2 and "repeat was 1 there, and is 2 now" in capsys.readouterr().err
    assert run(Device, *words, "--resume", "r.json") == 2 and capsys.readouterr().out.startswith("1 test on 3 links\nerror          LAB-01")
    assert run(Device, "--only", "LAB-01", "--strict") == 2 and "no test came to pass or fail\n" in capsys.readouterr().err


def test_a_test_that_breaks_in_one_run_of_several_is_an_error(run, tmp_path: Path, capsys: pytest.CaptureFixture[str]) -> None:  # type: ignore[no-untyped-def]
    (tmp_path / "lab.py").write_text(BROKEN.replace("return b.frame() + 1", "return b.frame() + 1 if b.now() > 10 else None"))
    (tmp_path / "known").write_text("LAB-01 of the chip\n")
    assert run(Device, "--tests", "lab.py", "--only", "LAB-01", "--only", "FM-01", "--known", "known", "--repeat", "9") == 2
    assert "of lab.py (in " in capsys.readouterr().out


def test_verdicts_of_a_file_of_tests_that_changed_are_not_taken_over(run, tmp_path: Path, capsys: pytest.CaptureFixture[str]) -> None:  # type: ignore[no-untyped-def]
    (tmp_path / "lab.py").write_text(OWN)
    assert run(Device, "--tests", "lab.py", "--only", "LAB-01", "--json", "r.json") == 0
    (tmp_path / "lab.py").write_text(OWN.replace('"LAB"', '"LABS"'))
    assert run(Device, "--tests", "lab.py", "--only", "LABS-01", "--resume", "r.json") == 2 and "own tests was " in capsys.readouterr().err


def test_a_stack_and_a_file_of_tests_import_what_stands_beside_them(run, tmp_path: Path, monkeypatch: pytest.MonkeyPatch) -> None:  # type: ignore[no-untyped-def]
    monkeypatch.chdir(tmp_path)
    for folder, name in ("stack", "of_the_stack"), ("lab", "of_the_lab"):
        (tmp_path / folder).mkdir()
        (tmp_path / folder / f"{name}.py").write_text("from conform_device import Device\n")
    (tmp_path / "stack" / "device.py").write_text("from of_the_stack import Device\n")
    (tmp_path / "lab" / "lab.py").write_text(f"import of_the_lab\n{OWN}")
    assert command.main(["--memory", "stack/device.py", "--tests", "lab/lab.py", "--only", "LAB-01"]) == 0


def test_a_group_of_two_names_is_one_group(run, tmp_path: Path) -> None:  # type: ignore[no-untyped-def]
    (tmp_path / "lab.py").write_text(f"from lagconform.groups.receive import group as receive\n{OWN}\nlab = group\n")
    assert run(Device, "--tests", "lab.py", "--only", "LAB-*", "--json", "r.json") == 0
    assert [it["id"] for it in json.loads((tmp_path / "r.json").read_text())["tests"]] == ["LAB-01"] and [it.name for it in GROUPS].count("LAB") == 1


@pytest.mark.parametrize("text, why", [
    ("", "no lagconform.model.Group"), ("raise ValueError('x')", "ValueError: x"), (OWN.replace('"LAB"', '"L/B"'), "a name of its own"),
    (OWN.replace('"01"', '"a"'), "a number of its own"), (OWN.replace("takes=3", "links=9"), "wants 9 links"),
])  # fmt: skip
def test_a_wrong_file_is_refused(run, text: str, why: str, tmp_path: Path, capsys: pytest.CaptureFixture[str]) -> None:  # type: ignore[no-untyped-def]
    (tmp_path / "lab.py").write_text(text)
    assert run(Device, "--tests", "lab.py") == 2 and why in capsys.readouterr().err and "LAB" not in [it.name for it in GROUPS]


def test_a_test_ends_when_it_has_taken_as_long_as_it_may() -> None:
    group = Group("LAB", "Of our lab")

    def waits(b: Bench) -> None:
        b.wait(1000)

    group.test("01", "6.4.16", "Waits", rule="none", takes=3)(waits)
    found = play(Device, group.tests)[0]
    assert found.verdict == INCONCLUSIVE and "as long as it may" in found.why and 0 <= found.end - found.begin - 3 - SPARE < 1


def test_a_device_that_does_not_carry_beside_an_individual_partner_is_right() -> None:
    assert [it.verdict for it in play(NoIndividual, [BY_NAME["MX-08"], BY_NAME["SL-06"]])] == [PASS, PASS]


class Crashes(Device):
    """Breaks at a long frame."""

    def took(self, port: int, frame: bytes) -> None:
        if len(frame) > 200:
            raise IndexError


def test_a_crash_goes_by_no_rule(run, tmp_path: Path, capsys: pytest.CaptureFixture[str]) -> None:  # type: ignore[no-untyped-def]
    assert run(Crashes, "--only", "VN-10", "--json", "r.json", "--junit", "r.xml", "--tap", "r.tap") == 1
    said = capsys.readouterr().out
    assert ", by crash: the stack broke" in said and "0 pass, 1 fail (1 by crash). " in said
    assert json.loads((tmp_path / "r.json").read_text())["tests"][0]["basis"] == "crash"
    assert 'type="fail by crash"' in (tmp_path / "r.xml").read_text() and "\n  basis: crash\n" in (tmp_path / "r.tap").read_text()


def test_crashes_of_one_kind_have_one_cause(run, tmp_path: Path, capsys: pytest.CaptureFixture[str]) -> None:  # type: ignore[no-untyped-def]
    tests = [word for it in ("VN-10", "RB-08", "FM-01") for word in ("--only", it)]
    assert run(Crashes, *tests, "--json", "r.json") == 1
    told = json.loads((tmp_path / "r.json").read_text())
    assert told["causes"] == {"VN-10": ["RB-08"]} and {it["crashed"] for it in told["tests"]} == {"", "the stack broke by IndexError in take: , behind an LACPDU"}
    line = "cause: VN-10 the stack broke by IndexError in take: , behind an LACPDU: explains RB-08\n"
    assert line in capsys.readouterr().out
    assert run(Crashes, *tests, "--resume", "r.json") == 1 and line in capsys.readouterr().out
    found = [Result(BY_NAME[it], FAIL, crashed=f"in take, behind {frame}") for it, frame in (("VN-10", "an LACPDU"), ("RB-08", "a Marker PDU"))]
    assert [it.name for it in causes.grouped(found)] == ["VN-10", "RB-08"]


# What the page says.


def test_the_test_of_the_page_runs(run, tmp_path: Path, capsys: pytest.CaptureFixture[str]) -> None:  # type: ignore[no-untyped-def]
    if not PAGE.exists():
        return
    (tmp_path / "lab.py").write_text(PAGE.read_text().partition("```python\n")[2].partition("```")[0])
    assert run(Device, "--tests", "lab.py", "--only", "LAB-01") == 0 and "1 pass, 0 fail" in capsys.readouterr().out


