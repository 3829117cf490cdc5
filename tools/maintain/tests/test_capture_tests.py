"""tools/maintain/capture-tests: a record that says something else than the lines is found. What tshark says, the tool itself compares."""

from __future__ import annotations

import json
import subprocess

import pytest

import loading

tests = loading.program("capture-tests")

# The lines of a capture as docs/COMMAND.md has them, and its records.
LINES = """P1 = 4096/02-00-00-00-00-01 key 7 port 128/2
P2 = 0/00-00-00-00-00-00 key 0 port 0/0
1 0.000000 02-00-00-00-00-01 lacpdu actor P1 state 3d active,aggregatable partner P2 partner-state 00 none max-delay 50
2 -0.000001 interface 3 02-00-00-00-00-01 to ff-ff-ff-ff-ff-ff tags 1 marker-response port 2 system 02-00-00-00-00-01 id 9
end 02-00-00-00-00-01 port 2 lacpdus 1
packets 2 slow 2 ends 1 findings 0
"""
FIELDS = [
    ("1", "0.000000", "02-00-00-00-00-01", "4096", "02-00-00-00-00-01", "7", "128", "2", "3d", "0", "00-00-00-00-00-00", "0", "0", "0", "00", "50"),
    ("2", "-0.000001", "02-00-00-00-00-01", "2", "02-00-00-00-00-01", "9"),
]
ACTOR = {"system": "4096/02-00-00-00-00-01", "key": 7, "port": "128/2", "state": 61}
PARTNER = {"system": "0/00-00-00-00-00-00", "key": 0, "port": "0/0", "state": 0}
OWN = {"system": "4096/02-00-00-00-00-01", "key": 7, "port": "128/2"}
NAMES = {"system": "0/00-00-00-00-00-00", "key": 0, "port": "0/0"}
SOURCE = "02-00-00-00-00-01"
RECORDS: list[dict[str, object]] = [
    {"record": "frame", "packet": 1, "seconds": 0.0, "interface": 0, "source": SOURCE, "kind": "lacpdu", "actor": ACTOR, "partner": PARTNER,
     "max_delay": 50},
    {"record": "frame", "packet": 2, "seconds": -0.000001, "source": SOURCE, "kind": "marker-response", "port": 2, "system": SOURCE, "id": 9},
    {"record": "end", "interface": 0, "source": SOURCE, "port": 2, "identity": OWN, "names": NAMES, "named_by": None, "median": None},
    {"record": "counts", "packets": 2, "slow": 2, "ends": 1, "findings": 0},
]


def answers(monkeypatch: pytest.MonkeyPatch, lines: str, records: list[dict[str, object]]) -> None:
    """A program in the place of lagtool that says this."""

    def explained(_: bytes, *words: str) -> subprocess.CompletedProcess[bytes]:
        said = "\n".join(map(json.dumps, records)) if "--json" in words else lines
        return subprocess.CompletedProcess(words, 0, said.encode(), b"")

    monkeypatch.setattr(tests, "explained", explained)


def test_the_lines_and_the_records_of_a_capture_are_the_same_fields(monkeypatch: pytest.MonkeyPatch) -> None:
    answers(monkeypatch, LINES, RECORDS)
    assert tests.fields_told(b"") == FIELDS
    tests.records_agree(b"")


@pytest.mark.parametrize(
    ("place", "changed"), [(0, {"max_delay": 51}), (0, {"actor": {**ACTOR, "state": 60}}), (1, {"id": 8}), (2, {"median": 1.0}),
     (2, {"identity": {**OWN, "port": "128/3"}}), (2, {"names": {**NAMES, "key": 1}}), (2, {"named_by": {"interface": 0, "source": SOURCE,
     "port": 2}}), (3, {"ends": 2}), (3, {"findings": 1})]
)
def test_a_record_that_says_something_else_is_found(monkeypatch: pytest.MonkeyPatch, place: int, changed: dict[str, object]) -> None:
    answers(monkeypatch, LINES, [{**it, **changed} if number == place else it for number, it in enumerate(RECORDS)])
    with pytest.raises(AssertionError):
        tests.records_agree(b"")
