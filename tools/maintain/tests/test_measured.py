"""How tools/maintain/machines --table reckons what a guest prints."""

from __future__ import annotations

import json
import subprocess
from typing import Any

import pytest

import loading

machines = loading.program("machines")
measured = loading.module("machines.d", "measured")
ways = loading.module("machines.d", "ways")


class Prints:
    """A guest that prints this to each script."""

    def __init__(self, text: str) -> None:
        self.printed, self.scripts = text, list[str]()

    def text(self, script: str) -> str:
        self.scripts.append(script)
        return self.printed


BARE = ways.WAYS[ways.BARE]


def cells(**changed: Any) -> Any:
    speeds = {"1500 1": 100.0, "9000 64": 200.0}
    return measured.Cells(**{**dict(speeds=speeds, frames=1000.0, median_us=50.0, late_us=60.0, processor_us=4.0,
                                   failures=["-"] * 4, memory="-"), **changed})  # fmt: skip


def test_the_processor_of_a_frame_has_none_of_the_time_without_frames() -> None:
    # 2,000 ms with 4,000 frames, of which 1,760 idle; then 2,000 ms without, of which 1,960 idle: 200 ms for 4,000 frames.
    guest = Prints("1.5 10\n1000 500\n3000 2260\n5000 4220\n9.5 4010")
    assert measured.processor(guest, BARE) == pytest.approx(50.0)
    # The time without frames may be longer: its part counts.
    assert measured.processor(Prints("1.5 10\n1000 500\n3000 2260\n7000 6180\n9.5 4010"), BARE) == pytest.approx(50.0)
    assert '"count 4000" "delay 500000"' in guest.scripts[0] and "add_device eth1" in guest.scripts[0]
    assert subprocess.run(["bash", "-n"], input=guest.scripts[0], text=True).returncode == 0


def test_frames_that_do_not_come_have_no_time() -> None:
    with pytest.raises(measured.Failed, match="the frames come"):
        measured.processor(Prints("1.5 10\n1000 500\n3000 2260\n5000 4220\n9.5 3000"), BARE)
    with pytest.raises(measured.Failed, match="generated on eth1"):
        measured.processor(Prints("bash: /proc/net/pktgen/eth1: No such file"), BARE)


def test_frames_are_those_of_the_time_between_two_looks() -> None:
    assert measured.frames(Prints("100.25 1000 102.75 6000\n"), BARE) == pytest.approx(2000.0)


def test_the_latency_is_the_middle_and_what_99_of_100_have() -> None:
    lines = [f"64 bytes from 192.0.2.2: icmp_seq={it} ttl=64 time=0.{it:03} ms" for it in range(1, 201)]
    assert measured.latency(Prints("\n".join(lines))) == (pytest.approx(100.5), pytest.approx(199.0))
    with pytest.raises(measured.Failed, match="answered"):
        measured.latency(Prints("\n".join(lines[:190])))


def test_each_way_is_measured_in_one_guest() -> None:
    assert sorted(name for it in measured.TASKS.values() for name in it.run.keywords["names"]) == sorted(ways.WAYS)


def test_a_table_has_parts_of_a_bare_link() -> None:
    lagd = cells(speeds={"1500 1": 50.0, "9000 64": 100.0}, frames=2000.0, median_us=1140.4, failures=["3", "40", "0", "12"], memory="4.8")
    told = {"1 of 2": {"`lagd`": json.dumps(lagd)}, "2 of 2": {ways.BARE: json.dumps(cells())}, "failed": {}}
    lines = measured.tables(told).splitlines()
    assert lines[0] == "a bare link: 100, 200 Mbit/s, 1,000 frames a second"
    assert lines[3:] == ["|a bare link|1.00|1.00|1.00|50|60|4.0|-|-|-|-|-|", "|`lagd`|0.50|0.50|2.00|1,140|60|4.0|3|40|0|12|4.8|"]
    assert measured.tables({"1 of 2": {}}) == "a bare link was not measured"


def test_each_end_of_open_vswitch_has_a_folder_of_its_own() -> None:
    near, far = (ways.switch(it, ways.SWITCH_BEGINS) for it in ways.SWITCH_ENDS)
    assert "/run/near/db.sock" in near and "/run/near" not in far and "ip netns exec far ovs-vswitchd" in far and "netns" not in near
    assert "eth1 eth2" in near and "far1 far2" in far
