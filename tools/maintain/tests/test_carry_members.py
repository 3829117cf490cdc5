"""tools/maintain/carry.d/members.py: what a guest is to do, and the rows of what it tells."""

from __future__ import annotations

import os
import subprocess
import sys

import pytest

import loading

sys.path[:0] = [os.path.join(loading.MAINTAIN, it) for it in ("live.d", "peers.d", "carry.d")]
loading.module("live.d", "checking")
members = loading.module("carry.d", "members")

VALUES = dict.fromkeys(("libraries", "drivers", "folder", "cable", "daemon", "options", "all", "flows", "count", "rate", "seconds", "longer", "times"), "1")


@pytest.mark.parametrize("name", members.WAYS)
def test_the_guest_s_script_is_one_of_a_shell(name: str) -> None:
    script = members.INIT.format(**VALUES, ends=members.WAYS[name][1].replace("DAEMON", "/bin/true"))
    assert subprocess.run(["sh", "-n"], input=script, text=True, capture_output=True).stderr == ""
    assert "DAEMON" not in script and "{{" not in script


def test_rows_have_what_was_lost_and_overtaken_from_the_least_on() -> None:
    line = 'near-in {{"sent":{},"refused":{}}} {{"received":{},"twice":0,"overtaken":{},"gap_ms":{}}}'
    lines = ["6.1.176", "done: p2", line.format(100, 2, 90, 3, 70), line.format(100, 0, 100, 0, 20), "end"]
    assert members.rows_of("bonding", lines) == [["bonding", "it joins the sending end", "2", "200", "0, 8", "0, 3", "20 to 70"]]
