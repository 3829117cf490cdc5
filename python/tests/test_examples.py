"""The examples in Python do what they say."""

from __future__ import annotations

import os
import re
import subprocess
import sys

TOP = os.path.join(os.path.dirname(os.path.abspath(__file__)), "..", "..")
# Two ports that come up, and a marker; the last LACPDU of system 2 was lost.
REPORT = """\
1 sense 1 1 -> up
2 tick 1 10 -> ticked
3 emit 1 1 -> lacpdu c7 sent
4 tick 1 20 -> ticked
5 emit 1 1 -> lacpdu 3f sent
6 emit 1 1 -> marker 7 sent
7 tick 2 5 -> ticked
8 emit 2 1 -> lacpdu 0f lost
cable 1 agreement not-both
"""


def plotted(report: str) -> str:
    words = [sys.executable, os.path.join(TOP, "examples", "python", "plot_replay.py")]
    return subprocess.run(words, input=report, capture_output=True, text=True, check=True).stdout


def test_a_plot_has_a_bar_for_each_lacpdu() -> None:
    told = plotted(REPORT)
    bars = re.findall(r'x="([\d.]+)" y="(\d+)" width="([\d.]+)" height="18" fill="(#\w+)"><title>(.*?)<', told)
    assert bars == [
        ("410.0", "14", "600.0", "#d99090", "tick 10: state c7"),
        ("1010.0", "14", "1.0", "#7cb87c", "tick 30: state 3f"),
        ("260.0", "48", "750.0", "#e6cf75", "tick 5: state 0f"),
    ]
    assert told.count("<circle") == 1 and told.count('stroke="#a33"') == 1 and told.count('stroke="#333"') == 2
    assert re.findall(r">(system \d port \d)<", told) == ["system 1 port 1", "system 2 port 1"]


def test_each_report_of_the_examples_is_plotted() -> None:
    folder = os.path.join(TOP, "examples")
    frames = 0
    for name in sorted(it for it in os.listdir(folder) if it.endswith(".txt")):
        with open(os.path.join(folder, name), encoding="utf-8") as it:
            report = it.read()
        sent = len(re.findall(r"-> (?:lacpdu \w+|marker \d+) (?:sent|lost)$", report, re.M))
        told = plotted(report)
        assert sent == told.count('stroke="#333"') + told.count("<circle") + told.count('stroke="#a33"'), name
        frames += sent
    assert frames > 0
