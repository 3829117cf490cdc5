"""How tools/maintain/bench reads the lines of its harness, and the tables that it prints."""

from __future__ import annotations

import pytest

import loading

report = loading.module("bench.d", "report")

LINES = """call\ttick\t2\t1\t73.4\t1000\t0
call\ttick\t64\tall\t1234.6\t900\t2
codec\tdecode\tours\t11.7\t40960
answers\tcodec\t1024\t0
"""


def test_a_call_without_a_time_has_a_dash_and_a_wrong_answer_is_told(capsys: pytest.CaptureFixture[str]) -> None:
    table = report.Table()
    report.timed_rows(table, report.Measured(LINES), ["calls", "2 / 1", "8 / 1"], "call", [("2", "1"), ("8", "1")])
    report.timed_rows(table, report.Measured(LINES), ["calls", "64 / all"], "call", [("64", "all")])
    printed = capsys.readouterr().out
    assert "|tick|73.4|-|\n" in printed and "|tick|1,235| WRONG\n" in printed
    assert (table.rows, table.wrong) == (2, 1)


def test_a_goal_tells_whether_it_is_reached(capsys: pytest.CaptureFixture[str]) -> None:
    table = report.Table()
    times = "".join(f"codec\t{what}\t{by}\t{time}\t9\n" for what in ("decode", "encode") for by, time in (("ours", 12), ("gcc", 12), ("clang", 10)))
    report.codec_rows(table, report.Measured(times + "answers\tcodec\t9\t0\n"))
    table.print_goals()
    printed = capsys.readouterr().out
    assert "|decode beside gcc -O2|1|1|reached|\n" in printed and "|encode beside clang -O3|1|1.20|not reached|\n" in printed
