"""tools/draw: how a report of lagtool replay is read."""

from __future__ import annotations

import pytest

import loading

report = loading.module("draw.d", "report")

# Destination ..21 and source ..10 give conversation 0x31, of 4096 or of 256.
FRAME = "0200000000210200000000100800"
TEXT = f"""1 sense 3 1 -> up
2 emit 1 4 -> lacpdu c5 sent
3 emit 2 5 -> marker 77 lost
4 offer 2 6 {FRAME} -> port 9 serial 12 sent
5 offer 1 6 {FRAME} -> refused 6 none-distributing
cable 1 agreement same
cable 2 agreement not-both
flow 2/6/49 sent 13 collected 0 1 5 forced
"""


def test_an_entry_has_its_parts() -> None:
    entries = report.read(TEXT).entries
    assert [(it.number, it.word, it.reply) for it in entries[:2]] == [(1, "sense", "up"), (2, "emit", "lacpdu c5 sent")]
    assert (entries[0].cable, entries[0].system, entries[0].port) == (3, 1, None)
    assert (entries[1].system, entries[1].port, entries[1].lacpdu, entries[1].kept) == (1, 4, "c5", "sent")
    assert (entries[2].marker, entries[2].lacpdu, entries[2].kept) == ("77", None, "lost")
    assert (entries[3].agg, entries[3].port, entries[3].serial, entries[3].octets) == (6, 9, "12", bytes.fromhex(FRAME))
    assert (entries[4].kept, entries[4].port) == (None, None)


@pytest.mark.parametrize(("flow", "conversation"), [("2/6/801", 801), ("2/6/33", 33), ("1/6/801", 33)])
def test_a_conversation_is_of_4096_where_a_flow_names_it(flow: str, conversation: int) -> None:
    octets = "020000000321" + "020000000000" + "0800"
    text = f"1 offer 2 6 {octets} -> port 9 serial 0 sent\ncable 1 agreement same\nflow {flow} sent 1 collected none\n"
    read = report.read(text)
    assert read.conversation(read.entries[0]) == conversation


@pytest.mark.parametrize(
    ("text", "why"),
    [
        ("", "the input is empty, and no report"),
        ("1 tick 1 1 -> ticked\n\n", "line 2 can't stand there in a report: "),
        ("2 tick 1 1 -> ticked\n", "line 1 can't stand there in a report: 2 tick 1 1 -> ticked"),
        ("1 tick 3 1 -> ticked\n", "line 1 can't stand there in a report: 1 tick 3 1 -> ticked"),
        ("1 tick 1 1 -> refused held\n", "line 1 can't stand there in a report: 1 tick 1 1 -> refused held"),
        ("cable 2 agreement same\n", "line 1 can't stand there in a report: cable 2 agreement same"),
        ("cable 1 agreement same\n1 cut 1 -> cut\n", "line 2 can't stand there in a report: 1 cut 1 -> cut"),
    ],
)
def test_what_is_no_report_is_refused_by_its_line(text: str, why: str) -> None:
    with pytest.raises(report.Unread) as refused:
        report.read(text)
    assert str(refused.value) == why
