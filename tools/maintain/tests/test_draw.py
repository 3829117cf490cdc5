"""tools/draw: where the arrows, crosses and words of a picture stand. Entries are 24 apart, from 70 on; the lifelines stand at 0 and 400."""

from __future__ import annotations

import json

import pytest

import loading

draw = loading.program("draw")

CROSS = 'l8 8 m0 -8 l-8 8" stroke="#c00"/>'
# Two ends of a link, and a third one that belongs to no frame of it.
ONE, TWO, OTHER = "02-00-00-00-00-01", "02-00-00-00-00-02", "02-00-00-00-00-03"


def drawn(*lines: str) -> str:
    """A picture of a report of these entries."""
    numbered = [f"{number} {line}" for number, line in enumerate(lines, 1)]
    return str(draw.Drawing(draw.read("\n".join([*numbered, "cable 1 agreement same"]))).draw())


def party(mac: str, port: int) -> dict[str, object]:
    return {"system": f"32768/{mac}", "key": 1, "port": f"255/{port}", "state": 0x3D}


def frame(packet: int, source: str, **more: object) -> dict[str, object]:
    return {"record": "frame", "packet": packet, "seconds": packet / 2, "interface": 0, "source": source, **more}


LACPDUS = [
    frame(1, ONE, kind="lacpdu", actor=party(ONE, 1), partner=party(TWO, 1)),
    frame(2, TWO, kind="lacpdu", actor=party(TWO, 1), partner=party(ONE, 1)),
]
FINDING = {"record": "finding", "rule": 13, "name": "synchronization lost", "end": {"interface": 0, "source": TWO, "port": 1}, "packet": 2}
LINK: dict[str, object] = {"record": "link", "end": {}, "partner": None, "carries": None, "state": "not seen"}
COUNTS = {"record": "counts", "packets": 9, "slow": 3, "ends": 2, "findings": 1}


def link_drawn(*records: dict[str, object], source: str | None = None) -> str:
    return str(draw.draw_link(draw.link_in("\n".join(json.dumps(it) for it in records), source)))


@pytest.mark.parametrize(
    ("octet", "words"),
    [(0x3D, "active,aggregatable,synchronized,collecting,distributing"), (0xC2, "short,defaulted,expired"), (0, "none")],
)
def test_the_bits_of_a_state_octet_have_words(octet: int, words: str) -> None:
    assert draw.words(octet) == words


def test_a_long_text_is_cut() -> None:
    assert draw.cut("a" * 24) == "a" * 24
    assert draw.cut("a" * 24 + "b") == "a" * 24 + ".."


def test_a_repeated_frame_stays_on_its_cable() -> None:
    picture = drawn("emit 1 4 -> lacpdu 3d sent", "repeat 4 2 -> took", "deliver 4 2 -> took")
    assert f'<path d="M0 70 L400 94" stroke="{draw.BLUE}" marker-end="url(#tip)" stroke-dasharray="2 3"/>' in picture
    assert f'<path d="M0 70 L400 118" stroke="{draw.BLUE}" marker-end="url(#tip)"/>' in picture


@pytest.mark.parametrize(
    ("lines", "crosses"),
    [
        (["emit 1 4 -> lacpdu 3d lost"], 1),
        (["emit 1 4 -> lacpdu 3d sent", "lose 4 2 -> lost", "lose 4 2 -> empty"], 1),
        (["emit 1 4 -> lacpdu 3d sent", "emit 1 5 -> lacpdu 3d sent", "cut 4 -> cut", "deliver 5 2 -> took"], 1),
        (["emit 1 4 -> lacpdu 3d sent", "emit 1 5 -> lacpdu 3d sent", "restart 1 -> restarted"], 2),
        (["emit 1 4 -> lacpdu 3d sent"], 1),
        (["emit 1 4 -> nothing"], 0),
    ],
)
def test_a_frame_that_does_not_come_ends_in_a_cross(lines: list[str], crosses: int) -> None:
    assert drawn(*lines).count(CROSS) == crosses


def test_a_frame_that_was_lost_at_once_is_not_on_its_cable() -> None:
    picture = drawn("emit 1 4 -> lacpdu 3d lost", "emit 1 4 -> lacpdu 05 sent", "deliver 4 2 -> took")
    assert f'<path d="M0 94 L400 118" stroke="{draw.BLUE}" marker-end="url(#tip)"/>' in picture and picture.count(CROSS) == 1


def test_a_link_has_an_arrow_for_each_frame_and_a_line_for_each_finding() -> None:
    picture = link_drawn(*LACPDUS, frame(3, ONE, kind="marker", port=1, id=9), frame(4, OTHER, kind="refused", fault="short"), LINK, FINDING, COUNTS)
    assert f'<path d="M0 70 L400 82" stroke="{draw.BLUE}" marker-end="url(#tip)"/>' in picture
    assert f'<path d="M400 94 L0 106" stroke="{draw.BLUE}" marker-end="url(#tip)"/>' in picture
    assert f'fill="{draw.RED}">finding 13: synchronization lost<' in picture
    # The finding takes 12, so the next frame is 36 below its own.
    assert f'<path d="M0 130 L400 142" stroke="{draw.BROWN}" marker-end="url(#tip)"/>' in picture
    assert "3  1.500000  marker 9<" in picture
    assert "packets 9 slow 3 ends 2 findings 1<" in picture and "frames of other ends: 1<" in picture


def test_an_end_that_is_not_heard_is_told_and_its_frames_end_in_crosses() -> None:
    picture = link_drawn(*LACPDUS, frame(3, OTHER, kind="refused", fault="short"), COUNTS, source=OTHER)
    assert picture.count(CROSS) == 1 and "marker-end" not in picture
    assert ">not heard<" in picture and "3  1.500000  refused: short<" in picture
