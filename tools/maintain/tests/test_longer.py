"""tools/script: what the three forms of a shorter script become."""

from __future__ import annotations

import os
import shutil
from collections.abc import Callable

import pytest

import loading
from repository import read_text

pytest.importorskip("tomllib")
playing = loading.module("script.d", "playing")
longer = loading.module("script.d", "longer")
EXAMPLES = os.path.join(os.path.dirname(loading.TOOLS), "examples")

TABLES = """[[system]]
mac = "02:00:00:00:00:a1"
[[system]]
mac = '0200.0000.00b2'
[[cable]]
ends = [4, 7]
"""
# The replies of a program in the place of lagtool, by the words that an entry begins with.
REPLIES = {"tick": "ticked", "emit 1": "lacpdu 3d sent", "emit 2": "nothing", "deliver 1 2": "took", "deliver 1 1": "empty"}


def read(events: str) -> longer.Longer:  # type: ignore[name-defined]
    return longer.Longer(f"# A title\nevents = {events}\n{TABLES}", refuses)


def refuses(_: str) -> object:
    """A program that takes no script."""
    return playing.Played(2, "", "the module answers\nlagtool: script: event 3: word\n")


def played(agrees_after: int) -> Callable[[object, list[str]], list[str]]:
    """A report in which each frame is delivered once, and the cable agrees after so many rounds."""

    def report(_: object, events: list[str]) -> list[str]:
        found, waits = [], 0
        for number, event in enumerate(events, 1):
            reply = next((it for word, it in REPLIES.items() if event.startswith(word)), "done")
            waits += event.startswith("emit 1")
            if event == "deliver 1 2":
                reply, waits = ("took" if waits else "empty"), max(waits - 1, 0)
            found.append(f"{number} {event} -> {reply}")
        return [*found, f"cable 1 agreement {'same' if events.count('tick 2 1') >= agrees_after else 'differ'}"]

    return report


ROUND = ["tick 1 1", "tick 2 1", "emit 1 4", "emit 1 4", "deliver 1 2", "deliver 1 2"]


def test_what_stands_for_itself_stays_and_addresses_get_hyphens() -> None:
    script = read('["sense 1 2", "cut 1"]').script()
    assert script.startswith('# A title\n\nevents = [\n    "sense 1 2",\n    "cut 1",\n]\n\n[[system]]\n')
    assert 'mac = "02-00-00-00-00-a1"\n' in script and "mac = '02-00-00-00-00-b2'\n" in script


def test_a_repeat_is_its_entries_so_often() -> None:
    script = read('[{times = 2, events = ["lose 1 1", {times = 3, events = ["cut 1"]}]}]').script()
    assert script.count('"lose 1 1"') == 2 and script.count('"cut 1"') == 6


@pytest.mark.parametrize(("entry", "agrees_after", "rounds"), [("round 1", 9, 1), ("until 1 same 5", 3, 3)])
def test_a_round_has_what_does_something_and_a_wait_ends(monkeypatch: pytest.MonkeyPatch, entry: str, agrees_after: int, rounds: int) -> None:
    monkeypatch.setattr(longer.Longer, "report", played(agrees_after))
    made = read("[]")
    made.add(entry, "event 1")
    assert made.events == ROUND * rounds


@pytest.mark.parametrize(
    ("entry", "why"),
    [
        ("until 1 same 2", "event 8: cable 1 does not agree within 2 rounds"),
        ("until 6 same", "event 8: there is no cable 6"),
        ({"times": 2}, "event 8: neither a text nor a table of times and events"),
        ({"times": 2, "events": [5]}, "event 8, event 1: neither a text nor a table of times and events"),
        ({"times": 2, "events": [], "more": 1}, "event 8: neither a text nor a table of times and events"),
    ],
)
def test_what_is_no_form_is_refused_with_its_place(monkeypatch: pytest.MonkeyPatch, entry: object, why: str) -> None:
    monkeypatch.setattr(longer.Longer, "report", played(agrees_after=3))
    with pytest.raises(longer.Refused) as refused:
        read("[]").add(entry, "event 8")
    assert str(refused.value) == why


@pytest.mark.parametrize(
    ("text", "why"),
    [
        ("events = 3\n" + TABLES, "events is no array"),
        ("events = []\n", "it has no table of a system"),
        ("[[system]]\n[[cable]]\nends = [1]\n", "cable 1: ends"),
        ("events = ['round 1']\n" + TABLES, "script: event 3: word"),  # the program refuses it
    ],
)
def test_what_is_no_script_is_refused(text: str, why: str) -> None:
    with pytest.raises(longer.Refused) as refused:
        longer.Longer(text, refuses).script()
    assert str(refused.value) == why


@pytest.mark.skipif(not shutil.which("node"), reason="there is no node")
def test_node_plays_one_script_after_another() -> None:
    with playing.by_module() as play:
        for name in ("a-link-dies-silently", "a-dead-link-holds-the-aggregator"):
            assert longer.Longer(read_text(os.path.join(EXAMPLES, f"{name}.short")), play).script() == read_text(os.path.join(EXAMPLES, f"{name}.toml"))
        assert play("events = 3").status == 2


def test_without_node_a_line_says_what_to_do(monkeypatch: pytest.MonkeyPatch) -> None:
    monkeypatch.setenv("PATH", "")
    with pytest.raises(playing.Missing, match="--prove"), playing.by_module():
        pass


def test_ticks_in_turn_are_one_entry_of_each_system() -> None:
    events = ["tick 1 2", "tick 2 5", "tick 1 30", "emit 1 1", "tick 2 4"]
    assert list(longer.joined(events)) == ["tick 1 32", "tick 2 5", "emit 1 1", "tick 2 4"]
