"""tools/maintain/healthy-rounds: of which kind a case is, what a round does, and what its bounds mean."""

from __future__ import annotations

import random
from types import SimpleNamespace
from typing import Any

import pytest

import loading

rounds = loading.program("healthy-rounds")
LAG = SimpleNamespace(State=SimpleNamespace(ACTIVITY=1), LagError=ValueError)


class Fake:
    """A system that sends one frame on each port after each tick, and takes what comes."""

    def __init__(self, count: int, active: list[bool]) -> None:
        self.count, self.active = count, active
        self.told: list[str] = []
        self.due: set[int] = set()

    def tick(self, count: int = 1) -> None:
        self.told.append("tick")
        self.due = set(range(1, self.count + 1))

    def transmit(self, port: int) -> Any:
        self.told.append(f"asked {port}")
        if port not in self.due:
            return None
        self.due.remove(port)
        return SimpleNamespace(frame=b"%d" % port)

    def receive(self, port: int, frame: bytes) -> Any:
        self.told.append(f"came {port}")
        return SimpleNamespace(response=None)

    def state(self, port: int) -> int:
        return int(self.active[port - 1])


def case(kind: str, joined: list[int], active: list[list[bool]] | None = None) -> tuple[Any, Any]:
    """A case with rounds of this kind, and its world; cable n leads from our port n to their port joined[n]."""
    made = rounds.Case(random.Random(7))
    made.count, made.joined, made.rounds, made.has_calls = len(joined), joined, kind, False
    made.between = lambda world: None
    systems = [Fake(len(joined), it) for it in active or [[True] * len(joined)] * 2]
    return made, rounds.World(LAG, systems, [rounds.Cable((number, other)) for number, other in enumerate(joined, 1)])


@pytest.mark.parametrize(
    ("ours", "theirs", "joined", "kind", "heard"),
    [
        ([True, True], [True, True], [1, 2], 0, [1, 2]),
        ([True, False], [False, True], [1, 2], 1, [1, 2]),
        ([True, False], [False, True], [2, 1], 2, [1]),
        ([False, True, True], [True, False, True], [3, 2, 1], 1, [1, 2, 3]),
    ],
)
def test_the_ends_of_its_cables_say_of_which_kind_a_case_is(
    ours: list[bool], theirs: list[bool], joined: list[int], kind: int, heard: list[int]
) -> None:
    made, world = case("healthy", joined, [ours, theirs])
    assert (made.kind(world), [it.ends[0] for it in made.heard(world)]) == (kind, heard)


@pytest.mark.parametrize("kind", rounds.ROUNDS)
def test_in_a_round_each_system_ticks_once_and_its_ports_are_asked_behind_that(kind: str) -> None:
    made, world = case(kind, [2, 1])
    for _ in range(20):
        made.round(world)
    for system in world.systems:
        assert system.told.count("tick") == 20
        behind = " ".join(it for it in system.told if not it.startswith("came")).split("tick")[1:]
        assert all("asked 1" in it and "asked 2" in it for it in behind)


@pytest.mark.parametrize(("kind", "left"), [("healthy", 0), ("hosts", 0), ("late", 2), ("several", 2)])
def test_what_is_sent_in_a_late_round_may_stay_for_one_more(kind: str, left: int) -> None:
    made, world = case(kind, [1])
    most, came = 0, 0
    for played in range(1, 31):
        made.round(world)
        flies = sum(len(line) for cable in world.cables for line in cable.towards)
        came = sum(it.startswith("came") for system in world.systems for it in system.told)
        assert came + flies == 2 * played
        most = max(most, flies)
    assert most == left


def test_control_frames_alone_are_repeated() -> None:
    _, world = case("healthy", [1])
    cable = world.cables[0]
    for frame, times in (rounds.SLOW + b"1", 2), (b"\2\0\0\0\0\1data", 1):
        cable.towards[0].clear()
        cable.towards[0].append(frame)
        world.repeat(cable, 0)
        assert list(cable.towards[0]) == [frame] * times


@pytest.mark.parametrize("kind", rounds.ROUNDS)
@pytest.mark.parametrize("place", range(3))
@pytest.mark.parametrize("late_by", [-1, 0])
def test_each_bound_is_that_of_its_rounds_and_cables(monkeypatch: pytest.MonkeyPatch, kind: str, place: int, late_by: int) -> None:
    bounds = {rounds.is_known: rounds.KNOWN[place], rounds.is_agreed: rounds.AGREED[place], rounds.is_free: rounds.FREED[place]}
    last = {it: bound + late_by for it, bound in bounds.items()}
    played: list[int] = []

    def last_rounds(made: object, world: object, most: int) -> object:
        played.append(most)
        return last.items()

    monkeypatch.setattr(rounds.Case, "world", lambda self, lag: None)
    monkeypatch.setattr(rounds.Case, "event", lambda self, world: None)
    monkeypatch.setattr(rounds.Case, "heal", lambda self, world: setattr(self, "rounds", kind))
    monkeypatch.setattr(rounds.Case, "kind", lambda self, world: place)
    monkeypatch.setattr(rounds, "last_rounds", last_rounds)
    found = rounds.tried(None, 8, 2)
    assert found[:3] == (kind, place, bounds[rounds.is_agreed] + late_by + 1)
    wrong = ["an end runs on defaults", "cables do not agree", *(["conversations are held"] if kind == "healthy" else [])]
    assert (found[3] or "").count(";") == (len(wrong) - 1 if late_by == 0 else 0)
    assert (found[3] is None) == (late_by < 0) and all(it in (found[3] or "") for it in wrong if late_by == 0)
    looked = bounds.values() if kind == "healthy" else [bounds[rounds.is_known], bounds[rounds.is_agreed]]
    assert played == [max(looked) + rounds.BEYOND]


@pytest.mark.parametrize("most", [1, 6])
def test_in_a_round_of_several_ticks_both_systems_have_as_many(most: int) -> None:
    made, world = case("several", [1])
    made.ticks = most
    counts: list[list[int]] = [[], []]
    for system, ticked in zip(world.systems, counts):
        system.tick = ticked.append
    for _ in range(200):
        made.round(world)
    assert counts[0] == counts[1] and set(counts[0]) == set(range(1, most + 1))


def test_a_moment_without_agreement_within_a_round_counts(monkeypatch: pytest.MonkeyPatch) -> None:
    made, world = case("several", [1])
    made.kept = world.cables[0]
    monkeypatch.setattr(rounds, "is_agreed", lambda world, cable: True)
    assert made.round(world)
    answers = iter([True, True, False, True, True, True, True, True])
    monkeypatch.setattr(rounds, "is_agreed", lambda world, cable: next(answers))
    assert not made.round(world)
