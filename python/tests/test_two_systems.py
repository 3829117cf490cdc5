"""What the module shows of two systems that came up. Whole runs of two systems are those of crates/tests_world."""

from __future__ import annotations

from typing import Iterator

import pytest
from niwhopera import (
    BadConfig,
    ConversationState,
    Held,
    Lacpdu,
    LagError,
    NotResumed,
    PortStatus,
    Reason,
    ReceivedKind,
    SavedPort,
    State,
    Status,
    System,
    decode,
)
from two_systems import TwoSystems, config

# A data frame of conversation 48, which is octet 5 exclusive-or octet 11.
F = "0200000000200200000000100800"
# Two systems of two ports each, joined port by port, come to distribute; their ports ask for long timeouts.
COMES_UP = """
sense 1 1 -> up; sense 1 2 -> up; sense 2 1 -> up; sense 2 2 -> up; tick 1 10 -> ticked; tick 2 10 -> ticked
emit 1 1 -> lacpdu c5 sent; emit 1 2 -> lacpdu c5 sent; deliver 1 2 -> took; deliver 2 2 -> took
emit 2 1 -> lacpdu 05 sent; emit 2 2 -> lacpdu 05 sent; deliver 1 1 -> took; deliver 2 1 -> took
tick 1 20 -> ticked; tick 2 20 -> ticked
emit 1 1 -> lacpdu 0d sent; emit 1 2 -> lacpdu 0d sent; deliver 1 2 -> took; deliver 2 2 -> took
emit 2 1 -> lacpdu 3d sent; emit 2 2 -> lacpdu 3d sent; deliver 1 1 -> took; deliver 2 1 -> took
"""


def play(world: TwoSystems, entries: str) -> None:
    """Plays the entries, and wants each reply."""
    for row in entries.replace("\n", ";").split(";"):
        if row.strip():
            entry, wanted = row.strip().split(" -> ")
            assert f"{entry} -> {world.play(entry)}" == f"{entry} -> {wanted}"


@pytest.fixture
def world() -> Iterator[TwoSystems]:
    """Two systems of two ports that came up."""
    made = TwoSystems()
    play(made, COMES_UP)
    yield made
    made.close()


def test_two_systems_come_up_in_thirty_ticks(world: TwoSystems) -> None:
    for system in world.systems.values():
        assert system.distributing(1) == (1, 2)
        assert [view.port_status for view in system.views()] == [PortStatus.DISTRIBUTING] * 2
    assert world.systems[1].group(1) == world.systems[2].group(2)
    assert str(world.systems[2].group(1)) == "32768/02-00-00-00-00-01 key 1 <> 32768/02-00-00-00-00-02 key 1"
    assert str(world.systems[1].partner(2)) == "32768/02-00-00-00-00-02 key 1 port 128/2 state 3d"


def test_what_a_moving_conversation_shows(world: TwoSystems) -> None:
    play(world, f"offer 1 1 {F} -> port 1 sent; move 1 1 48 2 -> moved")
    wanted = world.systems[1].conversation_state(1, 48)
    assert (wanted.state, wanted.port, wanted.preferred, wanted.marker) == (ConversationState.WANTED, 1, 2, None)
    play(world, "emit 1 1 -> lacpdu 3d sent; emit 1 1 -> marker 1 sent; tick 1 7 -> ticked")
    flushing = world.systems[1].conversation_state(1, 48)
    assert (flushing.state, flushing.port, flushing.preferred, flushing.marker, flushing.age) == (ConversationState.FLUSHING, 1, 2, 1, 7)
    assert world.systems[1].load(1) == 1 and world.systems[1].next_marker() == 2
    assert world.systems[1].force_port(1) == 1
    assert world.systems[1].conversation_state(1, 48).state is ConversationState.FREE


def test_a_warm_start_tells_its_peer_nothing_new(world: TwoSystems) -> None:
    play(world, "emit 1 1 -> lacpdu 3d sent; emit 1 2 -> lacpdu 3d sent; deliver 1 2 -> took; deliver 2 2 -> took")
    peer = world.systems[2]
    peer.tick(300)
    saved = [SavedPort(port, 899, sent.frame) for port, sent in peer.transmissions()]
    before = peer.views()
    with System.resume(config(1), saved) as warm:
        assert (warm.distributing(1), warm.next_marker(), warm.load(1), warm.current_while(1)) == ((1, 2), 1, 0, 1)
        for port, sent in warm.transmissions():
            assert peer.receive(port, sent.frame).kind is ReceivedKind.TOOK_LACPDU
        assert peer.views() == before and warm.due() == ()
        warm.adopt(1, 6, 2)
        warm.adopt(1, 6, 2)
        assert (warm.offer_conversation(1, 6), warm.offer_conversation(1, 8), warm.next_marker(), warm.due()) == (2, 1, 1, ())
        with pytest.raises(Held):
            warm.adopt(1, 6, 1)
        for conversation, port, why in (256, 1, Status.NOT_ASSIGNED), (7, 9, Status.NO_PORT):
            with pytest.raises(LagError) as told:
                warm.adopt(1, conversation, port)
            assert told.value.status is why


def test_a_held_port_is_in_no_aggregator(world: TwoSystems) -> None:
    one, two = world.systems[1], world.systems[2]
    assert (one.offer_conversation(1, 6), one.offer_conversation(1, 9)) == (1, 2)
    one.hold(2)
    assert (one.port_status(2), one.choice(2), one.distributing(1), one.held(2)) == (PortStatus.HELD, None, (1,), 1)
    play(world, "emit 1 2 -> lacpdu 05 sent; emit 1 2 -> marker 1 sent; deliver 2 2 -> took; deliver 2 2 -> responded sent; deliver 2 1 -> released 1")
    assert two.distributing(1) == (1,) and one.offer_conversation(1, 9) == 1
    due = one.due()
    one.hold(2)
    assert one.due() == due == (1,)
    one.hold(2, False)
    assert one.choice(2) == 1 and one.port_status(2) is not PortStatus.HELD


def test_an_aggregator_out_of_use_waits(world: TwoSystems) -> None:
    one = world.systems[1]
    one.set_in_use(1, False)
    assert one.distributing(1) == () and one.is_standby(1) and one.is_standby(2) and one.choice(1) == 1
    play(world, "emit 1 1 -> lacpdu 05 sent; emit 1 2 -> lacpdu 05 sent")
    one.tick(20)
    one.set_in_use(1)
    assert one.distributing(1) == (1, 2) and not one.is_standby(1)
    with pytest.raises(LagError) as none:
        one.set_in_use(2)
    assert none.value.status is Status.NO_AGGREGATOR


def test_settings_of_a_running_system(world: TwoSystems) -> None:
    one = world.systems[1]
    one.set_mode(1, active=False, short_timeout=True)
    one.set_max_delay(77)
    sent = {port: decode(it.frame[14:]) for port, it in one.transmissions()}
    lacpdu = sent[1]
    assert isinstance(lacpdu, Lacpdu) and lacpdu.max_delay == 77 and [*sent] == [1, 2]
    assert lacpdu.actor.state & (State.ACTIVITY | State.TIMEOUT) == State.TIMEOUT
    with pytest.raises(LagError) as told:
        one.set_max_links(1)
    assert told.value.status is Status.OVER_LIMIT and one.distributing(1) == (1, 2)
    with pytest.raises(BadConfig) as wrong:
        one.set_max_links(65)
    assert wrong.value.reason is Reason.MAX_LINKS
    one.hold(1)
    one.set_max_links(1)
    one.hold(1, False)
    assert one.is_standby(1) and one.distributing(1) == (2,)
    one.set_max_links(None)
    assert not one.is_standby(1) and one.choice(1) == 1
    for unknown in (lambda: one.hold(9), lambda: one.set_mode(9, active=True, short_timeout=True)):
        with pytest.raises(LagError) as none:
            unknown()
        assert none.value.status is Status.NO_PORT
    with pytest.raises(ValueError):
        one.set_max_links(0)


def test_a_warm_start_is_refused(world: TwoSystems) -> None:
    peer = world.systems[2]
    peer.tick(300)
    [one, two] = [SavedPort(port, 0, sent.frame) for port, sent in peer.transmissions()]
    for second, why in (SavedPort(2, 900, two.frame), Status.STALE), (SavedPort(2, 0, one.frame), Status.NOT_DISTRIBUTING):
        with pytest.raises(NotResumed) as told:
            System.resume(config(1), [one, second])
        assert (told.value.status, told.value.port) == (why, 2)
    with pytest.raises(ValueError):
        SavedPort(1, 0, one.frame[:100])
