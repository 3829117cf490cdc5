"""What the module adds to the library: values, refusals as exceptions, and the life of a system."""

from __future__ import annotations

import copy
import dataclasses
import gc
import os
import threading
import warnings
from typing import Any, Callable

import niwhopera
import pytest
from niwhopera import _library
from niwhopera import (
    PORT_STATUS_TEXTS,
    Algorithm,
    BadConfig,
    Closed,
    Config,
    Held,
    Info,
    Lacpdu,
    LagError,
    Mac,
    Marker,
    MarkerKind,
    MuxState,
    PortConfig,
    PortId,
    PortStatus,
    Reason,
    ReceivedKind,
    ReceiveState,
    State,
    Status,
    System,
    SystemId,
    WireFault,
    control_frame,
)

OWN, OTHER = Mac("02:00:00:00:00:01"), Mac("02-00-00-00-00-02")
PORT = PortConfig(number=3, key=7, mac=Mac("020000000103"), priority=11)
CONFIG = Config(SystemId(32768, OWN), (PORT, dataclasses.replace(PORT, number=5)), (7, 7), max_delay=9, first_marker=77)
ALL_STATES = State.ACTIVITY | State.TIMEOUT | State.AGGREGATION
NOBODY = Info(SystemId(0, Mac(bytes(6))), 0, PortId(0, 0), State(0))


def test_a_mac_address_is_read_in_each_notation() -> None:
    octets = Mac(bytes([2, 0, 0, 0, 10, 255]))
    for text in ("02:00:00:00:0a:Ff", "02-00-00-00-0A-fF", "0200.0000.0aFf", "020000000aff"):
        assert Mac(text) == octets
    assert str(Mac("020000000AFF")) == "02-00-00-00-0a-ff" and repr(Mac("020000000AFF")) == "Mac('02-00-00-00-0a-ff')"
    for text in ("02:00:00:00:00", "02:00:00:00:00:0g", "02:00-00:00:00:01", "0200.0000", "0200:0000:0001", "02.00.00.00.00.01", ""):
        with pytest.raises(ValueError):
            Mac(text)
    with pytest.raises(ValueError):
        Mac(b"12345")


@pytest.mark.parametrize(
    "change, reason, place",
    [
        ({"ports": ()}, Reason.PORTS, None),
        ({"ports": tuple(dataclasses.replace(PORT, number=n) for n in range(1, 66))}, Reason.PORTS, None),
        ({"aggregators": ()}, Reason.AGGREGATORS, None),
        ({"aggregators": (7,) * 65}, Reason.AGGREGATORS, None),
        ({"ports": (PORT, PORT)}, Reason.PORT_NUMBER, 2),
        ({"ports": (dataclasses.replace(PORT, number=0),)}, Reason.PORT_NUMBER, 1),
        ({"max_links": 65}, Reason.MAX_LINKS, None),
        ({"conversations": 257}, Reason.CONVERSATIONS, None),
    ],
)
def test_a_configuration_is_refused_with_its_reason(change: dict[str, Any], reason: Reason, place: int | None) -> None:
    with pytest.raises(BadConfig) as told:
        System(dataclasses.replace(CONFIG, **change))
    assert (told.value.status, told.value.reason, told.value.place) == (Status.BAD_CONFIG, reason, place)
    assert str(told.value).startswith("11: ")


@pytest.mark.parametrize("number", [-1, 65536])
def test_a_number_without_room_is_refused_by_python(number: int) -> None:
    with System(CONFIG) as system:
        calls: list[Callable[[int], object]] = [
            *(system.transmit, system.load, system.force_port, system.tick, system.distributing),
            lambda _: system.configure(3, key=number, priority=1, aggregatable=True),
            *(lambda _, field=field: dataclasses.replace(PORT, **{field: number}) for field in ("number", "key", "priority")),
            lambda _: SystemId(number, OWN),
            lambda _: dataclasses.replace(CONFIG, first_marker=number - 65535 + 0xFFFFFFFF if number > 0 else -1),
            lambda _: dataclasses.replace(CONFIG, max_links=0),
        ]
        for call in calls:
            with pytest.raises(ValueError):
                call(number)


# What holds a part of the library: how it is made, and calls with their words.
OF_SYSTEM: dict[str, tuple[Any, ...]] = dict.fromkeys(("tick", "ports", "ticks_until_due", "due", "views", "next_marker"), ())
OF_FRAMES = {"counts": (), "next": (0,), "drop": (0,), "oldest": (0,), "waiting": (0,), "put": (0, 1), "next_released": ([0],)}
HANDLES = [(System, (CONFIG,), OF_SYSTEM), (niwhopera.HeldFrames, (1, 1, 1), OF_FRAMES)]
of_each_handle = pytest.mark.parametrize("kind, given, calls", HANDLES, ids=[kind.__name__ for kind, *_ in HANDLES])


@of_each_handle
def test_a_closed_handle_raises_closed(kind: Any, given: tuple[Any, ...], calls: dict[str, tuple[Any, ...]]) -> None:
    made = kind(*given)
    assert not made.closed
    made.close()
    made.close()
    assert made.closed
    for name, words in calls.items():
        with pytest.raises(Closed) as told:
            getattr(made, name)(*words)
        assert told.value.status is (Status.NO_SYSTEM if kind is System else Status.NO_QUEUE), name


def test_a_port_that_does_not_exist() -> None:
    with System(CONFIG) as system:
        for reader in (system.state, system.partner, system.party, system.group, system.is_up, system.transmit, system.port_status, system.load):
            with pytest.raises(LagError) as told:
                reader(4)
            assert told.value.status is Status.NO_PORT and told.value.text == "the system has no port of this number"
        assert system.distributing(3) == ()
        with pytest.raises(LagError) as told:
            system.conversation_state(3, 0)
        assert told.value.status is Status.NOT_ASSIGNED


@of_each_handle
def test_a_handle_is_neither_copied_nor_called_by_another_thread(kind: Any, given: tuple[Any, ...], calls: dict[str, tuple[Any, ...]]) -> None:
    with kind(*given) as made:
        for copies in copy.copy, copy.deepcopy:
            with pytest.raises(TypeError):
                copies(made)
        raised: list[BaseException] = []

        def ask() -> None:
            try:
                getattr(made, next(iter(calls)))()
            except RuntimeError as why:
                raised.append(why)

        other = threading.Thread(target=ask)
        other.start()
        other.join()
        assert [str(it) for it in raised] == [f"only the thread that made a {kind.__name__} calls it"]


@of_each_handle
def test_a_handle_that_is_not_closed_is_told(kind: Any, given: tuple[Any, ...], calls: dict[str, tuple[Any, ...]]) -> None:
    gc.collect()  # what other tests left is told before
    with warnings.catch_warnings(record=True) as told:
        warnings.simplefilter("always")
        kind(*given)
        gc.collect()
    assert [(it.category, str(it.message)) for it in told] == [(ResourceWarning, f"a {kind.__name__} was not closed")]


def test_a_port_shows_what_it_is_and_sends() -> None:
    with System(CONFIG) as system:
        assert system.ports() == (3, 5) and system.aggregators() == 2 and system.ticks_until_due() is None
        system.set_link(5, True)
        assert system.is_up(5) and not system.is_up(3) and system.receive_state(5) is ReceiveState.EXPIRED
        assert system.ticks_until_due() == 10 and system.due() == ()
        system.tick(10)
        assert system.due() == (5,) and system.is_due(5) and system.ntt(5)
        [(port, sent)] = list(system.transmissions())
        wanted = Info(SystemId(32768, OWN), 7, PortId(11, 5), ALL_STATES | State.DEFAULTED | State.EXPIRED)
        assert port == 5 and sent.frame == control_frame(PORT.mac, Lacpdu(wanted, dataclasses.replace(NOBODY, state=State.TIMEOUT), 9))
        view = system.views()[1]
        assert (view.port, view.up, view.standby, view.defaulted, view.aggregator) == (5, True, False, True, None)
        assert view.port_status is PortStatus.NO_LACPDU and view.text == PORT_STATUS_TEXTS[2] == "no LACPDU came in time"
        assert view.state == wanted.state and view.mux_state is MuxState.DETACHED
        assert system.current_while(5) == 20


def test_what_comes_is_told() -> None:
    with System(CONFIG) as system:
        assert system.receive(3, b"").kind is ReceivedKind.DISABLED
        system.set_link(3, True)
        assert system.receive(3, b"\0" * 13).kind is ReceivedKind.DROPPED
        frame = control_frame(OTHER, Lacpdu(Info(SystemId(4096, OTHER), 19, PortId(21, 23), ALL_STATES), NOBODY))
        assert system.receive(3, frame).kind is ReceivedKind.TOOK_LACPDU
        assert str(system.partner(3)) == "4096/02-00-00-00-00-02 key 19 port 21/23 state 07"
        assert system.receive(3, frame[:60]).fault is WireFault.SHORT
        for at, octet, fault in ((14, 3, WireFault.OTHER_SUBTYPE), (17, 19, WireFault.BAD_LENGTH)):
            assert system.receive(3, frame[:at] + bytes([octet]) + frame[at + 1 :]).fault is fault
        asked = control_frame(OTHER, Marker(MarkerKind.INFORMATION, 23, OTHER, 0xFFFFFFFF))
        assert system.receive(3, asked).response == control_frame(PORT.mac, Marker(MarkerKind.RESPONSE, 23, OTHER, 0xFFFFFFFF))
        assert system.receive(3, asked[:16] + b"\3" + asked[17:]).fault is WireFault.MARKER_TLV
        assert system.receive(3, bytearray(control_frame(OTHER, Marker(MarkerKind.RESPONSE, 3, OWN, 77)))).released == 0


def test_an_algorithm_picks_the_port() -> None:
    """Conversation 0x13 of two ports: 19 modulo 2, 19 + 1 + 0 modulo 2, and the first."""
    frame = bytes.fromhex("020000000013") + bytes(6) + b"\x08\x00"
    picked = {}
    for algorithm in Algorithm:
        with System(dataclasses.replace(CONFIG, algorithm=algorithm, aggregators=(7,))) as system:
            come_up(system)
            picked[algorithm] = system.offer(1, frame)
    assert picked == {Algorithm.BY_NUMBER: 5, Algorithm.BY_SUM: 3, Algorithm.BY_FIRST: 3}


def come_up(system: System) -> None:
    """Both ports distribute: a partner answers with what it is told."""
    for port in (3, 5):
        system.set_link(port, True)
    for bits in (ALL_STATES, ALL_STATES | State.SYNCHRONIZATION):
        for port in (3, 5):
            actor = Info(SystemId(4096, OTHER), 19, PortId(21, port), bits)
            system.receive(port, control_frame(OTHER, Lacpdu(actor, Info(SystemId(32768, OWN), 7, PortId(11, port), ALL_STATES))))
        system.tick(20)
    assert system.distributing(1) == (3, 5)


def test_a_held_frame_raises_held() -> None:
    frame = bytes.fromhex("0200000000130200000000000800")
    with System(dataclasses.replace(CONFIG, aggregators=(7,))) as system:
        come_up(system)
        assert system.conversation(frame) == 0x13 and system.offer(1, frame) == 5
        system.move_conversation(1, 0x13, 3)
        for error, aggregator, offered, status in (
            (Held, 1, frame, Status.HELD),
            (LagError, 1, frame[:13], Status.FRAME_LENGTH),
            (LagError, 1, frame[:12] + b"\x88\x09", Status.SLOW_FRAME),
            (LagError, 2, frame, Status.NO_AGGREGATOR),
        ):
            with pytest.raises(error) as told:
                system.offer(aggregator, offered)
            assert told.value.status is status


def test_every_export_of_the_module_is_documented() -> None:
    for name in niwhopera.__all__:
        thing = getattr(niwhopera, name)
        if isinstance(thing, type):
            assert thing.__doc__ and not thing.__doc__.startswith(f"{name}("), name
    for kind in (System, niwhopera.HeldFrames):
        for name in dir(kind):
            assert name.startswith("_") or getattr(kind, name).__doc__, name


@pytest.mark.parametrize("given, is_built, wanted", [("/x/liblag.so.0", True, "/x/liblag.so.0"), ("", True, "/out/lib/liblag.so.0"), ("", False, "liblag.so.0")])
def test_a_library_that_is_named_goes_before_that_of_make_and_of_the_system(given: str, is_built: bool, wanted: str, monkeypatch: pytest.MonkeyPatch) -> None:
    monkeypatch.setenv("NIWHOPERA_LIBRARY", given)
    monkeypatch.setattr(os.path, "exists", lambda _: is_built)
    name = _library._name()
    assert name.endswith(wanted) and os.path.isabs(name) == (wanted != "liblag.so.0")
