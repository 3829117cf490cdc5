"""Payloads: worked rows of LACPDUs and Marker PDUs, each refusal, and numbers without room."""

from __future__ import annotations

import dataclasses

import niwhopera
import pytest
from niwhopera import BadPayload, Info, Lacpdu, Mac, Marker, MarkerKind, PortId, State, Status, SystemId, WireFault, control_frame, decode, encode

ROW = bytes.fromhex("010101148000020000000001000100800001c7000000" + "0214" + "00" * 14 + "02000000" + "0310" + "00" * 66)
ASKED = bytes.fromhex("020101100001020000000001ffffffff" + "beef" + "00" * 92)
ACTOR = Info(
    SystemId(32768, Mac("020000000001")), 1, PortId(128, 1), State.ACTIVITY | State.TIMEOUT | State.AGGREGATION | State.DEFAULTED | State.EXPIRED
)
NOBODY = Info(SystemId(0, Mac("000000000000")), 0, PortId(0, 0), State.TIMEOUT)
READ = Lacpdu(ACTOR, NOBODY)
# No two numbers of one width are alike.
WIDE = Lacpdu(
    Info(SystemId(0x1112, Mac("021314151617")), 0x1819, PortId(0x1A1B, 0x1C1D), State(0x3D)),
    Info(SystemId(0x2122, Mac("022324252627")), 0x2829, PortId(0x2A2B, 0x2C2D), State(0x82)),
    0x3132,
)
WIDE_OCTETS = bytes.fromhex(
    "01010114" + "1112021314151617" + "18191a1b1c1d3d000000" + "0214" + "2122022324252627" + "28292a2b2c2d82000000" + "03103132" + "00" * 64
)


def changed(payload: bytes, *octets: tuple[int, int]) -> bytes:
    """The payload with other octets at these offsets."""
    found = bytearray(payload)
    for at, octet in octets:
        found[at] = octet
    return bytes(found)


def test_an_lacpdu_is_read_and_written() -> None:
    assert len(ROW) == 110 and decode(ROW) == READ and encode(READ) == ROW
    assert decode(WIDE_OCTETS) == WIDE and encode(WIDE) == WIDE_OCTETS


def test_of_an_lacpdu_subtype_lengths_and_fields_alone_are_read() -> None:
    reserved = [*range(19, 22), *range(39, 42), *range(46, 58), *range(58, 110)]
    octets = changed(ROW, (1, 2), (2, 9), (22, 9), (42, 9), *((at, 0xFF) for at in reserved))
    assert decode(octets) == READ
    assert decode(ROW + b"\xaa" * 40) == decode(bytearray(ROW)) == decode(memoryview(ROW)) == READ


def test_a_marker_and_its_response_are_read_and_written() -> None:
    asked = Marker(MarkerKind.INFORMATION, 1, Mac("020000000001"), 0xFFFFFFFF)
    answered = dataclasses.replace(asked, kind=MarkerKind.RESPONSE)
    assert decode(ASKED) == asked and encode(asked) == changed(ASKED, (16, 0), (17, 0))
    assert decode(changed(ASKED, (2, 2))) == answered and encode(answered) == changed(ASKED, (2, 2), (16, 0), (17, 0))
    wide = Marker(MarkerKind.INFORMATION, 0x4142, Mac("024344454647"), 0x51525354)
    assert decode(encode(wide)) == wide and encode(wide)[4:16].hex() == "414202434445464751525354"


@pytest.mark.parametrize(
    "payload, fault, at, found",
    [
        (ROW[:-1], WireFault.SHORT, 109, 0),
        (b"", WireFault.SHORT, 0, 0),
        (changed(ROW, (0, 3)), WireFault.OTHER_SUBTYPE, 0, 3),
        (changed(ROW, (23, 19), (43, 15)), WireFault.BAD_LENGTH, 23, 19),
        (changed(ASKED, (2, 3)), WireFault.MARKER_TLV, 2, 3),
    ],
)
def test_a_payload_is_refused_with_its_fault(payload: bytes, fault: WireFault, at: int, found: int) -> None:
    with pytest.raises(BadPayload) as told:
        decode(payload)
    assert (told.value.status, told.value.fault, told.value.at, told.value.found) == (Status.BAD_PAYLOAD, fault, at, found)
    assert str(told.value).startswith(f"17: the payload is refused: {fault.name}, ")


def test_a_number_without_room_is_refused() -> None:
    pdus: list[Lacpdu | Marker] = [Marker(MarkerKind.RESPONSE, 1, ACTOR.system.mac, 1 << 32)]
    for wrong in (-1, 65536):
        for changes in {"key": wrong}, {"port": PortId(wrong, 1)}, {"port": PortId(1, wrong)}:
            end = dataclasses.replace(ACTOR, **changes)  # type: ignore[arg-type]
            pdus += [Lacpdu(end, NOBODY), Lacpdu(NOBODY, end)]
        pdus += [dataclasses.replace(READ, max_delay=wrong), Marker(MarkerKind.RESPONSE, wrong, ACTOR.system.mac, 1)]
    for pdu in pdus:
        with pytest.raises(ValueError):
            encode(pdu)


def test_a_system_takes_a_frame_that_is_written_here() -> None:
    port = niwhopera.PortConfig(number=1, key=1, mac=Mac("020000000102"))
    config = niwhopera.Config(SystemId(32768, Mac("020000000002")), (port,), (1,))
    with niwhopera.System(config) as system:
        system.set_link(1, True)
        frame = control_frame(ACTOR.system.mac, READ)
        assert len(frame) == niwhopera.FRAME and frame[:14].hex() == "0180c20000020200000000018809"
        assert system.receive(1, frame).kind is niwhopera.ReceivedKind.TOOK_LACPDU
        assert system.partner(1).system == ACTOR.system and system.partner(1).key == 1
        sent = system.transmit(1)
        assert sent is not None
        told = decode(sent.frame[14:])
        assert isinstance(told, Lacpdu) and told.actor.system.mac == Mac("020000000002") and told.partner == system.partner(1)
