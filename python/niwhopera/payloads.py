"""Payloads of control frames: LACPDUs (IEEE 802.1AX-2014, 6.4.2.3) and Marker PDUs (6.5.3.3), read and written by the C library.

A control frame is the group address, the address of the port, the EtherType 0x8809 and a payload of 110 octets: 124 octets, without
FCS. What a system sends and takes are such frames.
"""

from __future__ import annotations

import ctypes
from dataclasses import dataclass
from typing import Union

from . import _numbers as c
from ._library import functions
from ._numbers import MarkerKind, State, Status, Subtype, WireFault
from .errors import BadPayload, check
from .values import Info, Mac, PortId, SystemId, within

# What stands before a payload, beside the address of the port: the Slow_Protocols_Multicast address and the EtherType (6.4.2.2).
GROUP, SLOW_TYPE = Mac("01:80:c2:00:00:02"), b"\x88\x09"


@dataclass(frozen=True)
class Lacpdu:
    """An LACPDU of version 1: the end that sends it, the other end as the sender has recorded it, and CollectorMaxDelay in tens of
    microseconds, 0 to 65535."""

    actor: Info
    partner: Info
    max_delay: int = 0


@dataclass(frozen=True)
class Marker:
    """A Marker PDU: a marker, or the response to one. `port` (0 to 65535), `system` and `id` (0 to 4294967295) are those of the marker:
    Requester_Port, Requester_System and Requester_Transaction_ID."""

    kind: MarkerKind
    port: int
    system: Mac
    id: int


Pdu = Union[Lacpdu, Marker]


def decode(payload: Union[bytes, bytearray, memoryview]) -> Pdu:
    """The PDU of a payload, which is a control frame from its 15th octet on. Octets after the first 110 are not looked at. Raises
    `BadPayload`."""
    octets, it = bytes(payload), c.NiwPdu()
    told = functions().decode(octets, len(octets), ctypes.byref(it))
    if told.status == Status.BAD_PAYLOAD:
        raise BadPayload(WireFault(told.fault), told.at, told.found)
    check(told.status)
    if it.subtype == Subtype.LACPDU:
        return Lacpdu(_info(it.actor), _info(it.partner), it.max_delay)
    return Marker(MarkerKind(it.tlv_type), it.requester_port, Mac(bytes(it.requester_system)), it.transaction_id)


def encode(pdu: Pdu) -> bytes:
    """The payload of a PDU, 110 octets: version 1, and 0 in each reserved octet. Raises ValueError where a number has no room."""
    it, payload = c.NiwPdu(), (ctypes.c_uint8 * c.PAYLOAD_LENGTH)()
    if isinstance(pdu, Lacpdu):
        it.subtype, it.max_delay = Subtype.LACPDU, within("max_delay", pdu.max_delay, 0xFFFF)
        it.actor, it.partner = _participant(pdu.actor), _participant(pdu.partner)
    else:
        it.subtype, it.tlv_type = Subtype.MARKER, pdu.kind
        it.requester_port = within("the number of the port", pdu.port, 0xFFFF)
        it.requester_system[:] = [*pdu.system]
        it.transaction_id = within("the identifier of the marker", pdu.id, 0xFFFFFFFF)
    check(functions().encode(ctypes.byref(it), payload, len(payload)))
    return bytes(payload)


def control_frame(source: Mac, pdu: Pdu) -> bytes:
    """The control frame with this PDU from the port with this address: 124 octets, without FCS."""
    return GROUP + source + SLOW_TYPE + encode(pdu)


def _info(it: c.NiwParticipant) -> Info:
    system = SystemId(it.system_priority, Mac(bytes(it.system_mac)))
    return Info(system, it.key, PortId(it.port_priority, it.port), State(it.state))


def _participant(info: Info) -> c.NiwParticipant:
    it = c.NiwParticipant()
    it.system_priority, it.key = info.system.priority, within("the key", info.key, 0xFFFF)
    it.system_mac[:] = [*info.system.mac]
    it.port_priority = within("the priority of the port", info.port.priority, 0xFFFF)
    it.port = within("the number of the port", info.port.number, 0xFFFF)
    it.state = within("the state octet", info.state, 0xFF)
    return it
