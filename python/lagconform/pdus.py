"""Words and changes over the values of `niwhopera`, which is the only codec here: wrong octets are made by patching encoded ones."""

from __future__ import annotations

from dataclasses import replace
from typing import Optional

from niwhopera import BadPayload, Info, Lacpdu, Mac, Marker, MarkerKind, Pdu, PortId, State, SystemId, decode

GROUP, SLOW, BROADCAST = bytes.fromhex("0180c2000002"), b"\x88\x09", b"\xff" * 6
# The frames that a hook makes the device send: IPv4 and UDP from 198.18.0.0/16, the network for measurements (RFC 2544). The type of the bench's
# own broadcasts is for local experiments (802).
DATA, SENDERS, BROADCAST_TYPE = b"\x08\0", b"\xc6\x12", b"\x88\xb5"
# Where such a frame has the how many-th of its flow it is, from 1 on.
COUNT_AT = 42
# Offsets in a frame: its payload, and in an LACPDU the actor's state, the partner and its state.
PAYLOAD, ACTOR_STATE, PARTNER, PARTNER_STATE = 14, 32, 38, 52
CARRIES = State.COLLECTING | State.DISTRIBUTING
NO_STATE = State(0)
NOBODY = Info(SystemId(0, Mac(bytes(6))), 0, PortId(0, 0), NO_STATE)
# The six parameters that a PDU has to name right (6.4.9).
SIX = ("priority", "system", "key", "port_priority", "port", "aggregation")
WORDS = "active short aggregatable synchronized collecting distributing defaulted expired".split()


def six(info: Info) -> tuple[SystemId, int, PortId, bool]:
    """The six parameters of an end."""
    return info.system, info.key, info.port, bool(info.state & State.AGGREGATION)


def value(info: Info, field: str) -> object:
    """One of the six parameters of an end."""
    system, port = info.system, info.port
    values: dict[str, object] = {
        "priority": system.priority, "system": system.mac, "key": info.key, "port_priority": port.priority, "port": port.number,
        "aggregation": bool(info.state & State.AGGREGATION),
    }  # fmt: skip
    return values[field]


def other(info: Info, field: str) -> Info:
    """The same end but for one of the six parameters."""
    if field == "priority":
        return replace(info, system=replace(info.system, priority=info.system.priority ^ 0x40))
    if field == "system":
        return other_octet(info, 5)
    if field == "key":
        return replace(info, key=info.key ^ 0x40)
    if field == "port_priority":
        return replace(info, port=replace(info.port, priority=info.port.priority ^ 0x40))
    if field == "port":
        return replace(info, port=replace(info.port, number=info.port.number ^ 0x40))
    return replace(info, state=info.state ^ State.AGGREGATION)


def other_octet(info: Info, at: int) -> Info:
    """The same end but for one octet of the MAC address of its system."""
    octets = bytearray(info.system.mac)
    octets[at] ^= 0x40
    return replace(info, system=replace(info.system, mac=Mac(bytes(octets))))


def other_high_octet(info: Info, field: str) -> Info:
    """Another end: of one number, the high octet differs alone."""
    if field == "priority":
        return replace(info, system=replace(info.system, priority=info.system.priority ^ 0x0100))
    if field == "key":
        return replace(info, key=info.key ^ 0x0100)
    port = info.port
    other_port = replace(port, number=port.number ^ 0x0100) if field == "port" else replace(port, priority=port.priority ^ 0x0100)
    return replace(info, port=other_port)


def with_bits(info: Info, bits: dict[State, bool]) -> Info:
    """The same end with these bits of its state set or not."""
    state = info.state
    for bit, on in bits.items():
        state = state | bit if on else state & ~bit
    return replace(info, state=state)


def put(payload: bytes, at: int, octets: bytes) -> bytes:
    """Octets with others from an offset on."""
    return payload[:at] + octets + payload[at + len(octets) :]


def is_of_lag(frame: bytes) -> bool:
    """Whether a frame has a subtype of this standard: LACP or Marker. Others of Slow Protocols, as OAM and ESMC, are somebody else's."""
    return frame[12:14] == SLOW and frame[PAYLOAD : PAYLOAD + 1] in (b"\1", b"\2")


def is_data(frame: bytes) -> bool:
    """Whether a frame is one that a hook makes the client of the device's aggregator send."""
    return frame[12:14] == DATA and frame[26:28] == SENDERS


def is_individual(address: bytes) -> bool:
    """Whether a MAC address is that of one station: no group, and not 0."""
    return any(address) and not address[0] & 1


def read(frame: bytes) -> tuple[Optional[Pdu], str]:
    """The PDU of a frame; or none, and why its payload is refused, if it has the EtherType of Slow Protocols."""
    if frame[12:14] != SLOW:
        return None, ""
    try:
        return decode(frame[PAYLOAD:]), ""
    except BadPayload as why:
        return None, f"{why.fault.name}: {f'{why.at} octets' if why.fault.name == 'SHORT' else f'octet {why.at} is {why.found}'}"


def number_of(count: int, what: str) -> str:
    """So many of something."""
    return f"{count} {what}{'' if count == 1 else 's'}"


def words(state: int) -> str:
    """The bits of a state octet that are 1, in words."""
    return ",".join(word for bit, word in enumerate(WORDS) if state >> bit & 1) or "none"


def end(info: Info) -> str:
    """An end of a link as one line."""
    return f"{info.system} key {info.key} port {info.port} {int(info.state):02x} {words(info.state)}"


def mac(octets: bytes) -> str:
    """A MAC address as text."""
    return "-".join(f"{it:02x}" for it in octets)


def said(pdu: Optional[Pdu]) -> str:
    """A PDU in a few words."""
    if isinstance(pdu, Lacpdu):
        return f"LACPDU {int(pdu.actor.state):02x} {words(pdu.actor.state)}"
    if isinstance(pdu, Marker):
        return f"{'marker' if pdu.kind is MarkerKind.INFORMATION else 'marker response'} {pdu.id}"
    return "no PDU"


def told(frame: bytes) -> str:
    """A frame in a few words."""
    pdu, fault = read(frame)
    if pdu:
        return said(pdu)
    if fault:
        return f"slow protocol, subtype {frame[PAYLOAD] if len(frame) > PAYLOAD else '-'}, {len(frame)} octets"
    return f"type {frame[12:14].hex()}, {len(frame)} octets"
