"""The values that a system is given and tells, as frozen dataclasses.

Numbers are those of IEEE 802.1AX-2014, clause 6: a system identifier is a 16-bit priority and a MAC address, a port identifier a
16-bit priority and a 16-bit number (6.3.2, 6.3.4), a key has 16 bits (6.3.5). The lower identifier has the higher priority.
"""

from __future__ import annotations

import re
from dataclasses import dataclass
from typing import Optional, Union

from ._numbers import (
    FRAME,
    PORT_STATUS_TEXTS,
    Algorithm,
    ConversationState,
    MuxState,
    PortStatus,
    ReceivedKind,
    ReceiveState,
    SentKind,
    State,
    WireFault,
)


def within(what: str, number: int, most: int) -> int:
    """The number; ValueError where it is not 0 to `most`, since C would cut it off."""
    if not 0 <= number <= most:
        raise ValueError(f"{what} is {number}, and has to be 0 to {most}")
    return int(number)


_MAC = re.compile(r"[0-9a-fA-F]{12}|[0-9a-fA-F]{2}(?:([:-])[0-9a-fA-F]{2})(?:\1[0-9a-fA-F]{2}){4}|[0-9a-fA-F]{4}(?:\.[0-9a-fA-F]{4}){2}")


class Mac(bytes):
    """A MAC address: six octets, given as octets or as twelve hexadecimal digits: alone, in pairs joined by `:` or `-`, or in fours joined by `.`."""

    def __new__(cls, value: Union[str, bytes]) -> Mac:
        if isinstance(value, str):
            if not _MAC.fullmatch(value):
                raise ValueError(f"{value!r} is no MAC address")
            value = bytes.fromhex(re.sub("[:.-]", "", value))
        if len(value) != 6:
            raise ValueError(f"a MAC address has 6 octets, and not {len(value)}")
        return super().__new__(cls, value)

    def __str__(self) -> str:
        return "-".join(f"{octet:02x}" for octet in self)

    def __repr__(self) -> str:
        return f"Mac({str(self)!r})"


@dataclass(frozen=True, order=True)
class SystemId:
    """A system identifier (6.3.2): `priority` is 0 to 65535."""

    priority: int
    mac: Mac

    def __post_init__(self) -> None:
        within("the priority of the system", self.priority, 0xFFFF)

    def __str__(self) -> str:
        return f"{self.priority}/{self.mac}"


@dataclass(frozen=True, order=True)
class PortId:
    """A port identifier (6.3.4): `priority` and `number` are 0 to 65535."""

    priority: int
    number: int

    def __str__(self) -> str:
        return f"{self.priority}/{self.number}"


@dataclass(frozen=True)
class PortConfig:
    """One port of a configuration.

    `number` is 1 to 65535, `key` and `priority` are 0 to 65535, and `mac` is the source of what the port sends. A port that is not
    `aggregatable` has an individual link. `active` is LACP_Activity, and `short_timeout` LACP_Timeout: whether the partner is asked
    for an LACPDU each second instead of each 30 seconds (6.4.2.3).
    """

    number: int
    key: int
    mac: Mac
    priority: int = 32768
    aggregatable: bool = True
    active: bool = True
    short_timeout: bool = True

    def __post_init__(self) -> None:
        within("the number of a port", self.number, 0xFFFF)
        within("the key of a port", self.key, 0xFFFF)
        within("the priority of a port", self.priority, 0xFFFF)


def limit(max_links: Optional[int]) -> int:
    """A limit of links as C has it: 0 for any number. Of more than 64 the library tells."""
    if max_links is not None and not 1 <= max_links <= 0xFFFF:
        raise ValueError(f"max_links is {max_links}, and has to be 1 to 64, or None for any number")
    return max_links or 0


@dataclass(frozen=True)
class Config:
    """A configuration.

    `ports` are 1 to 64, their numbers ascending. `aggregators` has 1 to 64 keys, those of aggregators 1, 2 and on: give a key as many
    aggregators as it has ports. `max_delay` is CollectorMaxDelay in tens of microseconds, 0 to 65535. `first_marker` is the
    identifier of the first marker, 0 to 4294967295. `conversations`, of each aggregator, is 256 or 4096. `max_links` is the most
    members of an aggregator, 1 to 64, or None for any number.
    """

    system: SystemId
    ports: tuple[PortConfig, ...]
    aggregators: tuple[int, ...]
    max_delay: int = 0
    first_marker: int = 1
    conversations: int = 256
    max_links: Optional[int] = None
    algorithm: Algorithm = Algorithm.BY_NUMBER

    def __post_init__(self) -> None:
        for key in self.aggregators:
            within("the key of an aggregator", key, 0xFFFF)
        within("max_delay", self.max_delay, 0xFFFF)
        within("first_marker", self.first_marker, 0xFFFFFFFF)
        within("conversations", self.conversations, 0xFFFF)
        within("algorithm", self.algorithm, 0xFFFF)
        limit(self.max_links)


@dataclass(frozen=True)
class Party:
    """The parameters of a port's own side (6.4.2.3)."""

    system: SystemId
    key: int
    port: PortId
    aggregatable: bool


@dataclass(frozen=True)
class Info:
    """What is recorded of a partner: its parameters and its state octet."""

    system: SystemId
    key: int
    port: PortId
    state: State

    def __str__(self) -> str:
        return f"{self.system} key {self.key} port {self.port} state {int(self.state):02x}"


@dataclass(frozen=True)
class End:
    """One end of a group. It names its port where the link is individual alone."""

    system: SystemId
    key: int
    port: Optional[PortId]

    def __str__(self) -> str:
        return f"{self.system} key {self.key}" + (f" port {self.port}" if self.port else "")


@dataclass(frozen=True)
class Group:
    """A Link Aggregation Group (6.3.6), which names both ends, the lower one first."""

    lower: End
    upper: End

    def __str__(self) -> str:
        return f"{self.lower} <> {self.upper}"


@dataclass(frozen=True)
class Received:
    """What became of a frame that came. Of each kind one of the others is given, or none.

    IGNORED: `fault`. RESPOND: `response`, a frame of 124 octets, to be sent on the same port. RELEASED: `released`, how many
    conversations. HANDED_UP: `aggregator`, from 1.
    """

    kind: ReceivedKind
    fault: Optional[WireFault] = None
    response: Optional[bytes] = None
    released: Optional[int] = None
    aggregator: Optional[int] = None


@dataclass(frozen=True)
class Sent:
    """A frame that is due: an LACPDU or a marker, of 124 octets, from the destination address on, without FCS."""

    kind: SentKind
    frame: bytes


@dataclass(frozen=True)
class Assignment:
    """What a conversation is doing.

    `port` is that of ON, WANTED and FLUSHING, and `preferred` the port that it takes next where it distributes. `marker` and `age`
    are of FLUSHING: the identifier of its marker, and the ticks since it was sent, 0 to 29.
    """

    state: ConversationState
    port: Optional[int] = None
    preferred: Optional[int] = None
    marker: Optional[int] = None
    age: Optional[int] = None


@dataclass(frozen=True)
class SavedPort:
    """What a host saves of a port that distributes, for `System.resume`: its number, the frame of the last LACPDU that came on it, of 124
    octets or more, how many ticks ago that came, 0 to 4294967295, and the aggregator that the port was in; 0: it may come into any."""

    port: int
    age: int
    frame: bytes
    aggregator: int = 0

    def __post_init__(self) -> None:
        within("the number of the port", self.port, 0xFFFF)
        within("the number of the aggregator", self.aggregator, 0xFFFF)
        within("the age of an LACPDU", self.age, 0xFFFFFFFF)
        if len(self.frame) < FRAME:
            raise ValueError(f"the frame of an LACPDU has {len(self.frame)} octets, and not {FRAME} or more")


@dataclass(frozen=True)
class Carried:
    """What a conversation is for `next_move`: the port that it is on, or None, and its load, 0 to 4294967295, in a unit of the host's:
    octets a second, frames, or 1 for each conversation."""

    port: Optional[int]
    load: int

    def __post_init__(self) -> None:
        within("the number of the port", self.port or 0, 0xFFFF)
        within("the load of a conversation", self.load, 0xFFFFFFFF)


@dataclass(frozen=True)
class Move:
    """A conversation, and the port that it is to move to."""

    conversation: int
    port: int


@dataclass(frozen=True)
class FrameCounts:
    """How many frames wait now, and how many `drop` took out and `put` refused, up to 2^64 - 1 each."""

    waiting: int
    dropped: int
    refused: int


@dataclass(frozen=True)
class View:
    """What there is to show of a port: no timer, and nothing that changes from tick to tick. `aggregator` is None for none."""

    port: int
    aggregator: Optional[int]
    up: bool
    standby: bool
    defaulted: bool
    state: State
    receive_state: ReceiveState
    mux_state: MuxState
    port_status: PortStatus
    partner: Info

    @property
    def text(self) -> str:
        """Whether the port distributes, and else why not, in words."""
        return PORT_STATUS_TEXTS[self.port_status]
