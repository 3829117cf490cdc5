"""The numbers, texts, structs and functions of lag.h.

tools/maintain/interface writes this file; it is not changed by hand.
"""

from __future__ import annotations

import ctypes
from enum import IntEnum, IntFlag
from typing import Any, Callable, Final

VERSION: Final = 13
VERSION_TEXT: Final = "0.3.0"
FRAME: Final = 124
PAYLOAD_LENGTH: Final = 110
SHORTEST_FRAME: Final = 14
LONGEST_FRAME: Final = 1518
MOST_PORTS: Final = 64
MOST_TICKS: Final = 65535
ONE_CONVERSATION: Final = 1
FEW_CONVERSATIONS: Final = 256
MANY_CONVERSATIONS: Final = 4096
MOST_CONVERSATIONS: Final = 65536
TICK_MILLISECONDS: Final = 100
STATE_TEXT_ROOM: Final = 87


class Status(IntEnum):
    """Whether a call was done, or why it was refused."""

    OK = 0
    NO_PORT = 1
    NO_AGGREGATOR = 2
    FRAME_LENGTH = 3
    SLOW_FRAME = 4
    HELD = 5
    NONE_DISTRIBUTING = 6
    NOT_DISTRIBUTING = 7
    SAME_PORT = 8
    NOT_ASSIGNED = 9
    MARKERS_SPENT = 10
    BAD_CONFIG = 11
    NO_MEMORY = 12
    NO_SYSTEM = 13
    HAS_SYSTEM = 14
    BUFFER = 15
    NULL = 16
    BAD_PAYLOAD = 17
    NO_PDU = 18
    NO_QUEUE = 19
    HAS_QUEUE = 20
    CONVERSATION_FULL = 21
    ALL_FULL = 22
    STALE = 23
    OVER_LIMIT = 24
    MANY_TICKS = 25


class Reason(IntEnum):
    """Why a configuration is refused."""

    PORTS = 1
    AGGREGATORS = 2
    PORT_NUMBER = 3
    MAX_LINKS = 4
    CONVERSATIONS = 5
    ALGORITHM = 6


class WireFault(IntEnum):
    """What is wrong with the payload of a control frame."""

    SHORT = 1
    OTHER_SUBTYPE = 2
    BAD_LENGTH = 3
    MARKER_TLV = 4


class State(IntFlag):
    """The bits of a state octet (IEEE 802.1AX-2014, 6.4.2.3)."""

    ACTIVITY = 1
    TIMEOUT = 2
    AGGREGATION = 4
    SYNCHRONIZATION = 8
    COLLECTING = 16
    DISTRIBUTING = 32
    DEFAULTED = 64
    EXPIRED = 128


class Algorithm(IntEnum):
    """How a conversation picks its port among those that distribute."""

    BY_NUMBER = 0
    BY_SUM = 1
    BY_FIRST = 2


class ReceivedKind(IntEnum):
    """What became of a frame that came."""

    DISABLED = 0
    DROPPED = 1
    IGNORED = 2
    TOOK_LACPDU = 3
    RESPOND = 4
    RELEASED = 5
    HANDED_UP = 6


class SentKind(IntEnum):
    """Which frame was due: the subtype of its PDU."""

    NOTHING = 0
    LACPDU = 1
    MARKER = 2


class ReceiveState(IntEnum):
    """The states of the receive machine (6.4.12)."""

    INITIALIZE = 0
    PORT_DISABLED = 1
    EXPIRED = 2
    DEFAULTED = 3
    CURRENT = 4


class MuxState(IntEnum):
    """The states of the mux machine, coupled control (6.4.15)."""

    DETACHED = 0
    WAITING = 1
    ATTACHED = 2
    COLLECTING_DISTRIBUTING = 3


class PortStatus(IntEnum):
    """Whether a port distributes, and else the first reason why not."""

    DISTRIBUTING = 0
    LINK_DOWN = 1
    NO_LACPDU = 2
    ON_DEFAULTS = 3
    OWN_SYSTEM = 4
    NO_AGGREGATOR = 5
    STANDBY = 6
    WAITING = 7
    WAITING_FOR_MEMBERS = 8
    PARTNER_NOT_SYNCHRONIZED = 9
    HELD = 10


class Answers(IntEnum):
    """Whether the peer of a port answers markers."""

    NEVER_ASKED = 0
    ASKED = 1
    ANSWERED = 2


class ConversationState(IntEnum):
    """What a conversation is doing."""

    FREE = 0
    ON = 1
    WANTED = 2
    FLUSHING = 3


class Subtype(IntEnum):
    """The subtypes of PDUs (6.4.2.3, 6.5.3.3)."""

    LACPDU = 1
    MARKER = 2


class MarkerKind(IntEnum):
    """The kinds of Marker PDU, by their TLV type (6.5.3.3)."""

    INFORMATION = 1
    RESPONSE = 2


class ChurnState(IntEnum):
    """The states of a churn detection machine (6.4.17)."""

    MONITOR = 0
    NO_CHURN = 1
    CHURN = 2


class NiwSystem(ctypes.Structure):
    """struct niw_system."""

    live: bool
    at: int | None
    _fields_ = [
        ("live", ctypes.c_bool),
        ("at", ctypes.c_void_p),
    ]


class NiwQueue(ctypes.Structure):
    """struct niw_queue."""

    live: bool
    at: int | None
    _fields_ = [
        ("live", ctypes.c_bool),
        ("at", ctypes.c_void_p),
    ]


class NiwConfig(ctypes.Structure):
    """struct niw_config."""

    priority: int
    mac: ctypes.Array[ctypes.c_uint8]
    max_delay: int
    first_marker: int
    conversations: int
    max_links: int
    algorithm: int
    _fields_ = [
        ("priority", ctypes.c_uint16),
        ("mac", ctypes.c_uint8 * 6),
        ("max_delay", ctypes.c_uint16),
        ("first_marker", ctypes.c_uint32),
        ("conversations", ctypes.c_uint16),
        ("max_links", ctypes.c_uint16),
        ("algorithm", ctypes.c_uint16),
    ]


class NiwPort(ctypes.Structure):
    """struct niw_port."""

    number: int
    priority: int
    mac: ctypes.Array[ctypes.c_uint8]
    key: int
    aggregatable: bool
    active: bool
    short_timeout: bool
    _fields_ = [
        ("number", ctypes.c_uint16),
        ("priority", ctypes.c_uint16),
        ("mac", ctypes.c_uint8 * 6),
        ("key", ctypes.c_uint16),
        ("aggregatable", ctypes.c_bool),
        ("active", ctypes.c_bool),
        ("short_timeout", ctypes.c_bool),
    ]


class NiwSaved(ctypes.Structure):
    """struct niw_saved."""

    port: int
    aggregator: int
    age: int
    frame: ctypes.Array[ctypes.c_uint8]
    _fields_ = [
        ("port", ctypes.c_uint16),
        ("aggregator", ctypes.c_uint16),
        ("age", ctypes.c_uint32),
        ("frame", ctypes.c_uint8 * 124),
    ]


class NiwChange(ctypes.Structure):
    """struct niw_change."""

    key: int
    priority: int
    aggregatable: bool
    _fields_ = [
        ("key", ctypes.c_uint16),
        ("priority", ctypes.c_uint16),
        ("aggregatable", ctypes.c_bool),
    ]


class NiwMade(ctypes.Structure):
    """struct niw_made."""

    status: int
    reason: int
    place: int
    _fields_ = [
        ("status", ctypes.c_uint32),
        ("reason", ctypes.c_uint32),
        ("place", ctypes.c_size_t),
    ]


class NiwTruth(ctypes.Structure):
    """struct niw_truth."""

    status: int
    is_: bool
    _fields_ = [
        ("status", ctypes.c_uint32),
        ("is_", ctypes.c_bool),
    ]


class NiwNumber(ctypes.Structure):
    """struct niw_number."""

    status: int
    number: int
    _fields_ = [
        ("status", ctypes.c_uint32),
        ("number", ctypes.c_uint64),
    ]


class NiwReceived(ctypes.Structure):
    """struct niw_received."""

    status: int
    what: int
    number: int
    _fields_ = [
        ("status", ctypes.c_uint32),
        ("what", ctypes.c_uint32),
        ("number", ctypes.c_uint32),
    ]


class NiwSent(ctypes.Structure):
    """struct niw_sent."""

    status: int
    is_: bool
    what: int
    octets: int
    _fields_ = [
        ("status", ctypes.c_uint32),
        ("is_", ctypes.c_bool),
        ("what", ctypes.c_uint8),
        ("octets", ctypes.c_uint32),
    ]


class NiwActor(ctypes.Structure):
    """struct niw_actor."""

    status: int
    system_priority: int
    system_mac: ctypes.Array[ctypes.c_uint8]
    key: int
    port_priority: int
    port: int
    aggregatable: bool
    _fields_ = [
        ("status", ctypes.c_uint32),
        ("system_priority", ctypes.c_uint16),
        ("system_mac", ctypes.c_uint8 * 6),
        ("key", ctypes.c_uint16),
        ("port_priority", ctypes.c_uint16),
        ("port", ctypes.c_uint16),
        ("aggregatable", ctypes.c_bool),
    ]


class NiwInfo(ctypes.Structure):
    """struct niw_info."""

    status: int
    system_priority: int
    system_mac: ctypes.Array[ctypes.c_uint8]
    key: int
    port_priority: int
    port: int
    state: int
    _fields_ = [
        ("status", ctypes.c_uint32),
        ("system_priority", ctypes.c_uint16),
        ("system_mac", ctypes.c_uint8 * 6),
        ("key", ctypes.c_uint16),
        ("port_priority", ctypes.c_uint16),
        ("port", ctypes.c_uint16),
        ("state", ctypes.c_uint8),
    ]


class NiwEnd(ctypes.Structure):
    """struct niw_end."""

    system_priority: int
    system_mac: ctypes.Array[ctypes.c_uint8]
    key: int
    individual: bool
    port_priority: int
    port: int
    _fields_ = [
        ("system_priority", ctypes.c_uint16),
        ("system_mac", ctypes.c_uint8 * 6),
        ("key", ctypes.c_uint16),
        ("individual", ctypes.c_bool),
        ("port_priority", ctypes.c_uint16),
        ("port", ctypes.c_uint16),
    ]


class NiwGroupId(ctypes.Structure):
    """struct niw_group_id."""

    status: int
    lower: NiwEnd
    upper: NiwEnd
    _fields_ = [
        ("status", ctypes.c_uint32),
        ("lower", NiwEnd),
        ("upper", NiwEnd),
    ]


class NiwAssignment(ctypes.Structure):
    """struct niw_assignment."""

    status: int
    what: int
    port: int
    prefers: bool
    preferred: int
    id: int
    age: int
    _fields_ = [
        ("status", ctypes.c_uint32),
        ("what", ctypes.c_uint32),
        ("port", ctypes.c_uint16),
        ("prefers", ctypes.c_bool),
        ("preferred", ctypes.c_uint16),
        ("id", ctypes.c_uint32),
        ("age", ctypes.c_uint8),
    ]


class NiwMarker(ctypes.Structure):
    """struct niw_marker."""

    status: int
    left: bool
    id: int
    _fields_ = [
        ("status", ctypes.c_uint32),
        ("left", ctypes.c_bool),
        ("id", ctypes.c_uint32),
    ]


class NiwWait(ctypes.Structure):
    """struct niw_wait."""

    status: int
    ever: bool
    ticks: int
    _fields_ = [
        ("status", ctypes.c_uint32),
        ("ever", ctypes.c_bool),
        ("ticks", ctypes.c_uint16),
    ]


class NiwView(ctypes.Structure):
    """struct niw_view."""

    port: int
    aggregator: int
    up: bool
    standby: bool
    defaulted: bool
    state: int
    receive_state: int
    mux_state: int
    port_status: int
    partner_state: int
    partner_mac: ctypes.Array[ctypes.c_uint8]
    partner_priority: int
    partner_key: int
    partner_port_priority: int
    partner_port: int
    _fields_ = [
        ("port", ctypes.c_uint16),
        ("aggregator", ctypes.c_uint16),
        ("up", ctypes.c_bool),
        ("standby", ctypes.c_bool),
        ("defaulted", ctypes.c_bool),
        ("state", ctypes.c_uint8),
        ("receive_state", ctypes.c_uint8),
        ("mux_state", ctypes.c_uint8),
        ("port_status", ctypes.c_uint8),
        ("partner_state", ctypes.c_uint8),
        ("partner_mac", ctypes.c_uint8 * 6),
        ("partner_priority", ctypes.c_uint16),
        ("partner_key", ctypes.c_uint16),
        ("partner_port_priority", ctypes.c_uint16),
        ("partner_port", ctypes.c_uint16),
    ]


class NiwParticipant(ctypes.Structure):
    """struct niw_participant."""

    system_priority: int
    system_mac: ctypes.Array[ctypes.c_uint8]
    key: int
    port_priority: int
    port: int
    state: int
    _fields_ = [
        ("system_priority", ctypes.c_uint16),
        ("system_mac", ctypes.c_uint8 * 6),
        ("key", ctypes.c_uint16),
        ("port_priority", ctypes.c_uint16),
        ("port", ctypes.c_uint16),
        ("state", ctypes.c_uint8),
    ]


class NiwPdu(ctypes.Structure):
    """struct niw_pdu."""

    subtype: int
    tlv_type: int
    max_delay: int
    actor: NiwParticipant
    partner: NiwParticipant
    requester_port: int
    requester_system: ctypes.Array[ctypes.c_uint8]
    transaction_id: int
    _fields_ = [
        ("subtype", ctypes.c_uint8),
        ("tlv_type", ctypes.c_uint8),
        ("max_delay", ctypes.c_uint16),
        ("actor", NiwParticipant),
        ("partner", NiwParticipant),
        ("requester_port", ctypes.c_uint16),
        ("requester_system", ctypes.c_uint8 * 6),
        ("transaction_id", ctypes.c_uint32),
    ]


class NiwDecoded(ctypes.Structure):
    """struct niw_decoded."""

    status: int
    fault: int
    at: int
    found: int
    _fields_ = [
        ("status", ctypes.c_uint32),
        ("fault", ctypes.c_uint32),
        ("at", ctypes.c_size_t),
        ("found", ctypes.c_uint8),
    ]


class NiwCarried(ctypes.Structure):
    """struct niw_carried."""

    port: int
    load: int
    _fields_ = [
        ("port", ctypes.c_uint16),
        ("load", ctypes.c_uint32),
    ]


class NiwMove(ctypes.Structure):
    """struct niw_move."""

    status: int
    is_: bool
    conversation: int
    port: int
    _fields_ = [
        ("status", ctypes.c_uint32),
        ("is_", ctypes.c_bool),
        ("conversation", ctypes.c_uint16),
        ("port", ctypes.c_uint16),
    ]


class NiwQueued(ctypes.Structure):
    """struct niw_queued."""

    status: int
    is_: bool
    conversation: int
    port: int
    frame: int
    _fields_ = [
        ("status", ctypes.c_uint32),
        ("is_", ctypes.c_bool),
        ("conversation", ctypes.c_uint16),
        ("port", ctypes.c_uint16),
        ("frame", ctypes.c_uint64),
    ]


class NiwCounts(ctypes.Structure):
    """struct niw_counts."""

    status: int
    waiting: int
    dropped: int
    refused: int
    _fields_ = [
        ("status", ctypes.c_uint32),
        ("waiting", ctypes.c_uint64),
        ("dropped", ctypes.c_uint64),
        ("refused", ctypes.c_uint64),
    ]


class NiwChurnMachine(ctypes.Structure):
    """struct niw_churn_machine."""

    state: int
    waited: int
    churns: int
    synchronizations: int
    _fields_ = [
        ("state", ctypes.c_uint32),
        ("waited", ctypes.c_uint16),
        ("churns", ctypes.c_uint64),
        ("synchronizations", ctypes.c_uint64),
    ]


class NiwChurn(ctypes.Structure):
    """struct niw_churn."""

    actor: NiwChurnMachine
    partner: NiwChurnMachine
    _fields_ = [
        ("actor", NiwChurnMachine),
        ("partner", NiwChurnMachine),
    ]


class NiwCounters(ctypes.Structure):
    """struct niw_counters."""

    lacpdus_received: int
    markers_received: int
    marker_responses_received: int
    unknown_received: int
    illegal_received: int
    lacpdus_sent: int
    markers_sent: int
    marker_responses_sent: int
    _fields_ = [
        ("lacpdus_received", ctypes.c_uint64),
        ("markers_received", ctypes.c_uint64),
        ("marker_responses_received", ctypes.c_uint64),
        ("unknown_received", ctypes.c_uint64),
        ("illegal_received", ctypes.c_uint64),
        ("lacpdus_sent", ctypes.c_uint64),
        ("markers_sent", ctypes.c_uint64),
        ("marker_responses_sent", ctypes.c_uint64),
    ]


def _bound(library: ctypes.CDLL, name: str, answer: Any, given: list[Any]) -> Callable[..., Any]:
    """A function of the library; AttributeError where it has none of this name."""
    function = getattr(library, name)
    function.restype, function.argtypes = answer, given
    return function  # type: ignore[no-any-return]


class Functions:
    """What the library exports, with the types of the header."""

    def __init__(self, library: ctypes.CDLL) -> None:
        self.new: Callable[..., NiwMade] = _bound(
            library, "lagffi_new", NiwMade, [ctypes.POINTER(NiwSystem), ctypes.POINTER(NiwConfig), ctypes.POINTER(ctypes.c_uint16), ctypes.c_size_t, ctypes.POINTER(NiwPort), ctypes.c_size_t]
        )
        self.free: Callable[..., int] = _bound(
            library, "lagffi_free", ctypes.c_uint32, [ctypes.POINTER(NiwSystem)]
        )
        self.receive: Callable[..., NiwReceived] = _bound(
            library, "lagffi_receive", NiwReceived, [ctypes.POINTER(NiwSystem), ctypes.c_uint16, ctypes.c_char_p, ctypes.c_size_t, ctypes.POINTER(ctypes.c_uint8), ctypes.c_size_t]
        )
        self.tick: Callable[..., int] = _bound(
            library, "lagffi_tick", ctypes.c_uint32, [ctypes.POINTER(NiwSystem)]
        )
        self.ticks: Callable[..., int] = _bound(
            library, "lagffi_ticks", ctypes.c_uint32, [ctypes.POINTER(NiwSystem), ctypes.c_uint32]
        )
        self.set_link: Callable[..., int] = _bound(
            library, "lagffi_set_link", ctypes.c_uint32, [ctypes.POINTER(NiwSystem), ctypes.c_uint16, ctypes.c_bool]
        )
        self.configure: Callable[..., NiwTruth] = _bound(
            library, "lagffi_configure", NiwTruth, [ctypes.POINTER(NiwSystem), ctypes.c_uint16, ctypes.POINTER(NiwChange)]
        )
        self.restart: Callable[..., int] = _bound(
            library, "lagffi_restart", ctypes.c_uint32, [ctypes.POINTER(NiwSystem)]
        )
        self.transmit: Callable[..., NiwSent] = _bound(
            library, "lagffi_transmit", NiwSent, [ctypes.POINTER(NiwSystem), ctypes.c_uint16, ctypes.POINTER(ctypes.c_uint8), ctypes.c_size_t]
        )
        self.offer: Callable[..., NiwNumber] = _bound(
            library, "lagffi_offer", NiwNumber, [ctypes.POINTER(NiwSystem), ctypes.c_uint16, ctypes.c_char_p, ctypes.c_size_t]
        )
        self.move_conversation: Callable[..., int] = _bound(
            library, "lagffi_move_conversation", ctypes.c_uint32, [ctypes.POINTER(NiwSystem), ctypes.c_uint16, ctypes.c_uint16, ctypes.c_uint16]
        )
        self.force: Callable[..., int] = _bound(
            library, "lagffi_force", ctypes.c_uint32, [ctypes.POINTER(NiwSystem), ctypes.c_uint16, ctypes.c_uint16]
        )
        self.force_port: Callable[..., NiwNumber] = _bound(
            library, "lagffi_force_port", NiwNumber, [ctypes.POINTER(NiwSystem), ctypes.c_uint16]
        )
        self.offer_conversation: Callable[..., NiwNumber] = _bound(
            library, "lagffi_offer_conversation", NiwNumber, [ctypes.POINTER(NiwSystem), ctypes.c_uint16, ctypes.c_uint16]
        )
        self.leave_conversation: Callable[..., int] = _bound(
            library, "lagffi_leave_conversation", ctypes.c_uint32, [ctypes.POINTER(NiwSystem), ctypes.c_uint16, ctypes.c_uint16]
        )
        self.rest: Callable[..., int] = _bound(
            library, "lagffi_rest", ctypes.c_uint32, [ctypes.POINTER(NiwSystem), ctypes.c_uint16, ctypes.c_uint16]
        )
        self.adopt: Callable[..., int] = _bound(
            library, "lagffi_adopt", ctypes.c_uint32, [ctypes.POINTER(NiwSystem), ctypes.c_uint16, ctypes.c_uint16, ctypes.c_uint16]
        )
        self.probe: Callable[..., NiwSent] = _bound(
            library, "lagffi_probe", NiwSent, [ctypes.POINTER(NiwSystem), ctypes.c_uint16, ctypes.POINTER(ctypes.c_uint8), ctypes.c_size_t]
        )
        self.offer_in_active_aggregator: Callable[..., NiwNumber] = _bound(
            library, "lagffi_offer_in_active_aggregator", NiwNumber, [ctypes.POINTER(NiwSystem), ctypes.c_uint16, ctypes.c_char_p, ctypes.c_size_t]
        )
        self.offer_conversation_in_active_aggregator: Callable[..., NiwNumber] = _bound(
            library, "lagffi_offer_conversation_in_active_aggregator", NiwNumber, [ctypes.POINTER(NiwSystem), ctypes.c_uint16, ctypes.c_uint16]
        )
        self.ports: Callable[..., NiwNumber] = _bound(
            library, "lagffi_ports", NiwNumber, [ctypes.POINTER(NiwSystem), ctypes.POINTER(ctypes.c_uint16), ctypes.c_size_t]
        )
        self.views: Callable[..., NiwNumber] = _bound(
            library, "lagffi_views", NiwNumber, [ctypes.POINTER(NiwSystem), ctypes.POINTER(NiwView), ctypes.c_size_t]
        )
        self.due: Callable[..., NiwNumber] = _bound(
            library, "lagffi_due", NiwNumber, [ctypes.POINTER(NiwSystem)]
        )
        self.aggregators: Callable[..., NiwNumber] = _bound(
            library, "lagffi_aggregators", NiwNumber, [ctypes.POINTER(NiwSystem)]
        )
        self.load: Callable[..., NiwNumber] = _bound(
            library, "lagffi_load", NiwNumber, [ctypes.POINTER(NiwSystem), ctypes.c_uint16]
        )
        self.held: Callable[..., NiwNumber] = _bound(
            library, "lagffi_held", NiwNumber, [ctypes.POINTER(NiwSystem), ctypes.c_uint16]
        )
        self.answers: Callable[..., NiwNumber] = _bound(
            library, "lagffi_answers", NiwNumber, [ctypes.POINTER(NiwSystem), ctypes.c_uint16]
        )
        self.is_up: Callable[..., NiwTruth] = _bound(
            library, "lagffi_is_up", NiwTruth, [ctypes.POINTER(NiwSystem), ctypes.c_uint16]
        )
        self.state: Callable[..., NiwNumber] = _bound(
            library, "lagffi_state", NiwNumber, [ctypes.POINTER(NiwSystem), ctypes.c_uint16]
        )
        self.receive_state: Callable[..., NiwNumber] = _bound(
            library, "lagffi_receive_state", NiwNumber, [ctypes.POINTER(NiwSystem), ctypes.c_uint16]
        )
        self.is_due: Callable[..., NiwTruth] = _bound(
            library, "lagffi_is_due", NiwTruth, [ctypes.POINTER(NiwSystem), ctypes.c_uint16]
        )
        self.party: Callable[..., NiwActor] = _bound(
            library, "lagffi_party", NiwActor, [ctypes.POINTER(NiwSystem), ctypes.c_uint16]
        )
        self.partner: Callable[..., NiwInfo] = _bound(
            library, "lagffi_partner", NiwInfo, [ctypes.POINTER(NiwSystem), ctypes.c_uint16]
        )
        self.group: Callable[..., NiwGroupId] = _bound(
            library, "lagffi_group", NiwGroupId, [ctypes.POINTER(NiwSystem), ctypes.c_uint16]
        )
        self.defaulted: Callable[..., NiwTruth] = _bound(
            library, "lagffi_defaulted", NiwTruth, [ctypes.POINTER(NiwSystem), ctypes.c_uint16]
        )
        self.distributes: Callable[..., NiwTruth] = _bound(
            library, "lagffi_distributes", NiwTruth, [ctypes.POINTER(NiwSystem), ctypes.c_uint16]
        )
        self.choice: Callable[..., NiwNumber] = _bound(
            library, "lagffi_choice", NiwNumber, [ctypes.POINTER(NiwSystem), ctypes.c_uint16]
        )
        self.is_standby: Callable[..., NiwTruth] = _bound(
            library, "lagffi_is_standby", NiwTruth, [ctypes.POINTER(NiwSystem), ctypes.c_uint16]
        )
        self.mux_state: Callable[..., NiwNumber] = _bound(
            library, "lagffi_mux_state", NiwNumber, [ctypes.POINTER(NiwSystem), ctypes.c_uint16]
        )
        self.port_status: Callable[..., NiwNumber] = _bound(
            library, "lagffi_port_status", NiwNumber, [ctypes.POINTER(NiwSystem), ctypes.c_uint16]
        )
        self.current_while: Callable[..., NiwNumber] = _bound(
            library, "lagffi_current_while", NiwNumber, [ctypes.POINTER(NiwSystem), ctypes.c_uint16]
        )
        self.wait_while: Callable[..., NiwNumber] = _bound(
            library, "lagffi_wait_while", NiwNumber, [ctypes.POINTER(NiwSystem), ctypes.c_uint16]
        )
        self.ntt: Callable[..., NiwTruth] = _bound(
            library, "lagffi_ntt", NiwTruth, [ctypes.POINTER(NiwSystem), ctypes.c_uint16]
        )
        self.distributing: Callable[..., NiwNumber] = _bound(
            library, "lagffi_distributing", NiwNumber, [ctypes.POINTER(NiwSystem), ctypes.c_uint16, ctypes.POINTER(ctypes.c_uint16), ctypes.c_size_t]
        )
        self.resume: Callable[..., NiwMade] = _bound(
            library, "lagffi_resume", NiwMade, [ctypes.POINTER(NiwSystem), ctypes.POINTER(NiwConfig), ctypes.POINTER(ctypes.c_uint16), ctypes.c_size_t, ctypes.POINTER(NiwPort), ctypes.c_size_t, ctypes.POINTER(NiwSaved), ctypes.c_size_t]
        )
        self.hold: Callable[..., int] = _bound(
            library, "lagffi_hold", ctypes.c_uint32, [ctypes.POINTER(NiwSystem), ctypes.c_uint16, ctypes.c_bool]
        )
        self.set_mode: Callable[..., int] = _bound(
            library, "lagffi_set_mode", ctypes.c_uint32, [ctypes.POINTER(NiwSystem), ctypes.c_uint16, ctypes.c_bool, ctypes.c_bool]
        )
        self.set_max_delay: Callable[..., int] = _bound(
            library, "lagffi_set_max_delay", ctypes.c_uint32, [ctypes.POINTER(NiwSystem), ctypes.c_uint16]
        )
        self.set_max_links: Callable[..., int] = _bound(
            library, "lagffi_set_max_links", ctypes.c_uint32, [ctypes.POINTER(NiwSystem), ctypes.c_uint16]
        )
        self.set_in_use: Callable[..., int] = _bound(
            library, "lagffi_set_in_use", ctypes.c_uint32, [ctypes.POINTER(NiwSystem), ctypes.c_uint16, ctypes.c_bool]
        )
        self.active_aggregator: Callable[..., NiwNumber] = _bound(
            library, "lagffi_active_aggregator", NiwNumber, [ctypes.POINTER(NiwSystem), ctypes.c_uint16]
        )
        self.conversation: Callable[..., NiwNumber] = _bound(
            library, "lagffi_conversation", NiwNumber, [ctypes.POINTER(NiwSystem), ctypes.c_char_p, ctypes.c_size_t]
        )
        self.conversation_state: Callable[..., NiwAssignment] = _bound(
            library, "lagffi_conversation_state", NiwAssignment, [ctypes.POINTER(NiwSystem), ctypes.c_uint16, ctypes.c_uint16]
        )
        self.conversation_ports: Callable[..., NiwNumber] = _bound(
            library, "lagffi_conversation_ports", NiwNumber, [ctypes.POINTER(NiwSystem), ctypes.c_uint16, ctypes.POINTER(ctypes.c_uint16), ctypes.c_size_t, ctypes.POINTER(ctypes.c_bool), ctypes.c_size_t]
        )
        self.released: Callable[..., NiwNumber] = _bound(
            library, "lagffi_released", NiwNumber, [ctypes.POINTER(NiwSystem), ctypes.c_uint16, ctypes.POINTER(ctypes.c_bool), ctypes.c_size_t, ctypes.POINTER(ctypes.c_bool), ctypes.c_size_t]
        )
        self.next_marker: Callable[..., NiwMarker] = _bound(
            library, "lagffi_next_marker", NiwMarker, [ctypes.POINTER(NiwSystem)]
        )
        self.ticks_until_due: Callable[..., NiwWait] = _bound(
            library, "lagffi_ticks_until_due", NiwWait, [ctypes.POINTER(NiwSystem)]
        )
        self.decode: Callable[..., NiwDecoded] = _bound(
            library, "lagffi_decode", NiwDecoded, [ctypes.c_char_p, ctypes.c_size_t, ctypes.POINTER(NiwPdu)]
        )
        self.encode: Callable[..., int] = _bound(
            library, "lagffi_encode", ctypes.c_uint32, [ctypes.POINTER(NiwPdu), ctypes.POINTER(ctypes.c_uint8), ctypes.c_size_t]
        )
        self.next_move: Callable[..., NiwMove] = _bound(
            library, "lagffi_next_move", NiwMove, [ctypes.POINTER(ctypes.c_uint16), ctypes.c_size_t, ctypes.POINTER(NiwCarried), ctypes.c_size_t]
        )
        self.churn_tick: Callable[..., int] = _bound(
            library, "lagffi_churn_tick", ctypes.c_uint32, [ctypes.POINTER(NiwChurn), ctypes.c_bool, ctypes.c_uint8, ctypes.c_uint8]
        )
        self.count_received: Callable[..., int] = _bound(
            library, "lagffi_count_received", ctypes.c_uint32, [ctypes.POINTER(NiwCounters), ctypes.c_char_p, ctypes.c_size_t, ctypes.c_uint32]
        )
        self.count_sent: Callable[..., int] = _bound(
            library, "lagffi_count_sent", ctypes.c_uint32, [ctypes.POINTER(NiwCounters), ctypes.c_char_p, ctypes.c_size_t]
        )
        self.queue_new: Callable[..., int] = _bound(
            library, "lagffi_queue_new", ctypes.c_uint32, [ctypes.POINTER(NiwQueue), ctypes.c_uint16, ctypes.c_size_t, ctypes.c_size_t]
        )
        self.queue_free: Callable[..., int] = _bound(
            library, "lagffi_queue_free", ctypes.c_uint32, [ctypes.POINTER(NiwQueue)]
        )
        self.queue_put: Callable[..., int] = _bound(
            library, "lagffi_queue_put", ctypes.c_uint32, [ctypes.POINTER(NiwQueue), ctypes.c_uint16, ctypes.c_uint64]
        )
        self.queue_next: Callable[..., NiwQueued] = _bound(
            library, "lagffi_queue_next", NiwQueued, [ctypes.POINTER(NiwQueue), ctypes.c_uint16]
        )
        self.queue_drop: Callable[..., NiwQueued] = _bound(
            library, "lagffi_queue_drop", NiwQueued, [ctypes.POINTER(NiwQueue), ctypes.c_uint16]
        )
        self.queue_oldest: Callable[..., NiwQueued] = _bound(
            library, "lagffi_queue_oldest", NiwQueued, [ctypes.POINTER(NiwQueue), ctypes.c_uint16]
        )
        self.queue_next_released: Callable[..., NiwQueued] = _bound(
            library, "lagffi_queue_next_released", NiwQueued, [ctypes.POINTER(NiwQueue), ctypes.POINTER(ctypes.c_uint16), ctypes.c_size_t]
        )
        self.queue_waiting: Callable[..., NiwNumber] = _bound(
            library, "lagffi_queue_waiting", NiwNumber, [ctypes.POINTER(NiwQueue), ctypes.c_uint16]
        )
        self.queue_counts: Callable[..., NiwCounts] = _bound(
            library, "lagffi_queue_counts", NiwCounts, [ctypes.POINTER(NiwQueue)]
        )


STATUS_TEXTS: Final = (
    "done",
    "the system has no port of this number",
    "the system has no such aggregator",
    "an offered frame has not 14 to 1518 octets",
    "an offered frame is one of the slow protocols",
    "the conversation is Wanted or Flushing",
    "the conversation is free, and no port distributes in the aggregator",
    "the port to move to does not distribute in the aggregator",
    "the port to move to is the one that the conversation is on",
    "the conversation is free, or there is no such conversation",
    "no marker identifier is left",
    "the configuration is refused",
    "out of memory",
    "the handle holds no system",
    "the handle holds a system already",
    "a buffer has less room than the function asks",
    "a pointer is null",
    "the payload is refused",
    "it is neither an LACPDU nor a Marker PDU",
    "the handle holds no queues",
    "the handle holds queues already",
    "as many frames of the conversation wait as may",
    "as many frames wait as may in all",
    "the LACPDU that was saved of a port is as old as its timeout",
    "an aggregator has more links than this limit",
    "more than 65535 ticks in one call",
)
REASON_TEXTS: Final = (
    "unknown",
    "the configuration has not 1 to 64 ports",
    "the configuration has not 1 to 64 aggregators",
    "a port has the number 0 or one that is not above the number before it",
    "the limit of links of an aggregator is above 64",
    "the configuration has not 1, 256 or 4096 conversations",
    "the distribution algorithm is not 0 to 2",
)
PORT_STATUS_TEXTS: Final = (
    "it distributes",
    "the link is down",
    "no LACPDU came in time",
    "it runs on defaults",
    "the partner is this very system",
    "no aggregator has its key, or each that has it has ports of another group",
    "its aggregator has no room for one more link",
    "it waits for wait_while",
    "it waits for other ports of its aggregator",
    "the partner is not synchronized",
    "the host holds it",
)
RECEIVE_STATE_TEXTS: Final = (
    "INITIALIZE",
    "PORT_DISABLED",
    "EXPIRED",
    "DEFAULTED",
    "CURRENT",
)
MUX_STATE_TEXTS: Final = (
    "DETACHED",
    "WAITING",
    "ATTACHED",
    "COLLECTING_DISTRIBUTING",
)
CHURN_STATE_TEXTS: Final = (
    "CHURN_MONITOR",
    "NO_CHURN",
    "CHURN",
)
STATE_NAMES: Final = (
    "ACTIVITY",
    "TIMEOUT",
    "AGGREGATION",
    "SYNCHRONIZATION",
    "COLLECTING",
    "DISTRIBUTING",
    "DEFAULTED",
    "EXPIRED",
)
