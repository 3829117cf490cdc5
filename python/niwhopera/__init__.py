"""LACP and the Marker protocol (IEEE 802.1AX-2014, 6.2 to 6.5): one system, and payloads, over the C library liblag.so.0.

Octets and ticks go in, frames come out. A system has no clock, no socket and no thread: its caller hands it each frame that comes,
calls `tick` each 100 ms, and after each call sends what `due` and `transmit`, or `transmissions`, give.

    from niwhopera import Config, Mac, PortConfig, System, SystemId

    mac = Mac("02:00:00:00:00:01")
    config = Config(SystemId(32768, mac), (PortConfig(number=1, key=1, mac=mac),), aggregators=(1,))
    with System(config) as system:
        system.set_link(1, True)
        system.tick(10)
        for port, sent in system.transmissions():
            print(port, sent.kind.name, sent.frame.hex())
"""

from ._numbers import (
    FEW_CONVERSATIONS,
    FRAME,
    LONGEST_FRAME,
    MANY_CONVERSATIONS,
    MOST_CONVERSATIONS,
    MOST_PORTS,
    PAYLOAD_LENGTH,
    PORT_STATUS_TEXTS,
    SHORTEST_FRAME,
    TICK_MILLISECONDS,
    VERSION_TEXT,
    Algorithm,
    Answers,
    ChurnState,
    ConversationState,
    MarkerKind,
    MuxState,
    PortStatus,
    Reason,
    ReceivedKind,
    ReceiveState,
    SentKind,
    State,
    Status,
    WireFault,
)
from .errors import BadConfig, BadPayload, Closed, Full, Held, LagError, NoMemory, NotResumed
from .frames import HeldFrames, Released
from .moves import next_move
from .observers import Churn, ChurnMachine, Counters, PortCounts
from .payloads import Lacpdu, Marker, Pdu, control_frame, decode, encode
from .system import System
from .values import (
    Assignment,
    Carried,
    Config,
    End,
    FrameCounts,
    Group,
    Info,
    Mac,
    Move,
    Party,
    PortConfig,
    PortId,
    Received,
    SavedPort,
    Sent,
    SystemId,
    View,
)

__version__ = VERSION_TEXT
__all__ = [
    "FEW_CONVERSATIONS",
    "FRAME",
    "LONGEST_FRAME",
    "MANY_CONVERSATIONS",
    "MOST_CONVERSATIONS",
    "MOST_PORTS",
    "PAYLOAD_LENGTH",
    "PORT_STATUS_TEXTS",
    "SHORTEST_FRAME",
    "TICK_MILLISECONDS",
    "Algorithm",
    "Answers",
    "Assignment",
    "BadConfig",
    "BadPayload",
    "Carried",
    "Churn",
    "ChurnMachine",
    "ChurnState",
    "Closed",
    "Config",
    "ConversationState",
    "Counters",
    "End",
    "FrameCounts",
    "Full",
    "Group",
    "Held",
    "HeldFrames",
    "Info",
    "Lacpdu",
    "LagError",
    "Mac",
    "Marker",
    "MarkerKind",
    "Move",
    "MuxState",
    "NoMemory",
    "NotResumed",
    "Party",
    "Pdu",
    "PortConfig",
    "PortCounts",
    "PortId",
    "PortStatus",
    "Reason",
    "ReceiveState",
    "Received",
    "ReceivedKind",
    "Released",
    "SavedPort",
    "Sent",
    "SentKind",
    "State",
    "Status",
    "System",
    "SystemId",
    "View",
    "WireFault",
    "control_frame",
    "decode",
    "encode",
    "next_move",
]
