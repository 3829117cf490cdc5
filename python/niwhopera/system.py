"""One system: its calls and its readers, over the C library."""

from __future__ import annotations

import ctypes
from typing import Any, Callable, Iterable, Iterator, Optional, Union

from . import _numbers as c
from ._handle import Handle
from ._numbers import Answers, ConversationState, MuxState, PortStatus, Reason, ReceivedKind, ReceiveState, SentKind, State, Status, WireFault
from .errors import BadConfig, NotResumed, check
from .values import Assignment, Config, End, Group, Info, Mac, Party, PortId, Received, SavedPort, Sent, SystemId, View, limit, within

Octets = Union[bytes, bytearray, memoryview]


def _system(priority: int, mac: Any) -> SystemId:
    return SystemId(priority, Mac(bytes(mac)))


def _end(end: c.NiwEnd) -> End:
    port = PortId(end.port_priority, end.port) if end.individual else None
    return End(_system(end.system_priority, end.system_mac), end.key, port)


def _view(it: c.NiwView) -> View:
    system = _system(it.partner_priority, it.partner_mac)
    partner = Info(system, it.partner_key, PortId(it.partner_port_priority, it.partner_port), State(it.partner_state))
    return View(
        port=it.port,
        aggregator=it.aggregator or None,
        up=it.up,
        standby=it.standby,
        defaulted=it.defaulted,
        state=State(it.state),
        receive_state=ReceiveState(it.receive_state),
        mux_state=MuxState(it.mux_state),
        port_status=PortStatus(it.port_status),
        partner=partner,
    )


class System(Handle):
    """One end of Link Aggregation: its ports, aggregators and conversations.

    It is made with all links down. Ports go by their numbers, aggregators from 1. A call that raises `LagError` has changed nothing:
    NO_PORT where there is no such port, NO_AGGREGATOR where there is no such aggregator, and what each call says besides. A number
    that has no room in its type of C raises ValueError. `close`, or the end of a `with`, gives its memory back; what is called
    then raises `Closed`. Only the thread that made a system calls it; another one gets RuntimeError.
    """

    def __init__(self, config: Config) -> None:
        """Makes a system of a configuration; raises `BadConfig` where it is refused, and `NoMemory`."""
        super().__init__(c.NiwSystem())
        self._make(config, self._c.new)

    @classmethod
    def resume(cls, config: Config, saved: Iterable[SavedPort]) -> System:
        """A warm start: a system whose saved ports distribute in their aggregators, as their peers know them, and have what is left of
        their timeouts. The first marker of the configuration is `next_marker` of the system before it, or higher. Raises `NotResumed` of the
        port whose LACPDU is as old as the port's timeout, STALE, or that does not come to distribute as it was saved, NOT_DISTRIBUTING;
        `BadConfig`, `NoMemory`."""
        rows = list(saved)
        given = (c.NiwSaved * len(rows))()
        for at, it in zip(given, rows):
            at.port, at.aggregator, at.age, at.frame[:] = it.port, it.aggregator, it.age, it.frame[: c.FRAME]
        system = cls.__new__(cls)
        Handle.__init__(system, c.NiwSystem())
        system._make(config, system._c.resume, given, len(rows))
        return system

    def _make(self, config: Config, call: Callable[..., c.NiwMade], *more: Any) -> None:
        """Puts a system of a configuration into the handle, by a call of the library that takes this and more."""
        self._config = config
        ports = (c.NiwPort * len(config.ports))()
        for at, port in zip(ports, config.ports):
            at.number, at.priority, at.key = port.number, port.priority, port.key
            at.mac[:] = [*port.mac]
            at.aggregatable, at.active, at.short_timeout = port.aggregatable, port.active, port.short_timeout
        keys = (ctypes.c_uint16 * len(config.aggregators))(*config.aggregators)
        made = call(ctypes.byref(self._handle), ctypes.byref(_config(config)), keys, len(keys), ports, len(ports), *more)
        if made.status == Status.BAD_CONFIG:
            raise BadConfig(Reason(made.reason), made.place or None)
        if made.status in (Status.STALE, Status.NOT_DISTRIBUTING):
            raise NotResumed(Status(made.status), made.place)
        check(made.status)

    @property
    def config(self) -> Config:
        """The configuration that it was made of."""
        return self._config

    # Calls.

    def receive(self, port: int, frame: Octets) -> Received:
        """Takes a frame that came on a port: from the destination address on, without FCS. Of control frames hand over those to
        01-80-C2-00-00-02 alone."""
        octets, response = bytes(frame), (ctypes.c_uint8 * c.FRAME)()
        got = self._c.receive(self._at(), _port(port), octets, len(octets), response, len(response))
        check(got.status)
        kind = ReceivedKind(got.what)
        if kind is ReceivedKind.IGNORED:
            return Received(kind, fault=WireFault(got.number))
        if kind is ReceivedKind.RESPOND:
            return Received(kind, response=bytes(response[: got.number]))
        if kind is ReceivedKind.RELEASED:
            return Received(kind, released=got.number)
        return Received(kind, aggregator=got.number if kind is ReceivedKind.HANDED_UP else None)

    def tick(self, count: int = 1) -> None:
        """`count` times 100 ms have passed, with no call between them; 0 to 65535. Send what is due after each, or ask
        `ticks_until_due` how many let no frame wait."""
        check(self._c.ticks(self._at(), within("the count of ticks", count, c.MOST_TICKS)))

    def set_link(self, port: int, up: bool) -> None:
        """The link of a port is up or down now."""
        check(self._c.set_link(self._at(), _port(port), up))

    def configure(self, port: int, *, key: int, priority: int, aggregatable: bool) -> bool:
        """Gives a port another key, priority or Aggregation bit; answers whether anything differs. The port starts anew then."""
        change = c.NiwChange(within("the key", key, 0xFFFF), within("the priority", priority, 0xFFFF), aggregatable)
        return self._truth(self._c.configure(self._at(), _port(port), ctypes.byref(change)))

    def hold(self, port: int, held: bool = True) -> None:
        """Holds a port, or lets it go. A held port is in no aggregator; what is on it leaves behind a marker, and its peer takes it out
        of use, too."""
        check(self._c.hold(self._at(), _port(port), held))

    def set_mode(self, port: int, *, active: bool, short_timeout: bool) -> None:
        """Gives a port LACP_Activity and LACP_Timeout. `restart` goes back to those of the configuration."""
        check(self._c.set_mode(self._at(), _port(port), active, short_timeout))

    def set_max_delay(self, max_delay: int) -> None:
        """Sets CollectorMaxDelay, in tens of microseconds, of the LACPDUs from now on."""
        check(self._c.set_max_delay(self._at(), within("max_delay", max_delay, 0xFFFF)))

    def set_max_links(self, max_links: Optional[int]) -> None:
        """Sets the most links of an aggregator, 1 to 64; None for any number. Raises `BadConfig`; OVER_LIMIT, if an aggregator has more."""
        status = self._c.set_max_links(self._at(), limit(max_links))
        if status == Status.BAD_CONFIG:
            raise BadConfig(Reason.MAX_LINKS, None)
        check(status)

    def set_in_use(self, aggregator: int, in_use: bool = True) -> None:
        """Puts an aggregator in use, or out of use; each is in use at first. Ports of one that is not in use stand by, and attach at once, if
        they have waited 2 s, when it is in use again. Raises NO_AGGREGATOR."""
        check(self._c.set_in_use(self._at(), _aggregator(aggregator), in_use))

    def restart(self) -> None:
        """Starts again as it was made: all links are down, and what `configure` changed is lost."""
        check(self._c.restart(self._at()))

    def transmit(self, port: int) -> Optional[Sent]:
        """A frame that is due on a port, which is to be sent on it, or None. To be called until it answers None."""
        return self._sent(self._c.transmit, port)

    def transmissions(self) -> Iterator[tuple[int, Sent]]:
        """Each frame that is due, with the port to send it on: `transmit` of each port of `due`, until it answers None."""
        for port in self.due():
            while (sent := self.transmit(port)) is not None:
                yield port, sent

    def offer(self, aggregator: int, frame: Octets) -> int:
        """The port to send a data frame of 14 to 1518 octets on: that of its conversation. Raises `Held` while the conversation
        moves; FRAME_LENGTH, SLOW_FRAME, and NONE_DISTRIBUTING where no port of the aggregator distributes."""
        octets = bytes(frame)
        return self._number(self._c.offer(self._at(), _aggregator(aggregator), octets, len(octets)))

    def offer_conversation(self, aggregator: int, conversation: int) -> int:
        """The port to send a frame of a conversation on, whatever its octets: what `offer` answers and does for a frame of it. For a
        host with a hash of its own, which gives each flow one conversation for ever. Raises NOT_ASSIGNED where there is no such
        conversation, `Held` while it moves, and NONE_DISTRIBUTING."""
        return self._number(self._c.offer_conversation(self._at(), _aggregator(aggregator), _conversation(conversation)))

    def leave_conversation(self, aggregator: int, conversation: int) -> None:
        """Takes a conversation off its port, behind a marker, without another port to go to. Raises NOT_ASSIGNED, `Held`,
        MARKERS_SPENT."""
        check(self._c.leave_conversation(self._at(), _aggregator(aggregator), _conversation(conversation)))

    def rest(self, aggregator: int, conversation: int) -> None:
        """Frees a conversation that is on a port, on the host's word that none of its frames is on its way: else they may be
        overtaken. Raises NOT_ASSIGNED, `Held`."""
        check(self._c.rest(self._at(), _aggregator(aggregator), _conversation(conversation)))

    def probe(self, port: int) -> Optional[Sent]:
        """A marker that asks whether the peer of a port answers markers, to be sent on it now; None while the link is down, and where no
        identifier is left."""
        return self._sent(self._c.probe, port)

    def offer_in_active_aggregator(self, aggregator: int, frame: Octets) -> int:
        """What `offer` answers and does in the aggregator that carries. Raises `Held`, before every other refusal, while the conversation
        of the frame is on a port or held in another aggregator: `leave_conversation` takes it off its port there. Where ports
        distribute in several aggregators, offer each frame of the client by this or by `offer_conversation_in_active_aggregator`."""
        octets = bytes(frame)
        return self._number(self._c.offer_in_active_aggregator(self._at(), _aggregator(aggregator), octets, len(octets)))

    def offer_conversation_in_active_aggregator(self, aggregator: int, conversation: int) -> int:
        """What `offer_conversation` answers and does in the aggregator that carries. Raises `Held`, before every other refusal, while the
        conversation is on a port or held in another aggregator."""
        return self._number(self._c.offer_conversation_in_active_aggregator(self._at(), _aggregator(aggregator), _conversation(conversation)))

    def move_conversation(self, aggregator: int, conversation: int, port: int) -> None:
        """Moves a conversation to a port, behind a marker on the port that it is on. Raises `Held`; NOT_DISTRIBUTING, SAME_PORT,
        NOT_ASSIGNED, MARKERS_SPENT."""
        check(self._c.move_conversation(self._at(), _aggregator(aggregator), _conversation(conversation), _port(port)))

    def adopt(self, aggregator: int, conversation: int, port: int) -> None:
        """Puts a conversation on the port on which a data plane has it: after `resume`, before another frame of it is offered. Raises
        `Held`, also where it is on another port; NOT_DISTRIBUTING, NOT_ASSIGNED, MARKERS_SPENT."""
        check(self._c.adopt(self._at(), _aggregator(aggregator), _conversation(conversation), _port(port)))

    def force(self, aggregator: int, conversation: int) -> None:
        """Frees a conversation at once, so that its frames may overtake one another. Raises NOT_ASSIGNED."""
        check(self._c.force(self._at(), _aggregator(aggregator), _conversation(conversation)))

    def force_port(self, port: int) -> int:
        """Frees each conversation that is held on a port, as `force` does; answers how many."""
        return self._number(self._c.force_port(self._at(), _port(port)))

    # Readers of the system.

    def ports(self) -> tuple[int, ...]:
        """The numbers of the ports, ascending."""
        numbers = (ctypes.c_uint16 * c.MOST_PORTS)()
        return tuple(numbers[: self._number(self._c.ports(self._at(), numbers, len(numbers)))])

    def aggregators(self) -> int:
        """How many aggregators there are. They are numbered from 1."""
        return self._number(self._c.aggregators(self._at()))

    def views(self) -> tuple[View, ...]:
        """What there is to show of each port, in the order of their numbers. Equal views show the same."""
        views = (c.NiwView * c.MOST_PORTS)()
        check(self._c.views(self._at(), views, len(views)).status)
        return tuple(_view(it) for it in views[: len(self.ports())])

    def due(self) -> tuple[int, ...]:
        """The ports on which a frame is due, ascending."""
        mask = self._number(self._c.due(self._at()))
        return tuple(port for place, port in enumerate(self.ports()) if mask >> place & 1)

    def next_marker(self) -> Optional[int]:
        """The identifier of the next marker; None where none is left."""
        marker = self._c.next_marker(self._at())
        check(marker.status)
        return marker.id if marker.left else None

    def ticks_until_due(self) -> Optional[int]:
        """In how many ticks something happens by itself, 0 to 900: 0 if a frame is due. None if nothing happens without a call."""
        wait = self._c.ticks_until_due(self._at())
        check(wait.status)
        return wait.ticks if wait.ever else None

    # Readers of a port.

    def is_up(self, port: int) -> bool:
        """Whether the link of a port is up."""
        return self._asked(self._c.is_up, port)

    def is_due(self, port: int) -> bool:
        """Whether `transmit` would answer a frame now."""
        return self._asked(self._c.is_due, port)

    def defaulted(self, port: int) -> bool:
        """Actor_State.Defaulted: whether recordDefault set the recorded partner, and no LACPDU since."""
        return self._asked(self._c.defaulted, port)

    def distributes(self, port: int) -> bool:
        """Whether a port distributes."""
        return self._asked(self._c.distributes, port)

    def is_standby(self, port: int) -> bool:
        """Whether a port is STANDBY: its aggregator had no room for one more link."""
        return self._asked(self._c.is_standby, port)

    def ntt(self, port: int) -> bool:
        """Whether an LACPDU is to be sent on a port. Where three went in the last eleven ticks it is not due yet."""
        return self._asked(self._c.ntt, port)

    def load(self, port: int) -> int:
        """How many conversations are on a port, those that are held among them."""
        return self._counted(self._c.load, port)

    def held(self, port: int) -> int:
        """How many conversations are held on a port, wanted or flushing there."""
        return self._counted(self._c.held, port)

    def answers(self, port: int) -> Answers:
        """Whether the peer of a port answers markers. A marker of `transmit` or `probe` asks it, and the response to the last one answers.
        When the link goes down, and after `restart`, it is as never asked."""
        return Answers(self._counted(self._c.answers, port))

    def state(self, port: int) -> State:
        """The state octet of a port's own side."""
        return State(self._counted(self._c.state, port))

    def receive_state(self, port: int) -> ReceiveState:
        """The state of the receive machine of a port."""
        return ReceiveState(self._counted(self._c.receive_state, port))

    def mux_state(self, port: int) -> MuxState:
        """The state of the mux machine of a port."""
        return MuxState(self._counted(self._c.mux_state, port))

    def port_status(self, port: int) -> PortStatus:
        """Whether a port distributes, and else the first reason why not. PORT_STATUS_TEXTS has it in words."""
        return PortStatus(self._counted(self._c.port_status, port))

    def choice(self, port: int) -> Optional[int]:
        """The aggregator with which a port is SELECTED or STANDBY, or None."""
        return self._counted(self._c.choice, port) or None

    def current_while(self, port: int) -> int:
        """How many ticks current_while of a port has left, 0 to 900."""
        return self._counted(self._c.current_while, port)

    def wait_while(self, port: int) -> int:
        """How many ticks wait_while of a port has left, 0 to 20."""
        return self._counted(self._c.wait_while, port)

    def party(self, port: int) -> Party:
        """The own parameters of a port."""
        it = self._c.party(self._at(), _port(port))
        check(it.status)
        return Party(_system(it.system_priority, it.system_mac), it.key, PortId(it.port_priority, it.port), it.aggregatable)

    def partner(self, port: int) -> Info:
        """The recorded partner of a port."""
        it = self._c.partner(self._at(), _port(port))
        check(it.status)
        return Info(_system(it.system_priority, it.system_mac), it.key, PortId(it.port_priority, it.port), State(it.state))

    def group(self, port: int) -> Group:
        """The Link Aggregation Group of a port."""
        it = self._c.group(self._at(), _port(port))
        check(it.status)
        return Group(_end(it.lower), _end(it.upper))

    # Readers of aggregators and conversations.

    def distributing(self, aggregator: int) -> tuple[int, ...]:
        """The ports that distribute in an aggregator, ascending; none if there is no such aggregator."""
        numbers = (ctypes.c_uint16 * c.MOST_PORTS)()
        return tuple(numbers[: self._number(self._c.distributing(self._at(), _aggregator(aggregator), numbers, len(numbers)))])

    def active_aggregator(self, now: Optional[int] = None) -> Optional[int]:
        """The aggregator that carries the frames of the client, where `now` carried them before; None if no port distributes. One with a
        partner is before one on defaults, and of those the one with the most ports. `now` stays unless another has strictly more;
        of several others it is the one with the least LAG ID, then the lowest number. Ask after each call that may change which
        ports distribute, and give the answer as `now` the next time."""
        return self._number(self._c.active_aggregator(self._at(), _aggregator(now or 0))) or None

    def conversation(self, frame: Octets) -> int:
        """The number of the conversation of a frame of at least 14 octets, the same in every aggregator. Raises FRAME_LENGTH."""
        octets = bytes(frame)
        return self._number(self._c.conversation(self._at(), octets, len(octets)))

    def conversation_state(self, aggregator: int, conversation: int) -> Assignment:
        """What a conversation of an aggregator is doing. Raises NOT_ASSIGNED where there is no such one."""
        it = self._c.conversation_state(self._at(), _aggregator(aggregator), _conversation(conversation))
        check(it.status)
        state, preferred = ConversationState(it.what), it.preferred if it.prefers else None
        if state is ConversationState.FREE:
            return Assignment(state, preferred=preferred)
        if state is ConversationState.FLUSHING:
            return Assignment(state, it.port, preferred, it.id, it.age)
        return Assignment(state, it.port, preferred)

    def conversation_ports(self, aggregator: int) -> tuple[Optional[int], ...]:
        """The port that each conversation of an aggregator is on, by its number; None if it is free or held."""
        ports, changed = (ctypes.c_uint16 * self._config.conversations)(), (ctypes.c_bool * self._config.conversations)()
        self._number(self._c.conversation_ports(self._at(), _aggregator(aggregator), ports, len(ports), changed, len(changed)))
        return tuple(port or None for port in ports)

    def released(self, aggregator: int, busy: Iterable[int] = ()) -> tuple[frozenset[int], frozenset[int]]:
        """What was released. `busy` are the conversations of an aggregator that were on a port or held when the host asked last. Answers
        which are so now, and which of `busy` are free now."""
        were, freed = (ctypes.c_bool * self._config.conversations)(), (ctypes.c_bool * self._config.conversations)()
        for conversation in busy:
            were[within("the number of the conversation", conversation, len(were) - 1)] = True
        self._number(self._c.released(self._at(), _aggregator(aggregator), were, len(were), freed, len(freed)))
        return _true_places(were), _true_places(freed)

    # What the others share.

    def _free(self) -> int:
        return self._c.free(self._at())

    def _sent(self, call: Callable[..., c.NiwSent], port: int) -> Optional[Sent]:
        frame = (ctypes.c_uint8 * c.FRAME)()
        sent = call(self._at(), _port(port), frame, len(frame))
        check(sent.status)
        return Sent(SentKind(sent.what), bytes(frame[: sent.octets])) if sent.is_ else None

    def _truth(self, answer: c.NiwTruth) -> bool:
        check(answer.status)
        return bool(answer.is_)

    def _number(self, answer: c.NiwNumber) -> int:
        check(answer.status)
        return answer.number

    def _asked(self, reader: Callable[..., c.NiwTruth], port: int) -> bool:
        return self._truth(reader(self._at(), _port(port)))

    def _counted(self, reader: Callable[..., c.NiwNumber], port: int) -> int:
        return self._number(reader(self._at(), _port(port)))


def _config(config: Config) -> c.NiwConfig:
    """The configuration but for keys and ports, as C has it."""
    it = c.NiwConfig()
    it.priority, it.max_delay, it.first_marker = config.system.priority, config.max_delay, config.first_marker
    it.mac[:] = [*config.system.mac]
    it.conversations, it.max_links, it.algorithm = config.conversations, limit(config.max_links), config.algorithm
    return it


def _true_places(marks: ctypes.Array[ctypes.c_bool]) -> frozenset[int]:
    return frozenset(place for place, is_marked in enumerate(marks) if is_marked)


def _port(number: int) -> int:
    return within("the number of the port", number, 0xFFFF)


def _aggregator(number: int) -> int:
    return within("the number of the aggregator", number, 0xFFFF)


def _conversation(number: int) -> int:
    return within("the number of the conversation", number, 0xFFFF)
