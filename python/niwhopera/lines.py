"""One system behind lines of text: each line of standard input is a request, and gets one line on standard output at once.

    $ printf 'system 1 020000000001 0 1 7 1:128:020000000001:7:1:1:1\\nlink 1 up\\nport-status 1\\n' | python3 -m niwhopera.lines
    ok
    ok
    port 1: status no-lacpdu

docs/COMMAND.md has the words of each request, and the answers. The distribution algorithm is the conversation number modulo the
count of ports.
"""

from __future__ import annotations

import os
import signal
import sys
from functools import partial
from textwrap import fill
from typing import Any, BinaryIO, Callable, Iterable, Iterator, NamedTuple, Optional

from ._library import functions, library_text
from ._line_words import Fault, flag, hexadecimal, kind, link, long_number, mac, number, numbers, ticks
from ._numbers import SHORTEST_FRAME, VERSION_TEXT, ConversationState, PortStatus, ReceivedKind, SentKind, State, Status, WireFault
from .errors import BadConfig, BadPayload, LagError
from .moves import next_move
from .payloads import decode
from .system import System
from .values import Carried, Config, Info, PortConfig, SystemId

_NAME = "niwhopera.lines"
# The most octets of a line before its newline, a carriage return counted.
LONGEST_LINE = 65536
# A limit of links that is refused as 0 is: `Config` has none of 0.
_REFUSED_LIMIT = 0xFFFF
_BITS = ("active", "short", "aggregatable", "synchronized", "collecting", "distributing", "defaulted", "expired")

# What tells the answer of a system to a request, and what reads the word at a place of a line.
Teller = Callable[..., str]
Reader = Callable[[int, str], Any]


class Request(NamedTuple):
    """How a request is read and done: a reader of each word behind its name, of which the last may be left out, and what tells the
    answer. What `is_kept` is kept for `drive` while calls are kept."""

    readers: tuple[Reader, ...]
    tell: Teller
    may_lack_one: bool = False
    is_kept: bool = False


# Texts.


def _name(it: Any) -> str:
    """The name of a member of an enum, as lines have it."""
    return str(it.name).lower().replace("_", "-")


def _truth(it: bool) -> str:
    return "true" if it else "false"


def _listed(items: Iterable[object]) -> str:
    """Items with a space before each, or `none`."""
    return "".join(f" {it}" for it in items) or " none"


def _or_none(it: Optional[int]) -> str:
    return "none" if it is None else str(it)


def _state(it: State) -> str:
    return f"{int(it):02x} " + (",".join(word for bit, word in enumerate(_BITS) if it >> bit & 1) or "none")


def _partner(it: Info) -> str:
    return f"{it.system} key {it.key} port {it.port} state {_state(it.state)}"


def _refused(why: LagError) -> str:
    text = f"refused {int(why.status)} {_name(why.status)}"
    if isinstance(why, BadConfig):
        text += f" {_name(why.reason)}" + (f" {why.place}" if why.place else "")
    return text


def _ignored(payload: bytes) -> str:
    """Why a payload is ignored. A system tells the fault alone, and `decode` its place too."""
    try:
        decode(payload)
    except BadPayload as why:
        words = {
            WireFault.SHORT: f"short have {why.at}",
            WireFault.OTHER_SUBTYPE: f"subtype {why.found}",
            WireFault.BAD_LENGTH: f"length at {why.at} found {why.found}",
            WireFault.MARKER_TLV: f"marker-tlv {why.found}",
        }
        return f"ignored {int(why.fault)} {words[why.fault]}"
    raise AssertionError("a system ignores a payload that can be decoded")


# Calls.


def _done(call: Callable[..., None]) -> Teller:
    """Makes a call that answers nothing."""

    def text(system: System, *values: Any) -> str:
        call(system, *values)
        return "ok"

    return text


def _offered(call: Callable[..., int]) -> Teller:
    """Makes a call that answers a port."""
    return lambda system, *values: f"port {call(system, *values)}"


def _sent(call: Callable[..., Any]) -> Teller:
    """Makes a call that answers a frame, or none."""

    def text(system: System, port: int) -> str:
        sent = call(system, port)
        return "nothing" if sent is None else f"{'lacpdu' if sent.kind is SentKind.LACPDU else 'marker'} {sent.frame.hex()}"

    return text


def _receive(system: System, port: int, frame: bytes) -> str:
    got = system.receive(port, frame)
    if got.kind is ReceivedKind.IGNORED:
        return _ignored(frame[SHORTEST_FRAME:])
    words = {
        ReceivedKind.TOOK_LACPDU: "took",
        ReceivedKind.RESPOND: f"respond {(got.response or b'').hex()}",
        ReceivedKind.RELEASED: f"released {got.released}",
        ReceivedKind.HANDED_UP: f"up {got.aggregator}",
    }
    return words.get(got.kind) or _name(got.kind)


def _configure(system: System, port: int, key: int, priority: int, aggregatable: bool) -> str:
    return "ok" if system.configure(port, key=key, priority=priority, aggregatable=aggregatable) else "unchanged"


# Readers.


def _of_port(tell: Teller) -> Teller:
    """Tells what a reader tells of a port, or `none` where there is no such port."""
    return lambda system, port: f"port {port}: {tell(system, port) if port in system.ports() else 'none'}"


def _look(system: System, port: int) -> str:
    own, choice = system.party(port), system.choice(port)
    chosen = "unselected" if choice is None else f"{'standby' if system.is_standby(port) else 'selected'} {choice}"
    return (
        f"party {own.system} key {own.key} port {own.port} {'aggregatable' if own.aggregatable else 'individual'}; "
        f"partner {_partner(system.partner(port))}; group {system.group(port)}; defaulted {_truth(system.defaulted(port))}; "
        f"distributes {_truth(system.distributes(port))}; {chosen}; mux {_name(system.mux_state(port))}"
    )


def _status(system: System, port: int) -> str:
    status = system.port_status(port)
    more = {PortStatus.STANDBY: system.choice, PortStatus.WAITING: system.wait_while}.get(status)
    return f"status {_name(status)}" + (f" {more(port)}" if more else "")


def _distributing(system: System, aggregator: int) -> str:
    return f"aggregator {aggregator}:{_listed(system.distributing(aggregator))}"


def _all(system: System) -> str:
    ports = [_PORT_READERS["look"](system, port) for port in system.ports()]
    return " | ".join([*ports, *(_distributing(system, it) for it in range(1, system.aggregators() + 1))])


def _conversation(system: System, frame: bytes) -> str:
    return str(system.conversation(frame)) if len(frame) >= SHORTEST_FRAME else "none"


def _conversation_state(system: System, aggregator: int, conversation: int) -> str:
    try:
        it = system.conversation_state(aggregator, conversation)
    except LagError as why:
        if why.status in (Status.NO_AGGREGATOR, Status.NOT_ASSIGNED):
            return "none"
        raise
    text = _name(it.state) + (f" {it.port}" if it.port else "")
    text += f" id {it.marker} age {it.age}" if it.state is ConversationState.FLUSHING else ""
    return text + (f" preferred {it.preferred}" if it.preferred is not None else "")


def _conversation_ports(system: System, aggregator: int) -> str:
    ports = enumerate(system.conversation_ports(aggregator))
    return f"aggregator {aggregator}:{_listed(f'{conversation}:{port}' for conversation, port in ports if port)}"


def _released(system: System, aggregator: int, listed: list[int]) -> str:
    busy = [it for it in listed if it < system.config.conversations]
    return f"aggregator {aggregator}:{_listed(sorted(system.released(aggregator, busy)[1]))}"


def _next_move(system: System, aggregator: int, loads: Optional[list[int]] = None) -> str:
    ports = system.conversation_ports(aggregator)
    given = [1] * len(ports) if loads is None else [*loads, *[0] * len(ports)]
    move = next_move(system.distributing(aggregator), map(Carried, ports, given))
    return f"next-move {aggregator} {f'{move.conversation} {move.port}' if move else 'none'}"


# Requests.

_PORT_READERS: dict[str, Teller] = {
    "look": _of_port(_look),
    "up": _of_port(lambda system, port: f"up {_truth(system.is_up(port))}"),
    "state": _of_port(lambda system, port: f"state {_state(system.state(port))}"),
    "receive-state": _of_port(lambda system, port: f"receive-state {_name(system.receive_state(port))}"),
    "due": _of_port(lambda system, port: f"due {_truth(system.is_due(port))}"),
    "load": _of_port(lambda system, port: f"load {system.load(port)}"),
    "held": _of_port(lambda system, port: f"held {system.held(port)}"),
    "port-status": _of_port(_status),
    "current-while": _of_port(lambda system, port: f"current-while {system.current_while(port)}"),
    "wait-while": _of_port(lambda system, port: f"wait-while {system.wait_while(port)}"),
    "ntt": _of_port(lambda system, port: f"ntt {_truth(system.ntt(port))}"),
    "answers": _of_port(lambda system, port: f"answers {_name(system.answers(port))}"),
}
_CONVERSATION = (number, number)
_FRAME = (number, hexadecimal)
CALLS: dict[str, Request] = {
    "restart": Request((), _done(System.restart), is_kept=True),
    "link": Request((number, link), _done(System.set_link), is_kept=True),
    "receive": Request(_FRAME, _receive, is_kept=True),
    "transmit": Request((number,), _sent(System.transmit), is_kept=True),
    "offer": Request(_FRAME, _offered(System.offer), is_kept=True),
    "offer-conversation": Request(_CONVERSATION, _offered(System.offer_conversation)),
    "offer-in-active-aggregator": Request(_FRAME, _offered(System.offer_in_active_aggregator)),
    "offer-conversation-in-active-aggregator": Request(_CONVERSATION, _offered(System.offer_conversation_in_active_aggregator)),
    "move": Request((number, number, number), _done(System.move_conversation), is_kept=True),
    "leave": Request(_CONVERSATION, _done(System.leave_conversation)),
    "rest": Request(_CONVERSATION, _done(System.rest)),
    "force": Request(_CONVERSATION, _done(System.force), is_kept=True),
    "force-port": Request((number,), lambda system, port: f"forced {system.force_port(port)}"),
    "probe": Request((number,), _sent(System.probe)),
    "configure": Request((number, number, number, kind), _configure, is_kept=True),
}
READERS: dict[str, Request] = {
    **{name: Request((number,), tell) for name, tell in _PORT_READERS.items()},
    "ports": Request((), lambda system: f"ports:{_listed(system.ports())}"),
    "aggregators": Request((), lambda system: f"aggregators: {system.aggregators()}"),
    "distributing": Request((number,), _distributing),
    "active-aggregator": Request((number,), lambda system, now: f"active-aggregator {_or_none(system.active_aggregator(now))}"),
    "next-move": Request((number, numbers), _next_move, may_lack_one=True),
    "conversation": Request((hexadecimal,), _conversation),
    "conversation-ports": Request((number,), _conversation_ports),
    "conversation-state": Request(_CONVERSATION, _conversation_state),
    "released": Request((number, numbers), _released),
    "next-marker": Request((), lambda system: _or_none(system.next_marker())),
    "ticks-until-due": Request((), lambda system: _or_none(system.ticks_until_due())),
    "all": Request((), _all),
}
_TICK = Request((ticks,), _done(System.tick), may_lack_one=True, is_kept=True)
_ALONE = Request((), str)


def _values(request: Request, words: list[str]) -> list[Any]:
    """The values of the words behind the name of a request."""
    if not len(request.readers) - request.may_lack_one <= len(words) <= len(request.readers):
        raise Fault("count")
    return [read(place, word) for place, (read, word) in enumerate(zip(request.readers, words), 2)]


def _port(place: int, word: str) -> PortConfig:
    parts = word.split(":")
    if len(parts) != 7:
        raise Fault("count", place)
    readers: tuple[Reader, ...] = (number, number, mac, number, flag, flag, flag)
    its_number, priority, address, key, aggregatable, active, short = (read(place, part) for read, part in zip(readers, parts))
    return PortConfig(its_number, key, address, priority, aggregatable, active, short)


def _config(words: list[str]) -> Config:
    """The configuration of a new system."""
    if len(words) < 5:
        raise Fault("count")
    readers: tuple[Reader, ...] = (number, mac, number, long_number, numbers)
    priority, address, max_delay, marker, keys = (read(place, word) for place, (read, word) in enumerate(zip(readers, words), 2))
    given, at = {}, 5
    for name in ("max-links", "conversations"):
        if words[at : at + 1] == [name] and len(words) > at + 1:
            given[name] = number(at + 3, words[at + 1])
            at += 2
    ports = tuple(_port(place, word) for place, word in enumerate(words[at:], at + 2))
    max_links = given.get("max-links")
    limit = _REFUSED_LIMIT if max_links == 0 else max_links
    return Config(SystemId(priority, address), ports, tuple(keys), max_delay, marker, given.get("conversations", 256), limit)


class Lines:
    """A system that is used through lines: `answer` does what a line asks for. Before the line `system` there is no system."""

    def __init__(self) -> None:
        self._system: Optional[System] = None
        self._kept: Optional[list[Callable[[], str]]] = None

    def close(self) -> None:
        """Gives the memory of the system back."""
        if self._system is not None:
            self._system.close()

    def answer(self, line: bytes) -> str:
        """The answer to a line, which is given without its newline. A line that is no request has changed nothing."""
        try:
            return self._answer(_words(line))
        except Fault as why:
            return f"fault {why}"
        except LagError as why:
            return _refused(why)
        except MemoryError:
            return "fault no-memory"

    def _answer(self, words: list[str]) -> str:
        name, *rest = words
        if name == "system":
            return self._make(_config(rest))
        if name == "tick":
            return self._tick(*_values(_TICK, rest))
        if name in ("keep", "drive"):
            _values(_ALONE, rest)
            return self._keep() if name == "keep" else self._drive()
        request = CALLS.get(name) or READERS.get(name)
        if request is None:
            raise Fault("word")
        return self._do(request, _values(request, rest))

    def _make(self, config: Config) -> str:
        made = System(config)
        self.close()
        self._system, self._kept = made, None
        return "ok"

    def _present(self) -> System:
        if self._system is None:
            raise Fault("no-system")
        return self._system

    def _do(self, request: Request, values: list[Any], times: int = 1) -> str:
        """Tells the answer of the system; while calls are kept, keeps the call, so many times."""
        call = partial(request.tell, self._present(), *values)
        if self._kept is None or not request.is_kept:
            return call()
        self._kept += [call] * times
        return "kept"

    def _tick(self, count: int = 1) -> str:
        return self._do(_TICK, [count]) if self._kept is None else self._do(_TICK, [], count)

    def _keep(self) -> str:
        self._present()
        self._kept = self._kept or []
        return "ok"

    def _drive(self) -> str:
        self._present()
        if self._kept is None:
            raise Fault("not-keeping")
        calls, self._kept = self._kept, None
        return "".join(f"{_told(call)};" for call in calls)


def _told(call: Callable[[], str]) -> str:
    try:
        return call()
    except LagError as why:
        return _refused(why)


def _words(line: bytes) -> list[str]:
    """The words of a line: each single space ends one."""
    if len(line) > LONGEST_LINE:
        raise Fault("too-long")
    try:
        return (line[:-1] if line.endswith(b"\r") else line).decode().split(" ")
    except UnicodeDecodeError:
        raise Fault("not-text") from None


def lines_of(source: BinaryIO) -> Iterator[bytes]:
    """The lines of a stream without their newlines; of one that is too long, its first octets."""
    while line := source.readline(LONGEST_LINE + 1):
        rest = line
        while not rest.endswith(b"\n") and (rest := source.readline(LONGEST_LINE + 1)):
            pass
        yield line[:-1] if line.endswith(b"\n") else line


def _help() -> str:
    calls = ", ".join(["system", "tick [N]", *CALLS, "keep", "drive"])
    return f"""\
One end of a link aggregation (IEEE 802.1AX-2014) behind lines of text: each line of standard input is
a request, and each is answered by one line on standard output, at once.

Usage: python3 -m {_NAME}

Options:
  -h, --help     Print help
  -V, --version  Print version

{fill(f"Calls: {calls}.", 103, break_on_hyphens=False)}
{fill(f"Readers: {', '.join(READERS)}.", 103, break_on_hyphens=False)}
docs/COMMAND.md has the words of each, and the answers.

Status 0: the input ended. Status 2: it could not be read, an answer could not be written, or there is
no such word of the command line; standard error says why.
"""


def _version() -> str:
    return f"{_NAME} {VERSION_TEXT}\n{library_text()}\n"


class Stopped(Exception):
    """Why the program stops before its input ends."""


def _read(lines: Iterator[bytes]) -> Iterator[bytes]:
    try:
        yield from lines
    except OSError:
        raise Stopped("cannot read") from None
    except MemoryError:
        raise Stopped("out of memory") from None


def _write(sink: BinaryIO, text: str) -> None:
    try:
        sink.write(text.encode())
        sink.flush()
    except OSError:
        raise Stopped("cannot write") from None


def serve(source: BinaryIO, sink: BinaryIO) -> None:
    """Answers each line of a stream with one line, and flushes each answer before the next line is read; raises `Stopped`."""
    engine = Lines()
    try:
        for line in _read(lines_of(source)):
            _write(sink, engine.answer(line) + "\n")
    finally:
        engine.close()


def _run(words: list[str]) -> None:
    """Does what the words of the command line ask for: the first one decides."""
    texts = {"--help": _help, "-h": _help, "--version": _version, "-V": _version}
    # Python has no stream where the file was closed before it began.
    if sys.stdout is None:
        raise Stopped("cannot write")
    if not words:
        if sys.stdin is None:
            raise Stopped("cannot read")
        functions()
        serve(sys.stdin.buffer, sys.stdout.buffer)
    elif words[0] in texts:
        _write(sys.stdout.buffer, texts[words[0]]())
    else:
        raise Stopped(f'no such word: "{words[0]}"')


def main(words: list[str]) -> int:
    """Does what the words of the command line ask for; answers the exit status."""
    try:
        _run(words)
    except (ImportError, Stopped) as why:
        print(f"{_NAME}: {why}", file=sys.stderr)
        # What could not be written is not tried once more when Python ends.
        os.dup2(os.open(os.devnull, os.O_WRONLY), 1)
        return 2
    return 0


if __name__ == "__main__":
    signal.signal(signal.SIGINT, signal.SIG_DFL)
    sys.exit(main(sys.argv[1:]))
