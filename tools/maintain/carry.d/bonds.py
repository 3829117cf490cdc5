"""Two ends that carry data, cables between them, and flows of numbered frames."""

from __future__ import annotations

import contextlib
import ctypes
import fcntl
import json
import os
import signal
import socket
import struct
import subprocess
import time
from dataclasses import dataclass
from typing import Callable, Iterator, Sequence, TypedDict

from checking import Failed, Skipped, check, command, within
from daemon import OTHER, SYSTEM, Daemon
from lateness import LATE, since, waited
from linking import DAEMON, STRICT, build, build_daemon, sources_of
from repository import CACHE, MAINTAIN, WARNINGS
from spaces import OURS, THEIRS, inside, ip, within_space

MIDDLE = f"lag-middle-{os.getpid()}"
DEVICE = "lag0"
PEERS = os.path.join(CACHE, "niwhopera-peers")
# Of two links, in microseconds.
DELAYS = (0, 20000)
FLIGHT = 300
# How many pairs there are without cables.
DIRECT = 2
FLOWS, RATE = 64, 10000
# Of linux/sockios.h and linux/ethtool.h.
ETHTOOL, GET_GRO, SET_GRO = 0x8946, 0x2B, 0x2C
# How long two ends may take until both links carry.
COMES_UP = 30
COMES_BACK = 12
# What the daemon may do at its start, as lagd/carry.conf gives it.
RIGHTS = ("setpriv", "--bounding-set", "-all,+net_raw,+net_admin,+bpf", "--inh-caps", "-all", "--")
# How long a daemon may take until it has a status.
ANSWERS = 5
# What a run of flows takes beyond the time in which frames are sent.
AFTER = 2.0


@dataclass
class Programs:
    folder: str
    daemon: str
    forcing: str  # a daemon that frees each conversation as soon as it is to move
    old_kernel: str  # one whose kernel has no TCX, and gives a device a carrier as it is opened
    little_memory: str  # one whose kernel has no memory for a packet of several segments that goes up
    without_wait: str  # one whose kernel waits for no program once it has started
    flows: str
    cables: str
    conversations: str  # a program that prints the conversations of frames
    buckets: str        # one that prints the buckets of frames, by the program of the team driver


def build_programs(folder: str, libraries: list[str], words: Sequence[str] = ()) -> Programs:
    """Builds the daemon, one that sends no markers before its moves, and the programs of the cables and flows."""
    here = f"{MAINTAIN}/carry.d"
    forcing = build_daemon(folder, libraries, "lagd-forcing", [f"{here}/forcing.c"], ["-Wl,--wrap=lagffi_move_conversation"])
    wraps = ["-Wl,--wrap=attach_program", "-Wl,--wrap=ioctl"]
    old_kernel = build_daemon(folder, libraries, "lagd-old-kernel", [f"{here}/old_kernel.c"], wraps)
    little_memory = build_daemon(folder, libraries, "lagd-little-memory", [f"{here}/little_memory.c"], ["-Wl,--wrap=writev", *words])
    without_wait = build_daemon(folder, libraries, "lagd-without-wait", [f"{here}/without_wait.c"], ["-Wl,--wrap=syscall"])
    own = {name: build(f"{folder}/{name}", [f"{here}/{name}.c"], [], "-std=c11", *WARNINGS) for name in ("flows", "cables")}
    sources = [f"{here}/conversations.c", *sources_of("hash")]
    hashing = build(f"{folder}/conversations", sources, libraries, *STRICT, "-fsanitize=address,undefined", f"-I{DAEMON}")
    bucket_sources = [f"{here}/buckets.c", *sources_of("team_hash")]
    buckets = build(f"{folder}/buckets", bucket_sources, [], *STRICT, "-fsanitize=address,undefined", f"-I{DAEMON}")
    return Programs(folder, build_daemon(folder, libraries, words=words), forcing, old_kernel, little_memory, without_wait, conversations=hashing,
                    buckets=buckets, **own)


# What a status has of the data that a bundle carries: counts, but for the carrier and the texts.
Carry = TypedDict("Carry", {
    "device": str, "hash": str, "markers": str, "way": str, "carrier": bool, "aggregator": int, "flight": int, "waiting": int, "fast_conversations": int,
    "from_host": int, "unfit": int, "none_carries": int, "queue_full": int, "held_too_long": int, "overflowed": int, "handed_up": int,
    "host_untaken": int, "other_aggregator": int, "held": int, "longest_queue": int, "markers_sent": int, "markers_again": int, "moves": int,
    "rested": int, "forced": int, "switches": int, "woken": int, "segmented": int, "withdrawn": int})  # fmt: skip
# What is read here of a port in a status, and of a status.
Member = TypedDict("Member", {"interface": str, "port": int, "aggregator": int, "status": str, "partner": dict[str, object], "data": dict[str, int]})
Status = TypedDict("Status", {"state": str, "carrying": int, "away": int, "carry": Carry, "ports": list[Member]})


def counted_of_members(told: Status, name: str) -> int:
    """What all members counted of this name, by a status."""
    return sum(port["data"][name] for port in told["ports"])


class End(Daemon):
    """A daemon that carries the data of lag0."""

    sets_up = True  # whether the device is set up as it is started

    def __init__(self, programs: Programs, space: str, *, program: str = "", options: Sequence[str] = (), links: int = 2,
                 before: Sequence[str] = (), names: Sequence[str] = (), files: Sequence[int] = (), file: str | None = None) -> None:
        ours = space == OURS
        names = names or [f"{'a' if ours else 'b'}{number}" for number in range(links)]
        given = ["--carry", DEVICE, "--flight", str(FLIGHT), *options]
        super().__init__(program or programs.daemon, programs.folder, space, SYSTEM if ours else OTHER, "23" if ours else "5", *names,
                         options=given, before=before, files=files, file=file)
        started.append(self)
        if not within(COMES_UP, lambda: inside(space, "ip", "link", "show", DEVICE).returncode == 0):
            raise Failed(f"there is a device {DEVICE}", self.printed())
        if self.sets_up:
            ip(space, "link", "set", DEVICE, "up")

    def told(self) -> Status:
        """The whole status; a daemon that has just begun has none yet."""
        answers: list[subprocess.CompletedProcess[str]] = []

        def asked() -> bool:
            answers.append(inside(self.space, self.program, "--folder", self.folder, "--status", "--json"))
            return answers[-1].returncode == 0

        if not within(ANSWERS, asked):
            raise Failed("the daemon answers", answers[-1].stderr, self.printed())
        told: Status = json.loads(answers[-1].stdout.splitlines()[0])
        return told

    def carry(self) -> Carry:
        return self.told()["carry"]

    def data(self, name: str) -> int:
        """What all members counted of this name."""
        return counted_of_members(self.told(), name)

    def busy_conversations(self) -> list[int]:
        """How many busy conversations each member has."""
        return [port["data"]["busy_conversations"] for port in self.told()["ports"]]

    def links(self) -> int:
        told = self.told()
        return told["carrying"] if told["carry"]["carrier"] else 0


# The ends that were started at the cables that are laid.
started: list[End] = []


def kernel_count(space: str, device: str, name: str) -> int:
    return int(inside(space, "cat", f"/sys/class/net/{device}/statistics/{name}").stdout or 0)


def ask_gro(space: str, name: str, wanted: bool | None = None) -> bool:
    """Whether an interface puts received frames together; where `wanted` is given, it does or does not from now on."""
    value = ctypes.create_string_buffer(struct.pack("=II", GET_GRO if wanted is None else SET_GRO, bool(wanted)))
    with within_space(space), socket.socket(socket.AF_UNIX, socket.SOCK_DGRAM) as asker:
        fcntl.ioctl(asker, ETHTOOL, struct.pack("16sP16x", name.encode(), ctypes.addressof(value)))
    return bool(struct.unpack("=II", value.raw[:8])[1])


def several(queues: int) -> list[str]:
    """The words by which an interface is made with so many queues for each direction."""
    return ["numtxqueues", str(queues), "numrxqueues", str(queues)] if queues > 1 else []


def lay_direct(number: int, queues: int = 1) -> None:
    """A pair of interfaces. Where one goes, the other goes, too, and nothing is on its way between them."""
    ip(OURS, "link", "add", f"a{number}", *several(queues), "type", "veth", "peer", "name", f"b{number}", "netns", THEIRS, *several(queues))
    ip(OURS, "link", "set", f"a{number}", "up")
    ip(THEIRS, "link", "set", f"b{number}", "up")


class Cables:
    """Both namespaces, and a cable for each delay through a third one; or, without delays, two pairs of interfaces that need none."""

    def __init__(self, programs: Programs, delays: Sequence[int] = DELAYS, queues: int = 1) -> None:
        self.delays, self.path = delays, f"{programs.folder}/cables.sock"
        self.process: subprocess.Popen[bytes] | None = None
        self.socket = socket.socket(socket.AF_UNIX, socket.SOCK_DGRAM)
        for space in (OURS, THEIRS, MIDDLE):
            made = command("ip", "netns", "add", space)
            if made.returncode:
                raise Skipped(f"no network namespaces: {made.stderr.strip()}")
            inside(space, "sysctl", "-qw", "net.ipv6.conf.all.disable_ipv6=1", "net.ipv6.conf.default.disable_ipv6=1")
        for number in range(0 if delays else DIRECT):
            lay_direct(number, queues)
        if not delays:
            return
        for number in range(len(delays)):
            self.lay(OURS, f"a{number}", f"x{number}", queues)
            self.lay(THEIRS, f"b{number}", f"y{number}", queues)
        words = [f"x{number}:y{number}:{delay}" for number, delay in enumerate(delays)]
        self.process = subprocess.Popen(["ip", "netns", "exec", MIDDLE, programs.cables, self.path, *words])
        if not within(COMES_UP, lambda: os.path.exists(self.path)):
            raise Failed("the cables are laid")

    def lay(self, space: str, name: str, end: str, queues: int = 1) -> None:
        """An interface, and the end of it at a cable."""
        ip(space, "link", "add", name, *several(queues), "type", "veth", "peer", "name", end, "netns", MIDDLE)
        ip(space, "link", "set", name, "up")
        ip(MIDDLE, "link", "set", end, "up")
        # One processor takes what the cable is given, whichever one it was sent from: else the cable itself would turn frames round.
        inside(MIDDLE, "sh", "-c", f"echo 1 >/sys/class/net/{end}/queues/rx-0/rps_cpus")

    def tell(self, what: str, number: int) -> None:
        self.socket.sendto(f"{what} {number}".encode(), self.path)

    def drop(self) -> None:
        if self.process:
            self.process.kill()
            self.process.wait()
        self.socket.close()


@contextlib.contextmanager
def cables(programs: Programs, delays: Sequence[int] = DELAYS, queues: int = 1) -> Iterator[Cables]:
    """The cables of a part; all is gone behind it, its ends first."""
    laid = None
    try:
        laid = Cables(programs, delays, queues)
        yield laid
    finally:
        while started:
            started.pop().kill()
        if laid:
            laid.drop()
        for space in (OURS, THEIRS, MIDDLE):
            command("ip", "netns", "del", space)
        with contextlib.suppress(FileNotFoundError):
            os.unlink(f"{programs.folder}/cables.sock")


def wait_for_links(*ends: End, count: int = DIRECT) -> None:
    """Waits until so many links of each end carry, and it knows that the other one answers markers."""
    if not within(COMES_UP, lambda: all(end.links() == count and end.carry()["markers"] == "answered" for end in ends)):
        raise Failed(f"{count} links carry", *(end.text() for end in ends), *(end.printed()[-2000:] for end in ends))


@contextlib.contextmanager
def pair(programs: Programs, *, delays: Sequence[int] = DELAYS, program: str = "", options: Sequence[str] = (),
         before: Sequence[str] = (), queues: int = 1) -> Iterator[tuple[Cables, End, End]]:
    """Two ends whose links all carry, and who know that the other one answers markers."""
    with cables(programs, delays, queues) as laid:
        count = len(laid.delays) or DIRECT
        ends = [End(programs, space, program=program, options=options, links=count, before=before) for space in (OURS, THEIRS)]
        wait_for_links(*ends, count=count)
        yield laid, ends[0], ends[1]


@dataclass
class Outcome:
    """What became of the frames of a run."""

    sent: int = 0
    refused: int = 0
    received: int = 0
    twice: int = 0
    overtaken: int = 0
    overtaken_flows: int = 0
    gap_ms: int = 0
    delay_ms: int = 0
    strange: int = 0
    lost_here: int = 0
    # What the device that sends had no room for, while its daemon took nothing.
    no_room: int = 0
    # For how many seconds daemons and cables waited for a processor, all together.
    waited: float = 0.0

    def lost(self) -> int:
        return self.sent - self.refused - self.received


Event = tuple[float, Callable[[], None]]


def every(second: float, until: float, event: Callable[[], None], first: float = 1.0) -> list[Event]:
    """An event each so many seconds."""
    count = int((until - first) / second) + 1
    return [(first + second * turn, event) for turn in range(count)]


def run_flows(programs: Programs, seconds: float, events: Sequence[Event] = (), *, kind: str = "macs", rate: int = RATE, flows: int = FLOWS,
              devices: tuple[str, str] = (DEVICE, DEVICE)) -> Outcome:
    """Sends numbered frames from our end to the other one, and has events happen meanwhile, each at its second."""
    def launch(space: str, *words: object) -> subprocess.Popen[str]:
        return subprocess.Popen(["ip", "netns", "exec", space, programs.flows, *map(str, words)], stdout=subprocess.PIPE, text=True)

    receiver = launch(THEIRS, "receive", devices[1], flows, seconds + AFTER)
    time.sleep(0.3)
    sender = launch(OURS, "send", devices[0], rate, flows, seconds, kind)
    begin, before, dropped = time.monotonic(), waited(), kernel_count(OURS, devices[0], "tx_dropped")
    try:
        for at, event in events:
            time.sleep(max(0.0, begin + at - time.monotonic()))
            event()
        told = [it.communicate(timeout=seconds + 30)[0] for it in (sender, receiver)]
    finally:
        for it in (sender, receiver):
            it.kill()
            it.wait()
    no_room = max(0, kernel_count(OURS, devices[0], "tx_dropped") - dropped)
    return Outcome(**json.loads(told[0]), **json.loads(told[1]), no_room=no_room, waited=since(before))


def check_order(outcome: Outcome, what: str, *told: object) -> None:
    """No frame was overtaken by a later one of its flow, and none came twice."""
    text = f"{outcome.received:,} of {outcome.sent:,} frames came, {outcome.overtaken} overtaken, {outcome.twice} twice"
    holds = outcome.overtaken == outcome.twice == outcome.strange == 0 and outcome.received > (outcome.sent - outcome.refused) // 4
    check(holds, f"{what}: {text}, longest gap {outcome.gap_ms} ms", outcome, *told)


def check_none_lost(outcome: Outcome, ours: End, theirs: End, what: str = "none was lost") -> None:
    """No frame was lost. Where all that were had waited too long for the answer of a marker, or their device or a member had no room, and the machine
    gave its processors so late that this alone can be why, a line says so, and nothing is counted."""
    told = ours.told()
    held, no_room = told["carry"]["held_too_long"], outcome.no_room + counted_of_members(told, "data_unsent")
    if 0 < outcome.lost() == held + no_room and outcome.waited >= LATE:
        print(f"inconclusive: {what}: {held:,} frames were held too long, {no_room:,} found no room; {late(outcome)}", flush=True)
        return
    check(outcome.lost() == 0, what, outcome, ours.text(), theirs.text())


def late(outcome: Outcome) -> str:
    return f"daemons and cables waited {outcome.waited:.1f} s for a processor"


def check_end(end: End, name: str) -> None:
    """What came from the host was sent, waits, or is counted as lost; what came from the members was handed up, or is counted."""
    told = end.told()  # one status: frames may still come
    carry = told["carry"]
    unsent = carry["unfit"] + carry["none_carries"] + carry["queue_full"] + carry["held_too_long"] + carry["overflowed"] + carry["waiting"]
    sent = unsent + counted_of_members(told, "data_sent") + counted_of_members(told, "data_unsent")
    check(carry["from_host"] == sent, f"{name} accounts for {carry['from_host']:,} frames of its host", told)
    taken = carry["handed_up"] + carry["host_untaken"] + carry["other_aggregator"]
    taken += counted_of_members(told, "uncollected") + counted_of_members(told, "wrong_length")
    received = counted_of_members(told, "data_received")
    check(received == taken, f"{name} accounts for {received:,} frames of its members", told)


def check_taken(outcome: Outcome, ours: End) -> None:
    """Each frame that the kernel took of its sender came to the daemon, or is counted. Its sender was told of one that overflowed, or that was
    unfit because its member was gone."""
    carry, dropped = ours.carry(), kernel_count(OURS, DEVICE, "tx_dropped")
    came = carry["from_host"] - carry["overflowed"] - carry["unfit"]
    taken = outcome.sent - outcome.refused
    check(came + dropped == taken, f"all {taken:,} frames that the kernel took came from {DEVICE}, or it counts them", outcome, dropped, ours.text())


def check_whole(outcome: Outcome, ours: End, theirs: End, *, cables_lose: bool) -> None:
    """Each frame that was sent came, or is counted."""
    check_end(ours, "the sending end")
    check_end(theirs, "the receiving end")
    check_taken(outcome, ours)
    up = theirs.carry()["handed_up"] - kernel_count(THEIRS, DEVICE, "rx_dropped") - outcome.lost_here
    check(up == outcome.received, f"all {up:,} frames that were handed up came", outcome, theirs.text())
    sent, taken = ours.data("data_sent"), theirs.data("data_received") + theirs.data("socket_full")
    holds = taken <= sent if cables_lose else taken == sent
    check(holds, f"{sent:,} frames went into the cables, {sent - taken:,} were lost there", ours.text(), theirs.text())


def check_through(programs: Programs, ours: End, theirs: End, seconds: float, events: Sequence[Event], what: str) -> Outcome:
    """Links go and come back: no frame is overtaken, each came or is counted, and both links carry again."""
    outcome = run_flows(programs, seconds, events)
    check_order(outcome, what, ours.text())
    check_whole(outcome, ours, theirs, cables_lose=True)
    check(within(COMES_BACK, lambda: ours.links() == 2), "both links carry again", ours.text())
    return outcome


def move_all(end: End) -> Callable[[], None]:
    """Each busy conversation moves to the next port."""
    return lambda: end.process.send_signal(signal.SIGUSR2)
