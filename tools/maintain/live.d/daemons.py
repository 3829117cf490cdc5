"""The daemon `lagd` over veth pairs: against itself, alone, with a stranger on the wire, and against the bonding driver."""

from __future__ import annotations

import array
import contextlib
import fcntl
import math
import os
import re
import signal
import socket
import struct
import termios
import time
from typing import Sequence

from checking import Skipped, check, command, within
from daemon import ENDS, KEY, OTHER, SYSTEM, Daemon, Part
from repository import read_text
from spaces import OURS, THEIRS, Wire, flap, inside, ip, lacpdu, losses, make_pair, marker, octets, sockets_of, within_space

STRANGER = "02:00:00:00:00:cc"
# What Wire sends from, and another address.
SOURCE, ELSEWHERE = "02:00:00:00:00:77", "02:00:00:00:00:78"
# Two pairs of an LACPDU each way and one aggregate wait of 2 s; and three short periods of 1 s until a partner has gone. A loaded
# machine takes longer: these are limits, and a sign ends each wait.
COMES_UP, GOES_DOWN = 40, 30
# LACP_Activity, and Synchronization (6.4.2.3): of a link that is individual, so that its peer need not be named.
IS_ACTIVE, IN_SYNC = 1, 8
# How long a daemon is stopped: longer than three short periods.
STALL = 5
SET_PIPE_SIZE = 1031
# TC_PRIO_CONTROL, the highest one.
CONTROL = 7
# How many lines of a port frames may cause at once.
MOST_LINES = 10
# The most of a processor that a daemon with so many ports takes while nothing changes. Where others have more than this part of the processors,
# what it finds in no cache any more counts, too.
MANY, SHARE, BUSY = 32, 0.003, 0.5
NOBODY = "65534"
# A message that an interface is gone: its length, type, flags, number and sender; the family, kind and number of the interface, its
# flags and which of them changed.
LINK_GONE, RTM_DELLINK, INDEX = struct.Struct("=IHHIIBxHiII"), 17, "/sys/class/net/a0/ifindex"


def both_up(ours: Daemon, theirs: Daemon, what: str) -> None:
    holds = within(COMES_UP, lambda: ours.distributes("a0", "a1") and theirs.distributes("b0", "b1"))
    check(holds, what, ours.text(), theirs.text())
    within(ENDS, lambda: ours.says_it_distributes("a0", "a1") and theirs.says_it_distributes("b0", "b1"))


def pair_up(part: Part, what: str = "both links distribute", ours: Sequence[str] = (), theirs: Sequence[str] = ()) -> tuple[Daemon, Daemon]:
    """Two daemons with these options, whose links come to distribute."""
    both = part.ours(options=ours), part.theirs(options=theirs)
    both_up(*both, what)
    return both


def follow_link(daemon: Daemon, downed: str) -> None:
    """The second link is taken down and brought back, at its other end."""
    ip(THEIRS, "link", "set", downed, "down")
    stopped = lambda: daemon.port("a1")["status"] == "the link is down"
    check(within(GOES_DOWN, stopped), "a link that is taken down stops distributing", daemon.text())
    check(daemon.distributes("a0"), "the other one goes on", daemon.text())
    ip(THEIRS, "link", "set", downed, "up")
    check(within(COMES_UP, lambda: daemon.distributes("a0", "a1")), "brought back, it distributes again", daemon.text())


def flap_link(daemon: Daemon, downed: str) -> None:
    """The second link is taken down and brought back at once, one time and twenty times."""
    before, told = losses(OURS, "a1"), daemon.count("a1", "link_losses")
    told_down = lambda: sum(line.startswith("the link is down,") for line in daemon.lines("a1"))
    printed = told_down()
    for times in 1, 19:
        flap(THEIRS, downed, times)
        seen = lambda: daemon.count("a1", "link_losses") - told == losses(OURS, "a1") - before > 0
        check(within(GOES_DOWN, seen), f"each loss of carrier is seen, of {times} in a row", daemon.text())
    check(told_down() > printed, "a line says that the link was down", daemon.printed())
    check(within(COMES_UP, lambda: daemon.distributes("a0", "a1")), "it distributes again", daemon.text())


def change_address(daemon: Daemon, mac: str = "02:00:00:00:77:00") -> None:
    """The interface gets another MAC address."""
    wire = Wire(THEIRS, "b0")
    ip(OURS, "link", "set", "a0", "address", mac)
    check(within(GOES_DOWN, lambda: octets(mac) in wire.sources()), "frames have the MAC address that the interface has now")
    check(within(ENDS, lambda: daemon.port("a0")["address"] == mac), "so has the status")


def fail_to_send(ours: Daemon, theirs: Daemon) -> None:
    """The interface takes no frame of this length, while the peer sends four LACPDUs at the other one, one each second. At most
    three a second are due, so more failures than that are frames that are tried again."""
    ip(OURS, "link", "set", "a0", "mtu", "100")
    check(within(GOES_DOWN, lambda: ours.count("a0", "failed_sent") > 0), "frames that are not taken are counted", ours.text())
    failed, passed = ours.count("a0", "failed_sent"), theirs.count("b1", "lacpdus_sent")
    within(GOES_DOWN, lambda: theirs.count("b1", "lacpdus_sent") >= passed + 4)
    check(ours.count("a0", "failed_sent") > failed + 20, "one that is not taken is tried again", failed, ours.text())
    told = [line for line in ours.lines("a0") if line.endswith("Message too long")]
    check(0 < len(told) < 6 and "Message too long" in ours.text(), "why they are not taken is told, in few lines", ours.printed())
    ip(OURS, "link", "set", "a0", "mtu", "1500")
    both_up(ours, theirs, "once they are taken, the links distribute again")


def drop_link(ours: Daemon, theirs: Daemon) -> None:
    """The second pair vanishes, while LACPDUs of more than three short periods of 1 s come on the first one; and comes back."""
    ip(OURS, "link", "del", "a1")
    missing = "the interface is missing"
    gone = lambda: ours.last_line("a1").startswith(f"{missing},") and ours.port("a1")["status"] == missing
    check(within(GOES_DOWN, gone), "an interface that vanishes is told of", ours.printed())
    before = theirs.count("b0", "lacpdus_received")
    check(within(GOES_DOWN, lambda: theirs.count("b0", "lacpdus_received") > before + 4), "LACPDUs go on at the other one")
    check(ours.distributes("a0") and theirs.distributes("b0"), "and it distributes", ours.text(), theirs.text())
    make_pair(1)
    both_up(ours, theirs, "made again, it is taken up, and distributes")


def two_daemons(part: Part) -> None:
    ours, theirs = pair_up(part, "two daemons: both links come to distribute at both ends")
    for daemon, name, system, key, port in (ours, "a1", OTHER, 5, 2), (theirs, "b0", SYSTEM, int(KEY), 1):
        partner = daemon.port(name)["partner"]
        named = (partner["system_priority"], partner["system"], partner["key"], partner["port"])
        check(named == (32768, system, key, port), f"{name} names the other's system, key and port", partner)
        words = f"it distributes, aggregator 1, partner 32768,{system} key {key} port {port}"
        check(within(ENDS, lambda: daemon.last_line(name) == words), "so does its last line, which has a time", daemon.printed())
    follow_link(ours, "b1")
    flap_link(ours, "b1")
    change_address(ours)
    fail_to_send(ours, theirs)
    drop_link(ours, theirs)
    theirs.ends("the other daemon")
    check(within(GOES_DOWN, lambda: not ours.distributes("a0")), "its peer stops distributing", ours.text())
    ours.ends("the daemon")
    check(all(ours.last_line(name) == "ended" for name in ("a0", "a1")), "its last lines say so", ours.printed())


def tell_end(part: Part) -> None:
    """The peer asks for LACPDUs each 30 s alone, so that it would miss them after 90 s: sooner it stops only if it is told."""
    theirs = part.theirs(options=["--timeout", "long"])
    for by in signal.SIGTERM, signal.SIGINT, signal.SIGHUP, signal.SIGQUIT:
        ours = part.ours()
        both_up(ours, theirs, "both links distribute")
        ours.ends("the daemon", by)
        check(within(GOES_DOWN, lambda: not (theirs.distributes("b0") or theirs.distributes("b1"))), "its peer stops both links")


def wrong_words(part: Part) -> None:
    system = f"32768,{SYSTEM}"
    wrong = [["7x", system, "a0"], ["65536", system, "a0"], ["", system, "a0"], ["7", SYSTEM, "a0"], ["7", f"-1,{SYSTEM}", "a0"]]
    macs = [" 2:00:00:00:00:aa", "-2:00:00:00:00:aa", "2:0:0:0:0:a", SYSTEM + ":01", "", "01:00:00:00:00:aa", "00:00:00:00:00:00"]
    macs += ["02:00:00-00:00:aa", "0200:0000:00aa", "02.00.00.00.00.aa", "0200.0000.00a", "0200.0000.00ag", "0100.0000.00aa"]
    wrong += [["7", f"32768,{mac}", "a0"] for mac in macs]
    wrong += [["7", system, "a0", "a1", "a0"], ["7", system, "a0/b"], ["7", system, ""], ["7", system, "a" * 128], ["7", system, "lo"]]
    wrong += [["7", system], ["7", system, *(f"a{port}" for port in range(65))], ["--status", "a0"], ["--json", "7", system, "a0"]]
    wrong += [[*words, "7", system, "a0"] for words in (["-m", "65"], ["-p", "65536"], ["-t", "fast"], ["-a", "yes"], ["-x"], ["--no"])]
    wrong += [["7", system, f"a0:{word}"] for word in ("key", "key=", "key=65536", "priority=x", "fast", "short,slow")]
    taken = []
    for words in wrong:
        status, line = part.refused(*words)
        if status != 2 or not re.fullmatch(r"lagd: .+\n", line):
            taken.append(f"{words}: status {status}, {line}")
    check(not taken, f"{len(wrong)} wrong command lines end it with status 2 and a line", *taken)
    texts = [command(part.program, word) for word in ("--help", "-h", "--version", "-V")]
    told = all(text.returncode == 0 and not text.stderr for text in texts)
    check(told and all("--status" in text.stdout for text in texts[:2]), "--help tells the options", texts[0].stderr)
    check(told and all(re.fullmatch(r"lagd (\d+\.\d+\.\d+)\nwith .*liblag.* \1\n", text.stdout) for text in texts[2:]), "--version names the version, and the library")
    status, line = part.refused("--status")
    check(status == 1 and re.search(r"^lagd: no lagd answers in: .+\n\Z", line, re.M), "--status says where no daemon runs", line)


def lone_daemon(part: Part) -> None:
    wrong_words(part)
    ip(OURS, "link", "del", "a0")
    daemon = part.ours("a0", "a1")
    missing = "the interface is missing, aggregator 0, no partner"
    check(within(ENDS, lambda: daemon.last_line("a0") == missing), "a missing one is waited for", daemon.printed())
    status, line = part.refused("7", f"32768,{OTHER}", "a1")
    wanted = f"lagd: another lagd has the interface, one of user 0: a1\n"
    check((status, line) == (1, wanted), "no second daemon takes the same interface", line)
    ip(THEIRS, "link", "set", "b1", "down")
    check(within(ENDS, lambda: daemon.port("a1")["link"] == "down"), "it says that its link is down", daemon.text())
    make_pair(0)
    check(within(ENDS, lambda: daemon.port("a0")["link"] == "up"), "one that was missing is taken up", daemon.text())
    ip(OURS, "link", "set", "a0", "down")
    ip(OURS, "link", "set", "a0", "name", "away")
    check(within(ENDS, lambda: daemon.port("a0")["link"] == "missing"), "one that has another name is missing", daemon.text())
    ip(OURS, "link", "set", "away", "name", "a0")
    ip(OURS, "link", "set", "a0", "up")
    check(within(ENDS, lambda: daemon.port("a0")["link"] == "up"), "and is taken up when it has its name again", daemon.text())
    daemon.kill()
    again = part.ours("a0", "a1")
    check(within(ENDS, again.ports), "after one that was killed another one starts", again.printed())


def other_addresses(daemon: Daemon, wire: Wire) -> None:
    """LACPDUs to other addresses, and then one to the right one."""
    mac = daemon.port("a0")["address"]
    for to in "ff:ff:ff:ff:ff:ff", mac, "01:80:c2:00:00:00", "01:80:c2:00:00:03":
        wire.send(lacpdu(STRANGER, 1), to)
    seen = within(ENDS, lambda: daemon.count("a0", "elsewhere_received") == 4)
    port = daemon.port("a0")
    told = [daemon.text(), daemon.printed()]
    spared = port["partner"]["defaulted"] and port["counters"].get("lacpdus_received") == 0
    check(seen and spared, "no LACPDU to another address is taken", *told)
    wire.send(lacpdu(STRANGER, 0x1234))
    named = lambda partner: (partner["system"], partner["port"]) == (STRANGER, 0x1234)
    check(within(ENDS, lambda: named(daemon.port("a0")["partner"])), "one to the address of the slow protocols is", daemon.text())


def count_frames(daemon: Daemon, wire: Wire) -> None:
    """Frames of each kind. The ones to refuse: another subtype, a wrong length, a wrong TLV type and too few octets. Responses to another
    system or port, or from another address than the LACPDUs, are foreign."""
    for _ in range(3):
        wire.send(marker(1))
    for number in range(2):
        wire.send(marker(2, SYSTEM, 1, number))
    for payload, source in (marker(2, OTHER, 1), SOURCE), (marker(2, SYSTEM, 2), SOURCE), (marker(2, SYSTEM, 1), ELSEWHERE):
        wire.send(payload, source=source)
    for payload in b"\3\1" + bytes(108), b"\1\1\1\x13" + bytes(106), marker(3), bytes(50):
        wire.send(payload)
    wanted = {"markers_received": 3, "marker_responses_sent": 3, "marker_responses_received": 2}
    wanted.update({"unknown_received": 1, "illegal_received": 3, "foreign_responses": 3})
    wanted["lacpdus_received"] = 1
    counts = lambda: daemon.port("a0")["counters"]
    check(within(ENDS, lambda: wanted.items() <= counts().items()), "frames are counted by kind", counts())
    ip(OURS, "link", "set", "a0", "state", "DORMANT")
    check(within(ENDS, lambda: daemon.port("a0")["link"] == "down"), "an interface that is dormant has a link that is down")
    wire.send(marker(1))
    check(within(ENDS, lambda: daemon.count("a0", "disabled_received") == 1), "a frame that comes then is counted apart", daemon.text())
    ip(OURS, "link", "set", "a0", "state", "UP")
    check(within(ENDS, lambda: daemon.port("a0")["link"] == "up"), "its link comes up again", daemon.text())
    text = daemon.text()
    check(all(f" {name} {count}" in text for name, count in wanted.items()), "the status as text has the same counts", text)


def flood(daemon: Daemon, wire: Wire, seconds: float = 4) -> None:
    """A thousand LACPDUs a second, each of another partner."""
    before, sent, begin = len(daemon.lines("a0")), 0, time.monotonic()
    while time.monotonic() < begin + seconds:
        wire.send(lacpdu(STRANGER, 1 + sent % 60000))
        sent += 1
        time.sleep(0.001)
    taken = daemon.count("a0", "lacpdus_received")
    told, passed = len(daemon.lines("a0")) - before, time.monotonic() - begin
    most = MOST_LINES + math.ceil(passed)
    check(told <= most, f"{sent} LACPDUs of other partners have at most {MOST_LINES} lines, and one more each second", told, most)
    check(within(ENDS, lambda: daemon.count("a0", "lacpdus_received") > sent), "all are taken", f"{taken} of {sent}")


def stranger(part: Part) -> None:
    daemon = part.ours("a0")
    check(within(ENDS, lambda: daemon.port("a0")["link"] == "up"), "a daemon and a stranger on its wire", daemon.printed())
    wire = Wire(THEIRS, "b0")
    other_addresses(daemon, wire)
    count_frames(daemon, wire)
    flood(daemon, wire)
    part.start(OURS, OTHER, "9", "a1")
    both = lambda: [daemon.port(name)["actor"]["key"] for name in ("a0", "a1")] == [int(KEY), 9]
    check(within(ENDS, both), "the status has both daemons of a namespace", daemon.text())


def churn(part: Part) -> None:
    """A peer whose Synchronization bit is 0 for 60 s, which the status, the metrics and a count tell, and then 1."""
    daemon = part.ours("a0")
    check(within(ENDS, lambda: daemon.port("a0")["link"] == "up"), "a daemon, and a peer that is not synchronized", daemon.printed())
    wire, begin = Wire(THEIRS, "b0"), time.monotonic()

    def becomes(seconds: float, state: int, wanted: str) -> bool:
        """Whether the partner comes to be so within this time, while an LACPDU comes every half second."""
        until = time.monotonic() + seconds
        while (port := daemon.port("a0"))["partner_churn"] != wanted and time.monotonic() < until:
            wire.send(lacpdu(STRANGER, 1, state))
            time.sleep(0.5)
        return bool(port["partner_churn"] == wanted)

    check(not becomes(55, IS_ACTIVE, "CHURN"), "for 55 s its partner does not churn", daemon.text())
    check(becomes(10, IS_ACTIVE, "CHURN"), "after 60 s it does", daemon.text())
    took, port, text = time.monotonic() - begin, daemon.port("a0"), daemon.text()
    check(57 < took < 65, "60 s after its link came up", took)
    check(port["counters"]["partner_churns"] == 1 and port["counters"]["actor_churns"] == 0, "and is counted", text)
    check(port["actor_churn"] == "NO_CHURN" and "  partner_churn: CHURN\n" in text, "the daemon itself is synchronized", text)
    told = inside(OURS, daemon.program, "--folder", daemon.folder, "--metrics").stdout
    check('lagd_port_partner_churn{bundle="a0",interface="a0",port="1"} 1' in told.splitlines(), "so say the metrics", told)
    check(becomes(COMES_UP, IS_ACTIVE | IN_SYNC, "NO_CHURN"), "until its peer is synchronized", daemon.text())


def stall(part: Part) -> None:
    """A daemon is stopped for 5 s. Its peer waits 90 s, and sends each second. Then all ticks would be made up at once: its own link
    would expire though LACPDUs wait for it."""
    ours, theirs = pair_up(part, theirs=["--timeout", "long"])
    lines, sent = ours.lines("a0"), ours.count("a0", "lacpdus_sent")
    ours.process.send_signal(signal.SIGSTOP)
    time.sleep(STALL)
    ours.process.send_signal(signal.SIGCONT)
    taken = theirs.count("b0", "lacpdus_sent")
    within(ENDS, lambda: ours.count("a0", "lacpdus_received") >= taken)
    check(ours.distributes("a0", "a1") and ours.lines("a0") == lines, "after a stall the links are as before", ours.printed())
    check(ours.count("a0", "lacpdus_sent") <= sent + 3, "and what was missed is not sent at once", sent, ours.text())


def stall_of_sender(part: Part) -> None:
    """A daemon that sends each second is stopped for 5 s."""
    ours, theirs = pair_up(part)
    wire = Wire(THEIRS, "b0")
    ours.process.send_signal(signal.SIGSTOP)
    time.sleep(STALL)
    wire.sources()
    ours.process.send_signal(signal.SIGCONT)
    begin = time.monotonic()
    within(ENDS, lambda: ours.ports() and ours.ports())
    sent, passed = len(wire.sources()), time.monotonic() - begin
    check(0 < sent <= 4 + 3 * passed, "after a stall it sends at most three LACPDUs a second", f"{sent} in {passed:.2f} s")
    both_up(ours, theirs, "both links distribute again")


def waits_in(pipe: int) -> int:
    """How many octets nobody has read yet."""
    found = array.array("i", [0])
    fcntl.ioctl(pipe, termios.FIONREAD, found)
    return found[0]


def full_queue(part: Part) -> None:
    """Somebody asks a daemon that is stopped until its socket has no room. Who asks then is told that none answers."""
    daemon = part.ours("a0")
    check(within(ENDS, lambda: daemon.port("a0")["link"] == "up"), "a daemon alone", daemon.printed())
    daemon.process.send_signal(signal.SIGSTOP)
    askers: list[socket.socket] = []
    with contextlib.suppress(BlockingIOError):
        while len(askers) < 1000:
            askers.append(socket.socket(socket.AF_UNIX, socket.SOCK_STREAM | socket.SOCK_NONBLOCK))
            askers[-1].connect(daemon.socket())
            askers[-1].send(b"text\n")
    status, line = part.refused("--status")
    told = status == 1 and line.startswith(f"lagd: {daemon.socket()}: its daemon does not answer: ") and "\nlagd: no lagd answers in: " in line
    check(len(askers) > 1 and told, f"stopped, with {len(askers)} questions unanswered, it keeps nobody waiting", line)
    daemon.process.send_signal(signal.SIGCONT)
    check(within(ENDS, lambda: daemon.port("a0")["link"] == "up"), "it answers again", daemon.printed())


def false_changes(part: Part, seconds: float = 4) -> None:
    """Another program sends messages to the socket on which the kernel tells of interfaces: that one is taken away."""
    ours, theirs = pair_up(part)
    lines = ours.lines("a0")
    with within_space(OURS):
        sender = socket.socket(socket.AF_NETLINK, socket.SOCK_RAW | socket.SOCK_NONBLOCK, socket.NETLINK_ROUTE)
    gone = LINK_GONE.pack(LINK_GONE.size, RTM_DELLINK, 0, 0, 0, socket.AF_UNSPEC, 0, int(inside(OURS, "cat", INDEX).stdout), 0, 0)
    sent, before, until = 0, ours.count("a0", "lacpdus_sent"), time.monotonic() + seconds
    while time.monotonic() < until:
        with contextlib.suppress(BlockingIOError, ConnectionRefusedError):
            sent += sender.sendto(gone, (ours.process.pid, 0)) > 0
    check(sent > 1000 and ours.lines("a0") == lines, f"{sent} messages of another program change nothing", ours.printed())
    after = ours.count("a0", "lacpdus_sent")
    check(after >= before + 2, "the daemon sends meanwhile", before, after)
    both_up(ours, theirs, "and both links distribute")


def idle_and_all() -> tuple[int, int]:
    """For how long the processors were idle, and for how long there were any, in ticks of the kernel."""
    ticks = [int(it) for it in read_text("/proc/stat").split("\n", 1)[0].split()[1:9]]
    return ticks[3] + ticks[4], sum(ticks)


def quiet_ports(part: Part) -> None:
    """Two daemons of many ports, and no change: how much of a processor one of them takes while ten LACPDUs come on each."""
    part.unhurried()
    for place in range(2, MANY):
        make_pair(place)
    ours, theirs = (start(*(f"{end}{place}" for place in range(MANY))) for start, end in ((part.ours, "a"), (part.theirs, "b")))
    every = lambda: ours.distributes(*(f"a{place}" for place in range(MANY)))
    check(within(COMES_UP, every), f"{MANY} links come to distribute", ours.text())
    came, busy, begin, before = ours.count("a0", "lacpdus_received"), ours.busy(), time.monotonic(), idle_and_all()
    time.sleep(10)
    share = (ours.busy() - busy) / (time.monotonic() - begin)
    idle, whole = (now - was for now, was in zip(idle_and_all(), before))
    check(ours.count("a0", "lacpdus_received") >= came + 5, "LACPDUs come meanwhile", came, ours.text())
    text = f"a daemon of {MANY} ports takes {share:.2%} of a processor, at most {SHARE:.1%}"
    if share > SHARE and 1 - idle / whole > BUSY:
        print(f"inconclusive: {text}; {1 - idle / whole:.0%} of the processors were busy", flush=True)
    else:
        check(share <= SHARE, text)


def reasons(part: Part) -> None:
    """Why a port does not distribute: a stranger says nothing, something, and what the daemon itself would say."""
    daemon = part.ours("a0")
    says = lambda text: lambda: daemon.port("a0")["status"] == text
    check(within(ENDS, says("no LACPDU came in time")), "a link without LACPDUs says so", daemon.text())
    check(within(ENDS, says("it runs on defaults")), "and then that it runs on defaults", daemon.text())
    wire = Wire(THEIRS, "b0")

    def sees(system: str, text: str) -> bool:
        wire.send(lacpdu(system, 1))
        return bool(says(text)())

    waits = lambda: sees(STRANGER, "it waits for wait_while") and 0 < (daemon.port("a0")["wait_while"] or 0) <= 20
    check(within(ENDS, waits), "it waits for 2 s once a stranger speaks, and says for how long", daemon.text())
    text = "the partner is not synchronized"
    check(within(ENDS, lambda: sees(STRANGER, text)), "a stranger who does not name it is not synchronized", daemon.text())
    check(within(ENDS, lambda: sees(SYSTEM, "the partner is this very system")), "its own system is no partner", daemon.text())
    check(within(ENDS, says("no LACPDU came in time")), "a link that falls silent says so", daemon.text())
    told = daemon.text()
    check("  status: no LACPDU came in time\n" in told and "current_while" in told, "so does the status as text", told)


def full_pipe(part: Part) -> None:
    """Nobody reads what the daemon prints; and then the reader is gone."""
    reader, writer = os.pipe()
    fcntl.fcntl(writer, SET_PIPE_SIZE, 4096)
    theirs, ours = part.theirs(), part.ours(out=writer)
    os.close(writer)
    both_up(ours, theirs, "both links distribute")
    flap(OURS, "a1", 40)
    both_up(ours, theirs, "they do so where nobody reads the daemon's lines")
    full = waits_in(reader)
    check(full > 3500, "which do not fit into its pipe", full)
    os.read(reader, full)
    told = within(ENDS, lambda: waits_in(reader) and b" port 2 a1: it distributes," in os.read(reader, 4096))
    check(told, "what could not be printed is told when somebody reads again")
    os.close(reader)
    follow_link(ours, "b1")


def options(part: Part) -> None:
    words = ["--port-priority", "100", "--timeout", "long", "--activity", "passive"]
    ours = part.ours("a0:key=8", "a1:priority=7,short,active,individual", options=words)
    theirs = part.theirs()
    check(within(COMES_UP, lambda: ours.distributes("a0", "a1")), "ports with options come to distribute", ours.text())
    first, second = (ours.port(name)["actor"] for name in ("a0", "a1"))
    check((first["key"], first["port_priority"]) == (8, 100), "one has its own key and the priority of all", first)
    check((second["key"], second["port_priority"]) == (int(KEY), 7), "the other one has the key of all and its own priority", second)
    states = [{"activity", "timeout", "aggregation"} & set(port["state"]) for port in (first, second)]
    check(states == [{"aggregation"}, {"activity", "timeout"}], "one is passive and long, the other one active, short, individual", states)
    partner = theirs.port("b0")["partner"]
    check((partner["key"], partner["port_priority"]) == (8, 100), "the peer sees the same", partner)


def limit(part: Part) -> None:
    """An aggregator of one link at most: the other one stands by, and takes over."""
    ours, theirs = part.ours(options=["--max-links", "1"]), part.theirs()
    full = "its aggregator has no room for one more link"
    stands_by = lambda: ours.distributes("a0") and ours.port("a1")["status"] == full
    check(within(COMES_UP, stands_by), "with a limit of one link the other one is STANDBY", ours.text())
    check(within(ENDS, lambda: ours.last_line("a1").startswith(f"{full}, aggregator 1, ")), "its line says so", ours.printed())
    ip(THEIRS, "link", "set", "b0", "down")
    check(within(COMES_UP, lambda: ours.distributes("a1") and theirs.distributes("b1")), "it takes over", ours.text())


def before_data(part: Part) -> None:
    """Its frames have the priority of control frames, and go into the first of three queues."""
    daemon = part.ours("a0")
    check(within(ENDS, lambda: daemon.count("a0", "lacpdus_sent") > 0), "a daemon that sends", daemon.printed())
    found = [it.getsockopt(socket.SOL_SOCKET, socket.SO_PRIORITY) for it in sockets_of(daemon.process.pid)]
    check(found == [CONTROL], "its frames have the priority of control frames", found)
    made = inside(OURS, "tc", "qdisc", "add", "dev", "a0", "root", "handle", "1:", "prio")
    if made.returncode:
        raise Skipped(f"no queues by priority: {made.stderr.strip()}")
    before = daemon.count("a0", "lacpdus_sent")
    within(ENDS, lambda: daemon.count("a0", "lacpdus_sent") > before + 2)
    told = inside(OURS, "tc", "-s", "class", "show", "dev", "a0").stdout
    sent = [int(count) for count in re.findall(r"Sent \d+ bytes (\d+) pkt", told)]
    check(len(sent) == 3 and sent[0] >= 2, "they go before data", told)


PARTS = {
    "two daemons over veth pairs": two_daemons,
    "the end is told": tell_end,
    "a daemon alone": lone_daemon,
    "a stranger on the wire": stranger,
    "why a port does not distribute": reasons,
    "a peer that is not synchronized": churn,
    "a daemon that is stopped": stall,
    "a sender that is stopped": stall_of_sender,
    "questions to one that is stopped": full_queue,
    "messages of another program": false_changes,
    "many ports, and no change": quiet_ports,
    "lines that nobody reads": full_pipe,
    "options of ports": options,
    "a limit of links": limit,
    "queues by priority": before_data,
}
