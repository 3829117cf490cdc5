"""What surrounds the daemon: locks that strangers want, queues of data, carriers that go twice, and what members lose and get back."""

from __future__ import annotations

import datetime
import os
import re
import shutil
import signal
import socket
import subprocess
import sys
import time
from pathlib import Path

from checking import Skipped, check, within
from daemon import ENDS, OTHER, SYSTEM, Daemon, Part
from daemons import COMES_UP, NOBODY, both_up, pair_up
from service import Filed
from spaces import OURS, THEIRS, inside, ip, make_pair, octets, packet_socket

# A program that takes all names that a lock of one of the first interfaces may have, as a user without rights.
SQUATTER = """import os, socket, sys, time
os.setgroups([]); os.setgid(65534); os.setuid(65534)
held = []
for number in range(1, 500):
    held.append(socket.socket(socket.AF_UNIX))
    held[-1].bind(f"\\0lagd/interface/{number}")
    held[-1].listen(0)
print("held", flush=True)
time.sleep(60)
"""
AS_NOBODY = ["setpriv", "--reuid", NOBODY, "--regid", NOBODY, "--clear-groups", "--inh-caps=-all,+net_raw", "--ambient-caps=-all,+net_raw"]
# How often two links are cut, and how late the daemon may tell of the second one, in seconds.
CUTS, LATE = 3, 0.15
# A queue of a rate, and a child that knows no priority; how many seconds programs send more than that; and one of them.
SLOW_QUEUE = ("root", "handle", "1:", "tbf", "rate", "10mbit", "burst", "20k", "limit", "1000k"), ("parent", "1:1", "handle", "10:", "pfifo")
FLOODED = 10
FLOOD = """import socket, sys, time
out = socket.socket(socket.AF_PACKET, socket.SOCK_RAW)
out.setsockopt(socket.SOL_SOCKET, 32, 1 << 24)  # SO_SNDBUFFORCE
out.bind((sys.argv[1], 0))
until = time.monotonic() + float(sys.argv[2])
while time.monotonic() < until:
    try:
        out.send(bytes.fromhex("0200000000bb0200000000aa88b5") + bytes(1480))
    except OSError:
        time.sleep(0.0002)
"""
# Who watches, so often, as this user: prints how often he was refused.
WATCHERS = """import os, socket, sys, time
os.setgroups([])
if int(sys.argv[3]):
    os.setgid(0)
    os.setuid(int(sys.argv[3]))
held = []
refused = 0
for _ in range(int(sys.argv[2])):
    held.append(socket.socket(socket.AF_UNIX))
    held[-1].connect(sys.argv[1])
    try:
        held[-1].send(b"watch\\n")
    except OSError:
        pass
    held[-1].settimeout(0.1)
    try:
        refused += held[-1].recv(100)[:8] == b"refused:"
    except OSError:
        pass
print(refused, flush=True)
time.sleep(60)
"""
# What a second daemon is started by: with a /run of its own, and as another user.
SECONDS: list[list[str]] = [[], ["unshare", "--mount", "sh", "-c", 'mount -t tmpfs none /run && exec "$@"', "sh"], AS_NOBODY]
# How data is carried; and what takes /sys from a daemon.
PLAIN_AND_FAST: list[list[str]] = [[], ["--fast"]]
WITH_AND_WITHOUT_SYS: list[list[str]] = [[], ["unshare", "--mount", "sh", "-c", 'umount -l /sys && exec "$@"', "sh"]]
# Frames of a link: to whom they go, their type, and whether the member has them or, of a bridge, lag0.
OF_LINK = {
    "802.1X": ("01:80:c2:00:00:03", 0x888E, True),
    "LLDP": ("01:80:c2:00:00:0e", 0x88CC, True),
    "PTP": ("01:80:c2:00:00:0e", 0x88F7, True),
    "MVRP of a provider": ("01:80:c2:00:00:0d", 0x88F5, False),
    "a bridge": ("01:80:c2:00:00:00", 0x88B5, False),
    "data": ("01:80:c2:00:00:10", 0x88B6, False),
}


def squatted_locks(part: Part) -> None:
    """A user without rights holds what he can of locks; and no two daemons have one interface, whoever runs them, wherever their
    folders are."""
    squatter = subprocess.Popen(["ip", "netns", "exec", OURS, sys.executable, "-c", SQUATTER], stdout=subprocess.PIPE, text=True)
    try:
        assert squatter.stdout
        check(squatter.stdout.readline() == "held\n", "a user without rights holds names")
        ours = part.ours("a0", "a1")
        check(within(ENDS, lambda: ours.port("a0")["link"] == "up"), "and the daemon starts", ours.printed())
        for words in SECONDS:
            folder = os.path.join(part.folder, f"second{len(words)}")
            os.mkdir(folder)
            if words == AS_NOBODY:
                os.chown(folder, int(NOBODY), int(NOBODY))
                os.chmod(part.folder, 0o755)
            ended = inside(OURS, *words, "timeout", "3", part.program, "--folder", folder, "9", f"32768,{OTHER}", "a1")
            told = "another lagd has the interface, one of user 0: a1"
            check(ended.returncode == 1 and told in ended.stderr, f"a second one is refused {words[:2]}", ended.returncode, ended.stderr)
        ours.ends("the daemon")
    finally:
        squatter.kill()
        squatter.wait()
    folder = part.folder
    part.folder = os.path.join(folder, "nobody")
    os.makedirs(os.path.join(part.folder, "run"))
    os.chown(os.path.join(part.folder, "run"), int(NOBODY), int(NOBODY))
    theirs = part.ours("a0", before=AS_NOBODY)
    part.folder = folder
    check(within(ENDS, lambda: theirs.port("a0")["link"] == "up"), "a daemon of another user", theirs.printed())
    status, line = part.refused("9", f"32768,{OTHER}", "a0")
    check((status, line) == (1, f"lagd: another lagd has the interface, one of user {NOBODY}: a0\n"), "keeps root's from its interface", line)


def frame(to: str, kind: int) -> bytes:
    return octets(to) + octets("02:00:00:00:00:77") + kind.to_bytes(2, "big") + bytes(60)


def has_frame(reader: socket.socket, kind: int) -> bool:
    """Whether a frame of this type has come."""
    while True:
        try:
            got, address = reader.recvfrom(2048, socket.MSG_DONTWAIT)
        except BlockingIOError:
            return False
        if got[12:14] == kind.to_bytes(2, "big") and address[2] != socket.PACKET_OUTGOING:
            return True


def link_groups(part: Part) -> None:
    """Frames that concern a member alone stay with its own stack; those of bridges, and data, go up."""
    for options in [*PLAIN_AND_FAST, ["--offload"]]:
        ours, theirs = part.ours(options=["--carry", "lag0", *options]), part.theirs(options=["--carry", "lag1"])
        both_up(ours, theirs, f"both links distribute {options}")
        ip(OURS, "link", "set", "lag0", "up")
        wire = packet_socket(THEIRS, "b0", 0)
        for what, (to, kind, stays) in OF_LINK.items():
            member, bundle = packet_socket(OURS, "a0", kind), packet_socket(OURS, "lag0", kind)
            wire.send(frame(to, kind))
            wanted, other = (member, bundle) if stays else (bundle, member)
            came = within(ENDS, lambda: has_frame(wanted, kind))
            time.sleep(0.1)
            where = "the member" if stays else "lag0"
            check(came and not has_frame(other, kind), f"a frame of {what} goes to {where} alone {options}", ours.text())
        for daemon, name in (ours, "the daemon"), (theirs, "the other daemon"):
            daemon.ends(name)


def told_at(daemon: Daemon, name: str) -> float | None:
    """When the daemon told last that a link is down."""
    found = re.findall(rf"^(\S+)Z port \d+ {name}: the link is down", daemon.printed(), re.M)
    return datetime.datetime.fromisoformat(found[-1] + "+00:00").timestamp() if found else None


def second_cut(part: Part) -> None:
    """Two links are cut within a second: neither is told late, after another name either, and without /sys. Both ends of a link have one number, as
    if each was a card: the kernel tells of a carrier that goes there once a second."""
    for place in 2, 3:
        number = ("index", str(1000 + place))
        make_pair(place, number, number)
    inside(OURS, "ip", "link", "property", "add", "dev", "a3", "altname", "third")
    theirs = part.theirs("b2", "b3")
    for before in WITH_AND_WITHOUT_SYS:
        ours = part.ours("a2", "third", before=before)
        cut_twice(ours, theirs)
        ours.ends("the daemon")


def cut_twice(ours: Daemon, theirs: Daemon) -> None:
    late: list[float] = []
    for turn in range(CUTS):
        both = lambda: ours.distributes("a2", "third") and theirs.distributes("b2", "b3")
        check(within(COMES_UP, both), "both links distribute", ours.text(), theirs.text())
        time.sleep(1.5)
        ip(THEIRS, "link", "set", "b2", "down")
        time.sleep(0.2)
        ip(THEIRS, "link", "set", "b3", "down")
        cut = time.time()
        check(within(ENDS, lambda: (told_at(ours, "third") or 0) > cut - 0.5), "the second cut is told", ours.printed())
        late.append((told_at(ours, "third") or 0) - cut)
        counts = [ours.count(name, "link_losses") for name in ("a2", "third")]
        check(counts == [turn + 1, turn + 1], "each is counted once", counts, ours.text())
        for name in "b2", "b3":
            ip(THEIRS, "link", "set", name, "up")
        inside(OURS, "ip", "link", "set", "a3" if turn == 0 else "renamed", "name", "renamed")
    check(sorted(late)[CUTS // 2] <= LATE, f"it is told within {LATE} s, most times", late, ours.printed())


def queued_data(part: Part) -> None:
    """Other programs send more than an interface takes, whose queue knows no priority: no LACPDU waits there, and none is refused."""
    ours, theirs = pair_up(part)
    for words in SLOW_QUEUE:
        made = inside(OURS, "tc", "qdisc", "add", "dev", "a0", *words)
        if made.returncode:
            raise Skipped(f"no queue of a rate: {made.stderr.strip()}")
    before, sent = theirs.port("b0")["counters"], ours.count("a0", "lacpdus_sent")
    floods = [subprocess.Popen(["ip", "netns", "exec", OURS, sys.executable, "-c", FLOOD, "a0", str(FLOODED)]) for _ in range(2)]
    for flood in floods:
        flood.wait()
    now, port = theirs.port("b0")["counters"], ours.port("a0")["counters"]
    dropped = re.search(r"dropped (\d+)", inside(OURS, "tc", "-s", "qdisc", "show", "dev", "a0").stdout)
    check(dropped and int(dropped[1]) > 100, "the queue drops data", dropped and dropped[0])
    check(port["failed_sent"] == 0 and port["lacpdus_sent"] >= sent + FLOODED - 2, "no LACPDU is refused", port)
    check(now["expired"] == before["expired"] and now["lacpdus_received"] >= before["lacpdus_received"] + FLOODED - 2, "and the peer hears them in time", before, now)


def has(name: str, wanted: bool, queues: str = "") -> bool:
    """Whether GRO of an interface is on, and it has so many queues to receive."""
    gro = re.search(r"^generic-receive-offload: (on|off)", inside(OURS, "ethtool", "-k", name).stdout, re.M)
    channels = inside(OURS, "ethtool", "-l", name).stdout.partition("Current")[2]
    return gro is not None and gro[1] == ("on" if wanted else "off") and (not queues or f"RX:\t\t{queues}\n" in channels)


def kept_settings(part: Part) -> None:
    """What members had before they have again: where the start is refused, after SIGTERM, and where a daemon before was killed."""
    if not shutil.which("ethtool"):
        raise Skipped("no command ethtool (Debian: ethtool)")
    ip(OURS, "link", "del", "a0")
    make_pair(0, ("numrxqueues", "4", "numtxqueues", "4"))
    for words in ["-L", "a0", "rx", "3", "tx", "3"], ["-K", "a0", "gro", "on"]:
        inside(OURS, "ethtool", *words)
    check(has("a0", True, "3"), "an interface with GRO and three queues", inside(OURS, "ethtool", "-l", "a0").stdout)

    def files() -> list[str]:
        return [name for name in os.listdir(os.path.join(part.folder, "run")) if name.endswith(".member")]

    other = part.start(OURS, OTHER, "9", "a1")
    within(ENDS, other.ports)
    status, line = part.refused("--carry", "lag0", "7", f"32768,{SYSTEM}", "a0", "a1")
    check(status == 1 and "another lagd has the interface" in line, "a start is refused", line)
    check(has("a0", True, "3") and not files(), "the interface has both again", files())
    other.ends("the other daemon")
    for options in PLAIN_AND_FAST:
        first = part.ours("a0", options=["--carry", "lag0", *options])
        check(within(ENDS, lambda: first.ports() and has("a0", False, "1")), f"a member has neither {options}", first.printed())
        first.kill()
        check(has("a0", False, "1") and len(files()) == 1, "after SIGKILL neither", files())
        second = part.ours("a0", options=["--carry", "lag0", *options])
        check(within(ENDS, lambda: second.ports()), "the next daemon", second.printed())
        second.ends("it")
        check(has("a0", True, "3") and not files(), "and the interface has both again", files())
    first = part.alone(options=["--carry", "lag0"])
    first.kill()
    number = inside(OURS, "cat", "/sys/class/net/a0/ifindex").stdout.strip()
    ip(OURS, "link", "del", "a0")
    make_pair(0, ("index", number))
    second = part.alone(options=["--carry", "lag0"])
    second.ends("the next daemon")
    check(has("a0", False), "another interface of the same number keeps what it had")


def kept_masks(part: Part) -> None:
    """What the queues had that a member gave up they have again: after SIGTERM, and where a daemon before was killed."""
    if not shutil.which("ethtool"):
        raise Skipped("no command ethtool (Debian: ethtool)")
    ip(OURS, "link", "del", "a0")
    make_pair(0, ("numrxqueues", "3", "numtxqueues", "3"))
    wanted = {"rx-0/rps_cpus": "3", "rx-2/rps_cpus": "3", "tx-0/xps_cpus": "1", "tx-1/xps_cpus": "2"}
    for name, mask in wanted.items():
        inside(OURS, "sh", "-c", f"echo {mask} >/sys/class/net/a0/queues/{name}")

    def masks() -> dict[str, str]:
        return {name: inside(OURS, "cat", f"/sys/class/net/a0/queues/{name}").stdout.strip().lstrip("0,") for name in wanted}

    def files() -> list[str]:
        return [name for name in os.listdir(os.path.join(part.folder, "run")) if name.endswith((".member", ".queues"))]

    check(masks() == wanted, "an interface whose queues have processors of their own", masks())
    others = files()  # of parts before
    for options in [*PLAIN_AND_FAST, ["--queues", "all"]]:
        for by in signal.SIGTERM, signal.SIGKILL:
            first = part.ours("a0", options=["--carry", "lag0"])
            one = lambda: first.ports() and not masks()["tx-1/xps_cpus"]
            check(within(ENDS, one), "a member has one queue", first.printed())
            first.leave(by)
            second = part.ours("a0", options=["--carry", "lag0", *options])
            check(within(ENDS, lambda: second.ports()), f"after {by.name} the next daemon, {' '.join(options) or 'plain'}", second.printed())
            second.ends("it")
            check(masks() == wanted and files() == others, "the queues have again what they had", masks(), files(), others)


def one_processor(part: Part) -> None:
    """RPS spreads what a member receives over processors: a marker could come before data that was sent before it. One takes all, until the end; where
    /sys cannot be written, as under the unit, a line says so."""
    place = "/sys/class/net/a0/queues/rx-0/rps_cpus"
    mask = lambda: inside(OURS, "cat", place).stdout.strip().lstrip("0,")
    for options in [*PLAIN_AND_FAST, ["--offload"]]:
        way = " ".join(options) or "plain"
        for by in signal.SIGTERM, signal.SIGKILL:
            inside(OURS, "sh", "-c", f"echo 3 >{place}")
            ours = part.ours("a0", options=["--carry", "lag0", *options])
            check(within(ENDS, lambda: ours.ports() and mask() in ("1", "2")), f"{way}: one processor takes what a member receives", mask(), ours.printed())
            ours.leave(by)
            if by == signal.SIGKILL:
                part.alone(options=["--carry", "lag0"]).ends("the next daemon")
            check(mask() == "3", f"{way}: behind it, after {by.name}, those that did before", mask())
    line = "a0: RPS spreads what it receives over processors, and markers may be answered before data"
    ours = part.ours("a0", options=["--carry", "lag0"], before=["unshare", "-m", "sh", "-c", 'mount -o remount,bind,ro /sys; exec "$@"', "sh"])
    check(within(ENDS, lambda: line in ours.printed()), "where it cannot be set, a line says so", ours.printed())
    check(mask() == "3", "and it stays", mask())


def long_masks(part: Part) -> None:
    """The mask of RPS of a machine with many processors is put back whole."""
    mask = ",".join(["ffffffff"] * 64)
    path, place = os.path.join(part.folder, "mask"), "/sys/class/net/a0/queues/rx-0/rps_cpus"
    Path(path).write_text(f"{mask}\n", encoding="ascii")

    def now() -> str:
        return Path(path).read_text(encoding="ascii").strip()

    before = ["unshare", "--mount", "sh", "-c", f'mount --bind {path} {place} && exec "$@"', "sh"]
    ours = part.ours("a0", options=["--carry", "lag0", "--fast"], before=before)
    check(within(ENDS, lambda: now() == "1"), "one processor takes what a member receives", now(), ours.printed())
    ours.kill()
    again = part.alone(options=["--carry", "lag0", "--fast"], before=before)
    again.ends("the next daemon")
    check(now() == mask, f"after SIGKILL and SIGTERM a mask of {len(mask)} characters is back", now(), again.printed())


def watchers_of(daemon: Daemon, count: int, user: int) -> subprocess.Popen[str]:
    """Somebody watches as often as he can; he tells how often he was refused."""
    words = ["ip", "netns", "exec", OURS, sys.executable, "-c", WATCHERS, daemon.socket(), str(count), str(user)]
    return subprocess.Popen(words, stdout=subprocess.PIPE, text=True)


def places(part: Part) -> None:
    """Whoever watches leaves places for those who ask."""
    os.chmod(part.folder, 0o755)
    ours = part.alone()
    for crowd in [0], [0, 1001, 1002, 1003, 1004]:
        running = [watchers_of(ours, 30, user) for user in crowd]
        refused = [int(it.stdout.readline() if it.stdout else 0) for it in running]
        check(refused[0] == 14, f"root may watch 16 times, beside {len(crowd) - 1} other users", refused)
        for words in ["--status"], ["--status", "--json"], ["--metrics"]:
            asked = inside(OURS, part.program, "--folder", ours.folder, *words)
            check(asked.returncode == 0, f"root is answered beside watchers of {len(crowd)} users {words}", asked.stderr)
        told = inside(OURS, "timeout", "3", part.program, "--folder", ours.folder, "--watch")
        check("refused: this user watches too often" in told.stderr, "who watches too often is told so", told.stderr, told.stdout)
        for it in running:
            it.kill()
            it.wait()
        within(ENDS, lambda: inside(OURS, "timeout", "1", part.program, "--folder", ours.folder, "--watch").stderr == "")


def ups(text: str) -> dict[str, int]:
    return {name: int(value) for name, value in re.findall(r'^lagd_up\{bundle="([^"]+)"\} (\d)$', text, re.M)}


def silent_daemons(part: Part) -> None:
    """A daemon that was killed, and one that is stopped: who asks is told which does not answer. The path of a socket may be long."""
    part.folder = os.path.join(part.folder, "long" * 30)
    os.mkdir(part.folder)
    first, second = part.ours("a0"), part.start(OURS, OTHER, "9", "a1")

    def ask(*words: str) -> subprocess.CompletedProcess[str]:
        return inside(OURS, "timeout", "9", part.program, "--folder", first.folder, *words)

    check(within(ENDS, lambda: ups(ask("--metrics").stdout) == {"a0": 1, "a1": 1}), "two daemons in a long folder are up", ask("--metrics").stderr)
    seconds = re.search(r"^lagd_time_seconds (\d+)$", ask("--metrics").stdout, re.M)
    check(seconds and abs(int(seconds[1]) - time.time()) < 60, "the time is told", seconds)
    second.process.send_signal(signal.SIGSTOP)
    for words in ["--status"], ["--status", "--json"], ["--watch"], ["--metrics"]:
        told = ask(*words)
        check("a1.sock: its daemon does not answer" in told.stderr, f"of a daemon that is stopped {words} says so", told.stderr, told.returncode)
        check(words == ["--watch"] or "a0" in told.stdout, "and the other one answers", told.stdout)
    check(ups(told.stdout) == {"a0": 1, "a1": 0}, "its bundle is not up", told.stdout)
    second.kill()
    told = ask("--metrics")
    check(ups(told.stdout) == {"a0": 1, "a1": 0} and told.returncode == 0, "nor is that of one that was killed", told.stdout, told.stderr)
    first.kill()
    told = ask("--metrics")
    check(ups(told.stdout) == {"a0": 0, "a1": 0} and told.returncode == 0, "where all were killed, none is", told.stdout, told.stderr)
    again = part.ours("a0")
    check(within(ENDS, lambda: ups(ask("--metrics").stdout) == {"a0": 1, "a1": 0}), "and one that is started again is", again.printed())
    again.ends("the daemon")
    check(ups(ask("--metrics").stdout) == {"a1": 0}, "one that ended by a signal has no row", ask("--metrics").stdout)


def one_name(part: Part) -> None:
    """Two bundles of one name in a folder: the second one does not take the socket of the first one."""
    for name, interface in ("one", "a0"), ("two", "a1"):
        os.mkdir(os.path.join(part.folder, name))
        Path(os.path.join(part.folder, name, "uplink.conf")).write_text(f"[Bundle]\nkey=7\nsystem=1,{SYSTEM}\n[Port {interface}]\n", encoding="ascii")
    first = Filed(part, os.path.join(part.folder, "one", "uplink.conf"))
    check(within(ENDS, lambda: ups(inside(OURS, part.program, "--folder", first.folder, "--metrics").stdout) == {"uplink": 1}), "a bundle with a name", first.printed())
    status, line = part.refused("--config", os.path.join(part.folder, "two", "uplink.conf"))
    check((status, line) == (1, "lagd: another lagd has this bundle: uplink\n"), "a second one of that name is refused", line)


PARTS = {
    "places for who asks": places,
    "daemons that do not answer": silent_daemons,
    "bundles of one name": one_name,
    "what members had": kept_settings,
    "what queues of members had": kept_masks,
    "one processor for what a member receives": one_processor,
    "a long mask of processors": long_masks,
    "a second cut": second_cut,
    "a queue of data": queued_data,
    "locks that others hold": squatted_locks,
    "groups of a link": link_groups,
}
