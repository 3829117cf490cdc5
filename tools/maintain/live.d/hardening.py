"""The daemon against odd surroundings and whoever means it ill: strangers on the wire, tags, signals, folders, askers and names."""

from __future__ import annotations

import contextlib
import os
import re
import signal
import socket
import stat
import subprocess
import time
from typing import Callable

from checking import Skipped, check, within
from daemon import ENDS, OTHER, SYSTEM, Part
from daemons import COMES_UP, ELSEWHERE, GOES_DOWN, NOBODY, SOURCE, STRANGER, both_up, pair_up
from spaces import GROUP, OURS, SLOW_PROTOCOLS, THEIRS, Wire, flap, inside, ip, lacpdu, make_pair, marker, most_within, octets, packet_socket

# Where SIGSTOP is given so many messages of the kernel that some are lost.
MANY_MESSAGES = 3000
ODD_SIGNALS = ("SIGALRM", "SIGVTALRM", "SIGPROF", "SIGIO", "SIGPWR", "SIGXCPU", "SIGSTKFLT", "SIGRTMIN")


def forged_each_second(wire: Wire, seconds: float, looks: Callable[[], bool]) -> tuple[float, int]:
    """A stranger speaks once a second; in which share of the looks something holds, and how often it spoke."""
    held, count, sent, until = 0, 0, 0, time.monotonic() + seconds
    while time.monotonic() < until:
        wire.send(lacpdu(STRANGER, 9))
        sent += 1
        for _ in range(5):
            time.sleep(0.2)
            held, count = held + looks(), count + 1
    return held / count, sent


def partner_policy(part: Part) -> None:
    """A stranger forges an LACPDU each second on the first link."""
    theirs = part.theirs()
    for policy in "first", f"32768,{OTHER}":
        ours = part.ours(options=["--partner", policy])
        both_up(ours, theirs, f"partner {policy}: both links come to distribute")
        share, sent = forged_each_second(Wire(THEIRS, "b0"), 8, lambda: ours.distributes("a0", "a1"))
        check(share == 1, f"partner {policy}: an LACPDU of a stranger each second costs nothing", share, ours.text())
        port = ours.port("a0")
        check(port["counters"].get("foreign_received") == sent > 2, "its LACPDUs are counted", sent, port)
        named = {"system": f"32768,{STRANGER}", "source": SOURCE}
        check(port.get("other_system") == named, "the status names it", port)
        line = rf"^another system speaks, last 32768,{STRANGER} from {SOURCE}: \d+ LACPDUs not taken"
        check(any(re.search(line, it) for it in ours.lines("a0")), "so does a line", ours.printed())
        ours.ends("the daemon")
    ours = part.ours("a0:individual", options=["--partner", f"32768,{STRANGER}"])
    foreign = lambda: ours.count("a0", "foreign_received") > 0
    check(within(ENDS, foreign) and ours.port("a0")["partner"]["defaulted"], "who is not the given partner is none", ours.text())


def any_partner(part: Part) -> None:
    """With any partner, whoever speaks is one; the log names both."""
    ours, wire = part.alone(), Wire(THEIRS, "b0")
    for _ in range(4):
        wire.send(lacpdu(OTHER, 1))
        wire.send(lacpdu(STRANGER, 1))
        time.sleep(0.3)
    told = lambda: [line for line in ours.lines("a0") if line.startswith("another system speaks, last 32768,")]
    check(within(ENDS, told), "with any partner a line names who else speaks", ours.printed())
    check(ours.count("a0", "partner_changes") == 7, "and changes of the partner are counted", ours.text())


def first_until_down(part: Part) -> None:
    """The first one stays the partner until the link goes down."""
    ours, wire = part.alone(options=["--partner", "first"]), Wire(THEIRS, "b0")
    named = lambda system: ours.port("a0")["partner"]["system"] == system
    wire.send(lacpdu(STRANGER, 1))
    check(within(ENDS, lambda: named(STRANGER)), "who speaks first is the partner", ours.text())
    wire.send(lacpdu(OTHER, 1))
    check(within(ENDS, lambda: ours.count("a0", "foreign_received") == 1) and named(STRANGER), "and stays so", ours.text())
    flap(THEIRS, "b0", 1)
    within(ENDS, lambda: ours.port("a0")["link"] == "up")
    again = Wire(THEIRS, "b0")

    def other() -> bool:
        again.send(lacpdu(OTHER, 1))
        return bool(named(OTHER))

    check(within(ENDS, other), "until the link goes down", ours.text())


def without_partner(part: Part) -> None:
    """A link without a partner distributes by the standard, and is told of as that; it does not carry where a partner is required."""
    for words, text, state in ([], "it distributes without a partner", "up"), (["--partner-required"], "a partner is required, and it has none", "down"):
        ours = part.ours("a0", options=words)
        check(within(COMES_UP, lambda: ours.port("a0")["status"] == text), f"{words}: alone, it says '{text}'", ours.text())
        check(f"status: {state}, " in ours.text(), f"{words}: and the bundle is {state}", ours.text())
        check(not any(line.startswith("it distributes,") for line in ours.lines("a0")), "no line says 'it distributes'", ours.printed())
        ours.ends("the daemon")


def minimum(part: Part) -> None:
    """A bundle of two links that wants both."""
    ours, theirs = pair_up(part, ours=["--min-links", "2"])
    state = lambda wanted: lambda: f"status: {wanted}, " in ours.text()
    check(within(ENDS, state("up")), "the bundle is up", ours.text())
    ip(THEIRS, "link", "set", "b1", "down")
    check(within(GOES_DOWN, state("down")), "with fewer links than min-links it is down", ours.text())
    check(within(GOES_DOWN, lambda: "status: degraded, 1 of 2" in theirs.text()), "at the peer, who wants one, degraded", theirs.text())


def tagged(vlan: int, protocol: int = 0x8100) -> bytes:
    """A frame with a VLAN tag, which has an LACPDU."""
    tag = protocol.to_bytes(2, "big") + vlan.to_bytes(2, "big") + SLOW_PROTOCOLS.to_bytes(2, "big")
    return octets(GROUP) + octets(SOURCE) + tag + lacpdu(STRANGER, 7)


def tags(part: Part) -> None:
    """LACPDUs with a VLAN tag, without and with an interface of that VLAN."""
    ours = part.alone()
    sender = packet_socket(THEIRS, "b0", 0)
    for frame in tagged(5), tagged(5, 0x88A8):
        sender.send(frame)
    if not inside(OURS, "ip", "link", "add", "link", "a0", "name", "a0.6", "up", "type", "vlan", "id", "6").returncode:
        inside(OURS, "ip", "link", "set", "a0.6", "promisc", "on")
        sender.send(tagged(6))
    time.sleep(1)
    port = ours.port("a0")
    spared = port["partner"]["defaulted"] and port["counters"].get("lacpdus_received") == 0
    check(spared and port["counters"].get("tagged_received", 0) >= 2, "no LACPDU with a VLAN tag is taken", ours.text())


def many_markers(part: Part, count: int = 1000) -> None:
    """More markers than the standard lets a peer send: first nobody is known, and then they come from another one than the partner."""
    ours, wire = part.alone(), Wire(THEIRS, "b0")
    time.sleep(0.5)  # the kernel begins to note times a bit later, and gives a frame before that the time when it is read
    for _ in range(count):
        wire.send(marker(1))
        time.sleep(0.003)
    check(within(ENDS, lambda: ours.count("a0", "markers_received") == count), f"{count} markers are taken", ours.text())
    sent, unsent = (ours.count("a0", f"marker_responses_{name}") for name in ("sent", "unsent"))
    times = wire.arrivals(b"\2\1\2")
    check(most_within(times) == 10 and len(times) == sent >= 20, "any second has ten responses at most", most_within(times), times)
    check(sent + unsent == count, "and the other markers are counted", sent, unsent)
    told = within(ENDS, lambda: any(line.startswith(f"Marker PDUs, last from {SOURCE}: 0 responses") for line in ours.lines("a0")))
    check(told, "a line says so", ours.printed())
    wire.send(lacpdu(STRANGER, 1))
    check(within(ENDS, lambda: ours.count("a0", "lacpdus_received") == 1), "once there is a partner", ours.text())
    time.sleep(1.2)
    begin, turns = time.monotonic(), 5
    for _ in range(turns):
        wire.send(lacpdu(STRANGER, 1))  # it stays the partner, however long this takes on a loaded machine
        for _ in range(count // 10):
            wire.send(marker(1), source=ELSEWHERE)
            time.sleep(0.003)
        wire.send(marker(1))
    all_came = count + turns * (count // 10 + 1)
    within(ENDS, lambda: ours.count("a0", "markers_received") == all_came)
    later, most = ours.count("a0", "marker_responses_sent") - sent, turns + 2 * (time.monotonic() - begin + 1)
    check(turns + 2 <= later <= most, "each of its markers is answered, and two a second at most of another one", later, most)


def many_lacpdus(part: Part, seconds: float = 10) -> None:
    """Each LACPDU of a partner that does not know this end wants one, while the daemon gets its processor late now and then."""
    ours, wire = part.alone(), Wire(THEIRS, "b0")
    until, turn, times = time.monotonic() + seconds, 0, []
    while time.monotonic() < until:
        turn += 1
        wire.send(lacpdu(STRANGER, 1))
        ours.process.send_signal(signal.SIGSTOP)
        time.sleep(0.01 + 0.013 * (turn % 12))
        ours.process.send_signal(signal.SIGCONT)
        time.sleep(0.03)
        times += wire.arrivals(b"\1\1")
    check(most_within(times) == 3 and len(times) > seconds, "any second has three LACPDUs at most", most_within(times), times)


def silent_first(part: Part) -> None:
    """The first partner changes its system, and its link stays up."""
    ours, wire = part.alone(options=["--partner", "first"]), Wire(THEIRS, "b0")
    wire.send(lacpdu(STRANGER, 1))
    check(within(ENDS, lambda: ours.port("a0")["pinned"] == f"32768,{STRANGER}"), "who speaks first is the partner", ours.text())
    begin = time.monotonic()

    def other() -> bool:
        wire.send(lacpdu(OTHER, 1))
        return bool(ours.port("a0")["partner"]["system"] == OTHER)

    taken = within(ENDS, other)
    waited = time.monotonic() - begin
    check(taken and waited > 4, f"when it was silent until the port ran on defaults, another one is, after {waited:.1f} s", ours.text())
    check(ours.count("a0", "foreign_received") > 3 and ours.count("a0", "defaulted") == 1, "and not before", ours.text())


def same_system(part: Part) -> None:
    """Two hosts that were given one system: both links have a partner of port 1."""
    ours, wires = part.ours(), [Wire(THEIRS, "b0"), Wire(THEIRS, "b1")]
    within(ENDS, lambda: ours.port("a1")["link"] == "up")

    def told(port: int, other: str | None) -> bool:
        wires[0].send(lacpdu(STRANGER, 1))
        wires[1].send(lacpdu(STRANGER, port))
        time.sleep(0.3)
        return bool(ours.port("a1").get("same_partner_port") == other and ours.port("a1")["partner"]["port"] == port)

    check(within(ENDS, lambda: told(1, "a0")), "the status says that both links have the same partner port", ours.text())
    line = f"its partner is port 1 of 32768,{STRANGER}, and so is that of port 1 a0: two hosts may have this system"
    check(line in ours.lines("a1") and "partner port: that of a1, too" in ours.text(), "so do a line and the text", ours.printed())
    check(within(ENDS, lambda: told(2, None)), "and no longer once they have two ports", ours.text())


def ignored_hangup(part: Part) -> None:
    """nohup leaves SIGHUP ignored."""
    ours, theirs = part.ours(before=["nohup"]), part.theirs()
    both_up(ours, theirs, "started by nohup, both links distribute")
    ours.process.send_signal(signal.SIGHUP)
    time.sleep(1)
    check(ours.process.poll() is None and ours.distributes("a0", "a1"), "SIGHUP does not end it", ours.printed())


def odd_signals(part: Part) -> None:
    """Signals that would end a program at once end this one when the peers are told: the peer would miss it after 90 s only."""
    theirs = part.theirs(options=["--timeout", "long"])
    for name in ODD_SIGNALS:
        ours = part.ours()
        both_up(ours, theirs, "both links distribute")
        ours.process.send_signal(getattr(signal, name))
        check(ours.status() == 0, f"{name} ends the daemon with status 0", ours.printed())
        check(within(5, lambda: not (theirs.distributes("b0") or theirs.distributes("b1"))), "its peer stops both links at once")


def anew_while_stopped(part: Part) -> None:
    """A daemon is stopped while its interface is made anew with the same number, and so much happens that it is not told of that."""
    ours, theirs = pair_up(part)
    flap(THEIRS, "b1", 5)
    before = ours.count("a1", "link_losses")
    index = inside(OURS, "cat", "/sys/class/net/a1/ifindex").stdout.strip()
    ours.process.send_signal(signal.SIGSTOP)
    for _ in range(MANY_MESSAGES // 1000):
        ip(OURS, "-batch", "-", input="link set a0 txqueuelen 999\nlink set a0 txqueuelen 1000\n" * 500)
    ip(OURS, "link", "del", "a1")
    make_pair(1, ("index", index))
    ours.process.send_signal(signal.SIGCONT)
    both_up(ours, theirs, "an interface that was made anew with its number is taken up")
    after = ours.count("a1", "link_losses")
    check(before < after < before + 20, "its losses are counted on, and do not wrap", before, after)


def modes(part: Part) -> None:
    """The status socket has its mode by itself, and who may not ask is told that."""
    os.chmod(part.folder, 0o755)
    ours = part.alone(before=["sh", "-c", 'umask 0; exec "$@"', "sh"])
    mode = stat.S_IMODE(os.stat(ours.socket()).st_mode)
    check(mode == 0o660, "the status socket has mode 0660, whatever the umask is", oct(mode))
    words = ["setpriv", "--reuid", NOBODY, "--regid", NOBODY, "--clear-groups", ours.program, "--folder", ours.folder, "--status"]
    told = inside(OURS, *words)
    check(told.returncode == 1 and "permission denied" in told.stderr, "who may not ask is told that permission is denied", told.stderr)


# Asks without end, and reads no answer.
HASTY = """import socket, sys
while True:
    asker = socket.socket(socket.AF_UNIX)
    asker.settimeout(1)
    try:
        asker.connect(sys.argv[1])
        asker.send(b"json\\n")
    except OSError:
        pass
    asker.close()
"""


def busy_askers(part: Part) -> None:
    """Some ask without end, and some connect and say nothing: another one is answered."""
    ours = part.alone()
    busy = [subprocess.Popen(["python3", "-c", HASTY, ours.socket()]) for _ in range(2)]
    silent = [socket.socket(socket.AF_UNIX, socket.SOCK_STREAM | socket.SOCK_NONBLOCK) for _ in range(100)]
    for it in silent:
        it.connect_ex(ours.socket())
    time.sleep(3)
    before, begin, used = ours.count("a0", "lacpdus_sent"), time.monotonic(), ours.busy()
    answers = [inside(OURS, ours.program, "--folder", ours.folder, "--status").returncode for _ in range(9)]
    time.sleep(3)
    share = (ours.busy() - used) / (time.monotonic() - begin)
    for asker in busy:
        asker.kill()
        asker.wait()
    for it in silent:
        it.close()
    check(answers == [0] * 9, "beside busy and silent askers each question is answered", answers)
    check(ours.count("a0", "lacpdus_sent") >= before + 1 and share < 0.3, "and the daemon goes on", f"{share:.1%}", ours.text())


def folders(part: Part) -> None:
    """A folder of another user, one that others may write, and a symbolic link are refused."""
    made = os.path.join(part.folder, "odd")
    os.mkdir(made)
    words = ["7", f"32768,{SYSTEM}", "a0"]

    def is_refused(what: str) -> None:
        ended = inside(OURS, "timeout", "3", part.program, "--folder", made, *words)
        check(ended.returncode == 1, f"a folder {what} is refused", ended.returncode, ended.stderr)

    os.chown(made, int(NOBODY), int(NOBODY))
    is_refused("of another user")
    os.chown(made, 0, 0)
    os.chmod(made, 0o777)
    is_refused("that others may write")
    os.chmod(made, 0o755)
    os.rename(made, made + "2")
    os.symlink(made + "2", made)
    is_refused("through a symbolic link")


def fifos(part: Part) -> None:
    """Of each file of the folder there is a FIFO at whose other end nobody is: the daemon waits for nobody, at its start and later."""
    made = os.path.join(part.folder, "run")
    os.makedirs(made, exist_ok=True)
    space, index = os.stat("/run/netns/" + OURS).st_ino, inside(OURS, "cat", "/sys/class/net/a0/ifindex").stdout.strip()
    for name in f"{space}.{index}.member", f"{space}.{index}.member.new", f"{space}.{index}.queues", f"{space}.a0.state.new":
        path = os.path.join(made, name)
        os.mkfifo(path)
        ours = part.ours("a0", options=["--carry", "lag0"])
        answers = within(ENDS, lambda: ours.port("a0")["link"] == "up")
        check(answers, f"a daemon starts beside a FIFO {name[len(str(space)) + 1:]}", ours.printed())
        if answers:
            before = ours.count("a0", "lacpdus_sent")
            check(within(3, lambda: ours.count("a0", "lacpdus_sent") > before), "and goes on")
            ours.ends("it")
        else:
            ours.kill()
        with contextlib.suppress(FileNotFoundError):
            os.unlink(path)


def false_socket(part: Part) -> None:
    """Somebody else's socket says escape sequences."""
    folder = os.path.join(part.folder, "false")
    os.mkdir(folder)
    name = os.path.join(folder, f"{os.stat('/run/netns/' + OURS).st_ino}.x.sock")
    server = "import socket,sys\ns=socket.socket(socket.AF_UNIX)\ns.bind(sys.argv[1])\ns.settimeout(9)\ns.listen()\nc=s.accept()[0]\nc.recv(9)\nc.send(b'\\x1b]0;x\\x07\\x9b31m\\n')\n"
    running = subprocess.Popen(["python3", "-c", server, name])
    within(ENDS, lambda: os.path.exists(name))
    told = inside(OURS, part.program, "--folder", folder, "--status")
    running.wait(ENDS)
    check(told.stdout == "\\x1b]0;x\\x07\\x9b31m\n", "what a false daemon says is only shown", repr(told.stdout), told.stderr)


def other_names(part: Part) -> None:
    """An interface by one of its alternative names."""
    made = inside(OURS, "ip", "link", "property", "add", "dev", "a0", "altname", "thefirstinterfacebyitslongname")
    if made.returncode:
        raise Skipped(f"no alternative names: {made.stderr.strip()}")
    ours = part.ours("thefirstinterfacebyitslongname", "a1")
    theirs = part.theirs()
    both = lambda: ours.distributes("thefirstinterfacebyitslongname", "a1") and theirs.distributes("b0", "b1")
    check(within(COMES_UP, both), "an interface is taken by an alternative name", ours.text())


def name_twice(part: Part) -> None:
    inside(OURS, "ip", "link", "property", "add", "dev", "a0", "altname", "again0")
    status, line = part.refused("7", f"32768,{SYSTEM}", "a0", "again0")
    check(status == 1 and "this lagd, by another name" in line, "one interface by two names is refused", line)


def full_log(part: Part) -> None:
    """The log may not grow: the daemon goes on."""
    ours = part.ours("a0", "a1", before=["sh", "-c", 'ulimit -f 1; exec "$@"', "sh"])
    theirs = part.theirs()
    both_up(ours, theirs, "with a log of at most 512 octets both links distribute")
    flap(OURS, "a1", 40)
    both_up(ours, theirs, "and do so when the log is full")


PARTS = {
    "whom it bonds with": partner_policy,
    "any partner": any_partner,
    "the first partner": first_until_down,
    "no partner": without_partner,
    "fewer links than wanted": minimum,
    "VLAN tags": tags,
    "the first partner falls silent": silent_first,
    "two hosts of one system": same_system,
    "many markers": many_markers,
    "many LACPDUs": many_lacpdus,
    "SIGHUP that is ignored": ignored_hangup,
    "odd signals": odd_signals,
    "an interface that is made anew": anew_while_stopped,
    "the mode of the status socket": modes,
    "busy askers": busy_askers,
    "folders of others": folders,
    "FIFOs in the folder": fifos,
    "a false daemon": false_socket,
    "alternative names": other_names,
    "one interface by two names": name_twice,
    "a log that may not grow": full_log,
}
