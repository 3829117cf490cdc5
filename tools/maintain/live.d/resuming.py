"""A daemon that goes on where the last one was, without data: what its peer sees, and what becomes of it where it may not."""

from __future__ import annotations

import contextlib
import glob
import os
import re
import shutil
import signal
import time
from typing import Callable, Iterator, Sequence

from checking import Failed, Skipped, check, command, within
from daemon import ENDS, Daemon, Part
from daemons import COMES_UP, GOES_DOWN, both_up, pair_up
from repository import read_text, write_text
from spaces import OURS, THEIRS, flap, ip, make_pair

# What the first line says that the next daemon prints: it went on, or why it did not.
WENT_ON, NOT_USED = "2 of 2 links go on", "the state that the last daemon left is not used: "
# By when a copy is written after ports came or went, and by when it is written anew, in seconds.
COPIED, RENEWED = 4, 14
# An end with short timeouts waits so long for an LACPDU, in seconds, and one with long timeouts.
TIMEOUT, LONG_TIMEOUT = 3, 90
# What a daemon that comes late has left of these, in seconds.
SHORT_REST, REST = 0.5, 5


def state_file(daemon: Daemon) -> str:
    """The file with what our daemon leaves; the newest, since namespaces of other parts may have left theirs."""
    return max(glob.glob(f"{daemon.folder}/*.a0.state"), key=os.path.getmtime)


def changed(path: str, change: Callable[[str], str]) -> None:
    text = read_text(path)
    write_text(path, change(text))


def hand_over(part: Part, ours: Daemon, between: Callable[[], None] = lambda: None, by: signal.Signals = signal.SIGUSR1,
              names: Sequence[str] = ("a0", "a1"), options: Sequence[str] = ()) -> Daemon:
    """The next daemon, after something that happens between both."""
    ours.leave(by)
    between()
    again = part.ours(*names, options=options)
    if not within(ENDS, lambda: "bundle" in again.printed()):
        raise Failed("the next daemon begins", again.printed())
    return again


def said(daemon: Daemon) -> str:
    """What a daemon has printed, once it prints no more."""
    text = ""
    while text != (text := daemon.printed()):
        time.sleep(0.5)
    return text


def goes_on(part: Part) -> None:
    """By SIGUSR1, and by SIGKILL, each time with no line of the peer; twice in a row, too."""
    ours, theirs = pair_up(part, "two daemons: both links come to distribute")
    time.sleep(1.5)
    lines = said(theirs)
    for by in signal.SIGUSR1, signal.SIGUSR1, signal.SIGKILL:
        ours = hand_over(part, ours, by=by)
        check(WENT_ON in ours.printed() and ours.distributes("a0", "a1"), f"after {by.name} the next daemon distributes at once", ours.printed(), ours.text())
        time.sleep(2 * TIMEOUT)
        check(theirs.printed() == lines and ours.distributes("a0", "a1"), "and its peer has seen nothing, for twice its timeout", theirs.printed(), ours.printed())
    partner = ours.port("a0")["partner"]
    check(not partner["defaulted"] and partner["port"] == 1, "it knows its partner", partner)
    path = state_file(ours)
    ours.ends("the daemon")
    check(not os.path.exists(path), "a stop leaves no state")
    check(within(GOES_DOWN, lambda: not (theirs.distributes("b0") or theirs.distributes("b1"))), "and tells the peer", theirs.text())


def in_a_row(part: Part) -> None:
    """A daemon that hands over before it has sent an LACPDU, of which the peer wants one each 30 s."""
    ours, theirs = pair_up(part, "two daemons: both links come to distribute", theirs=["--timeout", "long"])
    time.sleep(1.5)
    lines = said(theirs)
    for turn in range(3):
        ours = hand_over(part, ours)
        check(WENT_ON in ours.printed() and theirs.printed() == lines, f"handover {turn + 1}: the peer sees nothing", ours.printed(), theirs.printed())


def grow_old(ours: Daemon, timeout: float = LONG_TIMEOUT, rest: float = REST) -> None:
    """The last LACPDUs of the peer came so long ago that the next daemon has little left of its timeout."""
    heard = int(1000 * (time.clock_gettime(time.CLOCK_BOOTTIME) - timeout + rest))
    changed(state_file(ours), lambda text: re.sub(r"^(link \d+ \S+ \d+ 1) \d+ ", rf"\1 {heard} ", text, flags=re.M))


def comes_late(part: Part) -> None:
    """A daemon that missed LACPDUs of a peer, which sends each 30 s, has it send at once; a copy of its state stays meanwhile."""
    kept = os.path.join(part.folder, "late")
    os.makedirs(kept)
    options = ["--timeout", "long", "--state-dir", kept]
    ours, theirs = pair_up(part, "long timeouts: both links come to distribute", ours=options, theirs=["--timeout", "long"])
    time.sleep(1.5)
    lines = said(theirs)
    sent = [theirs.count(name, "lacpdus_sent") for name in ("b0", "b1")]
    ours = hand_over(part, ours, lambda: grow_old(ours), options=options)
    check(WENT_ON in ours.printed(), f"{REST} s before its timeout the next daemon goes on", ours.printed())
    check(not within(0.8, lambda: not os.path.exists(f"{kept}/a0.state")), "the copy of its state stays", os.listdir(kept))
    time.sleep(REST + 1)
    in_time = "no LACPDU" not in ours.printed() and ours.distributes("a0", "a1")
    check(in_time, "its peer, which would send later, sends in time", ours.printed(), ours.text())
    check(theirs.printed() == lines, "and sees nothing", theirs.printed())
    more = [theirs.count(name, "lacpdus_sent") - before for name, before in zip(("b0", "b1"), sent)]
    check(all(1 <= count <= 2 for count in more), f"it was asked once on each link, and sent {more[0]} and {more[1]} LACPDUs", theirs.text())


def comes_late_by_short_timeout(part: Part) -> None:
    """A daemon that has half a second left of a short timeout asks its peer, which sends each second, and has its answer before that is over."""
    ours, theirs = pair_up(part, "short timeouts: both links come to distribute")
    for turn in range(4):
        # The peer's next LACPDUs come in more than what is left.
        sent = theirs.count("b0", "lacpdus_sent")
        check(within(2, lambda: theirs.count("b0", "lacpdus_sent") > sent), f"turn {turn + 1}: the peer sends", theirs.text())
        lines = said(theirs)
        began = time.monotonic()
        ours = hand_over(part, ours, lambda: grow_old(ours, TIMEOUT, SHORT_REST))
        if time.monotonic() - began > SHORT_REST - 0.1:
            print(f"row: inconclusive, turn {turn + 1}: the machine was too slow", flush=True)
            both_up(ours, theirs, "both links come up")
            continue
        time.sleep(TIMEOUT)
        check(WENT_ON in ours.printed() and "no LACPDU" not in ours.printed(), f"turn {turn + 1}: it goes on, and hears the peer in time", ours.printed())
        check(said(theirs) == lines and ours.distributes("a0", "a1"), f"turn {turn + 1}: the peer sees nothing", theirs.printed())


def keeps_limit(part: Part) -> None:
    """With a limit of links the one that carried carries, whatever its number is."""
    limit = ["--max-links", "1"]
    ip(THEIRS, "link", "set", "b0", "down")
    ours, theirs = part.ours(options=limit), part.theirs()
    check(within(COMES_UP, lambda: ours.distributes("a1")), "the second link comes up first", ours.text())
    ip(THEIRS, "link", "set", "b0", "up")
    waits = lambda: "another link of its aggregator" in ours.text() or ours.port("a0")["status"] not in ("it distributes", "the link is down")
    check(within(COMES_UP, waits), "and the first one waits", ours.text())
    time.sleep(1.5)
    lines = len(theirs.lines("b1"))
    ours = hand_over(part, ours, options=limit)
    time.sleep(TIMEOUT)
    check(ours.distributes("a1") and not ours.distributes("a0") and len(theirs.lines("b1")) == lines, "after SIGUSR1 it is so, too", ours.text(), theirs.printed())


def gives_way(part: Part, ours: Daemon, theirs: Daemon, what: str, text: str, between: Callable[[], None]) -> Daemon:
    """The next daemon says why it does not go on, and tells of no port as distributing that its peer does not know; then both come up."""
    again = hand_over(part, ours, between)
    said = again.printed()
    check(text in said, f"{what}: a line says so", said)
    check(text == WENT_ON or not again.distributes("a0", "a1"), f"{what}: it negotiates anew", again.text())
    both_up(again, theirs, f"{what}: both links come up")
    time.sleep(1.5)
    return again


def begins_anew(part: Part) -> None:
    """A state that is of no use."""
    ours, theirs = pair_up(part, "two daemons: both links come to distribute")
    time.sleep(1.5)
    length = os.path.getsize(state_file(ours))
    rows: list[tuple[str, str, Callable[[], None]]] = [
        ("of another version", "of another version", lambda: changed(state_file(ours), lambda text: re.sub(r"^lagd \d+", "lagd 99", text))),
        ("of another boot", "of another boot", lambda: changed(state_file(ours), lambda text: re.sub(r"boot \S+", "boot other", text))),
        ("of another namespace", "of another network namespace", lambda: changed(state_file(ours), lambda text: re.sub(r"space \d+", "space 1", text))),
        ("of another system", "other settings", lambda: changed(state_file(ours), lambda text: re.sub(r"way \d+", "way 1", text))),
        ("no text of lagd", "no state of lagd", lambda: changed(state_file(ours), lambda text: "\0" * 100)),
        ("as old as the timeout", "0 of 2 links go on", lambda: time.sleep(TIMEOUT + 0.2)),
        ("of later than now", "0 of 2 links go on", lambda: changed(state_file(ours), lambda text: re.sub(r" 1 \d+ \d+ ", " 1 99999999999 99999999999 ", text))),
    ]
    for cut in (0, 7, 60, length // 2, length - 5):
        rows.append((f"cut off after {cut} octets", NOT_USED, lambda cut=cut: os.truncate(state_file(ours), cut)))  # type: ignore[misc]
    for what, text, between in rows:
        ours = gives_way(part, ours, theirs, f"a state that is {what}", text, between)


@contextlib.contextmanager
def blocked(ours: Daemon) -> Iterator[None]:
    """No state can be written while this lasts."""
    path = state_file(ours)
    os.unlink(path)
    os.makedirs(f"{path}/kept")
    try:
        yield
    finally:
        os.rmdir(f"{path}/kept")
        os.rmdir(path)


def things_change(part: Part) -> None:
    """What changes between both daemons: a link, an interface, the peer, the settings; and a state that cannot be written."""
    ours, theirs = pair_up(part, "two daemons: both links come to distribute")
    time.sleep(1.5)

    def remake() -> None:
        ip(OURS, "link", "del", "a1")
        make_pair(1)

    for what, between in ("a link that went and came back", lambda: flap(THEIRS, "b1", 1)), ("an interface that was made anew", remake):
        ours = gives_way(part, ours, theirs, what, "1 of 2 links go on", between)
    theirs.kill()
    peers: list[Daemon] = []
    ours = hand_over(part, ours, lambda: peers.append(part.theirs(options=["--port-priority", "77"])))
    theirs = peers[0]
    both_up(ours, theirs, "a peer that was started again, with another state")
    check(ours.port("a0")["partner"]["port_priority"] == 77, "is known as it is now", ours.text())
    time.sleep(1.5)
    second = part.refused("23", "32768,02:00:00:00:00:aa", "a0", "a1")
    check(second[0] == 1 and "another lagd has" in second[1], "a second daemon beside one that runs is refused", second)
    lines = said(theirs)
    time.sleep(TIMEOUT + 1)
    check(theirs.printed() == lines, "and the peer saw nothing of it", theirs.printed())
    ours = hand_over(part, ours, names=("a0",))
    check("2 of 2 links go on" in ours.printed(), "a link that is no more in the settings goes on first", ours.printed())
    check(within(ENDS, lambda: "a1: it left the bundle" in ours.printed()) and list(ours.ports()) == ["a0"], "and leaves, once its peer was told", ours.printed(), theirs.printed())
    check(within(GOES_DOWN, lambda: not theirs.distributes("b1")) and theirs.distributes("b0"), "as the peer notices in its time", theirs.text())
    time.sleep(1.5)
    ours = hand_over(part, ours)
    check("1 of 2 links go on" in ours.printed(), "one that is new in them is added", ours.printed())
    both_up(ours, theirs, "and both distribute")
    with blocked(ours):
        check(within(ENDS, lambda: "its state cannot be kept" in ours.printed()), "a state that cannot be written has a line", ours.printed())
        ours.ends("then the daemon", signal.SIGUSR1)
        check(within(GOES_DOWN, lambda: not (theirs.distributes("b0") or theirs.distributes("b1"))), "as at a stop, which the peer is told of", theirs.text())


# How long the machine of the next daemon has been up, in seconds.
UP = 3


def own_process(daemon: Daemon) -> int:
    """The process of a daemon, which one that makes its namespace of times may have started."""
    children = open(f"/proc/{daemon.process.pid}/task/{daemon.process.pid}/children", encoding="utf-8").read().split()
    return int(children[0]) if "unshare" in daemon.words and children else daemon.process.pid


def boots(part: Part, ours: Daemon, kept: str, change: Callable[[str], str] = lambda text: text, by: signal.Signals = signal.SIGUSR1) -> Daemon:
    """Our daemon leaves its state, which is changed. The next one has another boot: its clock of that begins anew, and what was in /run is gone."""
    if ours.process.poll() is None:
        os.kill(own_process(ours), by)
        ours.process.wait(ENDS)
    for path in glob.glob(f"{ours.folder}/*.state"):
        os.unlink(path)
    if os.path.exists(f"{kept}/a0.state"):
        changed(f"{kept}/a0.state", change)
    time.sleep(UP - 1)
    offset = UP - int(float(open("/proc/uptime", encoding="utf-8").read().split()[0]))
    again = part.ours(options=["--timeout", "long", "--state-dir", kept], before=["unshare", "--time", "--boottime", str(offset), "--fork", "--kill-child"])
    if not within(ENDS, lambda: "bundle" in again.printed()):
        raise Failed("the next daemon begins", again.printed())
    return again


def outlives_boot(part: Part) -> None:
    """With state-dir the first daemon after a reboot goes on, by names of interfaces and the clock on the wall; with a state of no use it does not."""
    if command("unshare", "--time", "true").returncode:
        raise Skipped("no namespaces of times")
    kept = os.path.join(part.folder, "kept")
    os.makedirs(kept, exist_ok=True)
    theirs = part.theirs(options=["--timeout", "long"])
    ours = part.ours(options=["--timeout", "long", "--state-dir", kept])
    rows: list[tuple[str, str, Callable[[str], str]]] = [
        ("that was just left", WENT_ON, lambda text: text),
        ("of a boot before the last one", WENT_ON, lambda text: text),
        ("of later than now, as the clock was set back", "of later than now", lambda text: re.sub(r"wall (\d+)", lambda it: f"wall {int(it[1]) + 60000}", text)),
        ("older than a timeout, or of a clock that was set on", "0 of 2 links go on", lambda text: re.sub(r"wall (\d+)", lambda it: f"wall {int(it[1]) - 95000}", text)),
        ("without a time", "of later than now", lambda text: re.sub(r"wall \d+\n", "", text)),
        ("that is cut off", "cut off", lambda text: text[:-9]),
        ("with another name", "1 of 2 links go on", lambda text: text.replace(" a1\n", " a7\n")),
        ("of another machine", "no LACPDU", lambda text: re.sub(r"(link \d+) ..:", r"\1 06:", text)),
        ("whose names are exchanged", "no LACPDU", lambda text: text.replace(" a1\n", " a7\n").replace(" a0\n", " a1\n").replace(" a7\n", " a0\n")),
        ("of other settings", "other settings", lambda text: re.sub(r"way \d+", "way 1", text)),
    ]
    for what, text, change in rows:
        both_up(ours, theirs, "both links come to distribute")
        lines = said(theirs)
        ours = boots(part, ours, kept, change)
        check(text in ours.printed(), f"a state {what}: a line says so", ours.printed())
        if text != WENT_ON:
            check(WENT_ON not in ours.printed(), "it negotiates anew", ours.printed())
        else:
            time.sleep(TIMEOUT)
            check(theirs.printed() == lines and ours.distributes("a0", "a1"), "its peer has seen nothing", theirs.printed(), ours.printed())
    both_up(ours, theirs, "both links come to distribute")
    os.kill(own_process(ours), signal.SIGTERM)
    ours.process.wait(ENDS)
    check(not os.path.exists(f"{kept}/a0.state"), "a stop leaves none")
    ours = part.ours(options=["--timeout", "long", "--state-dir", "/proc/kept"])
    both_up(ours, theirs, "where the folder cannot be made, both links distribute")
    check("no state is kept in /proc/kept" in ours.printed(), "and a line says so", ours.printed())


def carried_in(path: str) -> list[str]:
    """Of each link in a copy whether its port goes on; nothing where there is no whole one."""
    text = open(path, encoding="utf-8").read() if os.path.exists(path) else ""
    return re.findall(r"^link \d+ \S+ \d+ (\d) ", text, re.M) if text.endswith("end\n") else []


def outlives_crash(part: Part) -> None:
    """With state-dir, and long timeouts at both ends, there is a copy while a daemon runs, too: the first one after a crash of the machine goes on."""
    if command("unshare", "--time", "true").returncode:
        raise Skipped("no namespaces of times")
    kept = os.path.join(part.folder, "crashed")
    os.makedirs(kept, exist_ok=True)
    copy, options = f"{kept}/a0.state", ["--timeout", "long", "--state-dir", kept]
    ours, theirs = pair_up(part, "both links come to distribute", ours=options, theirs=["--timeout", "long"])
    check(within(COPIED, lambda: carried_in(copy) == ["1", "1"]), "a copy is kept while the daemon runs", os.listdir(kept))
    first = os.stat(copy).st_ino
    check(within(RENEWED, lambda: os.path.exists(copy) and os.stat(copy).st_ino != first), "it is renewed", os.listdir(kept))
    lines = said(theirs)
    ours = boots(part, ours, kept, by=signal.SIGKILL)
    check(WENT_ON in ours.printed(), "the first daemon after a crash of the machine goes on", ours.printed())
    time.sleep(TIMEOUT)
    check(theirs.printed() == lines and ours.distributes("a0", "a1"), "its peer has seen nothing", theirs.printed(), ours.printed())
    ip(OURS, "link", "set", "a1", "down")
    check(within(COPIED, lambda: carried_in(copy) == ["1", "0"]), "a link that goes is no more in the copy", ours.printed())
    ip(OURS, "link", "set", "a0", "down")
    check(within(COPIED, lambda: not os.path.exists(copy)), "without a link that carries there is none", ours.printed())
    for name in ("a0", "a1"):
        ip(OURS, "link", "set", name, "up")
    both_up(ours, theirs, "both links come back")
    check(within(COPIED, lambda: carried_in(copy) == ["1", "1"]), "and then there is one again", ours.printed())
    other_name(part, kept)
    os.kill(own_process(ours), signal.SIGTERM)
    ours.process.wait(ENDS)
    time.sleep(1)
    check(not os.path.exists(copy), "a stop leaves none", os.listdir(kept))
    theirs.ends("their daemon")
    short_of_time(part, kept)


def space_of(copy: str) -> str | None:
    """The network namespace that a copy names."""
    found = re.search(r"^space (\d+)$", open(copy, encoding="utf-8").read(), re.M)
    return found[1] if found else None


def other_name(part: Part, kept: str) -> None:
    """A bundle of that name in another network namespace does without the copy, and the one that has it is not disturbed."""
    make_pair(2)
    ip(THEIRS, "link", "property", "add", "dev", "b2", "altname", "a0")
    space = space_of(f"{kept}/a0.state")
    second = part.theirs("a0", options=["--timeout", "long", "--state-dir", kept])
    text = f"no state is kept in {kept}, so a start after a reboot begins anew: another lagd has a bundle of this name there"
    check(within(ENDS, lambda: text in second.printed()), "a bundle of one name in another network namespace says that it does without", second.printed())
    second.ends("the second one")
    check(space is not None and space_of(f"{kept}/a0.state") == space, "the copy of the first one stays", space)


def short_of_time(part: Part, kept: str) -> None:
    """Where an end waits for 3 s, no start after a reboot is in time: only a daemon that leaves writes a copy. What cannot be written has a line."""
    ours, theirs = pair_up(part, "with a short timeout both links come to distribute", ours=["--state-dir", kept], theirs=["--timeout", "long"])
    time.sleep(2)
    check(not os.path.exists(f"{kept}/a0.state"), "with a short timeout no copy is kept", os.listdir(kept))
    ours.ends("the daemon")
    small = os.path.join(part.folder, "small")
    os.makedirs(small)
    if command("mount", "-t", "tmpfs", "-o", "mode=755,nr_inodes=2", "none", small).returncode:
        raise Skipped("no mount")
    try:
        full_disk(part, theirs, small)
    finally:
        command("umount", "-l", small)


def full_disk(part: Part, theirs: Daemon, kept: str) -> None:
    """A disk that has room for the lock, and for no copy."""
    ours = part.ours(options=["--timeout", "long", "--state-dir", kept])
    both_up(ours, theirs, "both links come to distribute")
    line = f"its state cannot be kept in {kept}, and what is there may stay: No space left on device"
    check(within(COPIED, lambda: line in ours.printed()), "a copy that cannot be written has a line", ours.printed())
    command("mount", "-o", "remount,nr_inodes=100", kept)
    check(within(RENEWED, lambda: carried_in(f"{kept}/a0.state") == ["1", "1"]), "it is tried again", ours.printed())
    check(ours.printed().count(line) == 1, "of several faults in a row one has a line", ours.printed())
    ours.ends("the daemon")
    check(not os.path.exists(f"{kept}/a0.state"), "a stop leaves none", os.listdir(kept))


def hangs_on_disk(part: Part) -> None:
    """A disk that hangs disturbs neither a daemon that runs, nor the next one, nor an end; whoever still writes then leaves nothing behind."""
    image, disk = os.path.join(part.folder, "image"), os.path.join(part.folder, "disk")
    os.makedirs(disk)
    with open(image, "wb") as it:
        it.truncate(32 << 20)
    if not shutil.which("mkfs.ext4") or command("mkfs.ext4", "-q", image).returncode or command("mount", "-o", "loop", image, disk).returncode:
        raise Skipped("no file system of its own")
    try:
        frozen_disk(part, disk)
    finally:
        command("fsfreeze", "-u", disk)
        command("umount", "-l", disk)


def frozen_disk(part: Part, disk: str) -> None:
    kept = f"{disk}/kept"
    options = ["--timeout", "long", "--state-dir", kept]
    ours, theirs = pair_up(part, "both links come to distribute", ours=options, theirs=["--timeout", "long"])
    check(within(COPIED, lambda: carried_in(f"{kept}/a0.state") == ["1", "1"]), "there is a copy", os.listdir(kept))
    lines = said(theirs)
    if command("fsfreeze", "-f", disk).returncode:
        raise Skipped("no fsfreeze")
    text = "its disk does not answer"
    check(within(2 * RENEWED, lambda: text in ours.printed()), "a disk that hangs has a line", ours.printed())
    ours = hand_over(part, ours, by=signal.SIGKILL, options=options)
    check(within(ENDS, lambda: WENT_ON in ours.printed()), "the next daemon goes on meanwhile", ours.printed())
    time.sleep(TIMEOUT)
    check(theirs.printed() == lines, "its peer has seen nothing", theirs.printed())
    ours.ends("it")
    check(f"its state cannot be removed: {text}" in ours.printed(), "a stop says that the copy stays", ours.printed())
    command("fsfreeze", "-u", disk)
    ours = part.ours(options=options)
    both_up(ours, theirs, "both links come back")
    found = within(RENEWED, lambda: carried_in(f"{kept}/a0.state") == ["1", "1"] and sorted(os.listdir(kept)) == ["a0.state", "a0.state.lock"])
    check(found, "there is a copy again, and nothing else", os.listdir(kept))
    ours.ends("the daemon")
    check(os.listdir(kept) == ["a0.state.lock"], "a stop leaves none", os.listdir(kept))


PARTS = {"the next daemon goes on": goes_on, "a state beyond a reboot": outlives_boot, "a state beyond a crash": outlives_crash,
         "a disk that hangs": hangs_on_disk,
         "restarts in a row": in_a_row, "a restart shortly before a timeout": comes_late,
         "a restart shortly before a short timeout": comes_late_by_short_timeout, "a limit of links through a restart": keeps_limit,
         "a state of no use": begins_anew, "what changes between two daemons": things_change}
