"""The example of one port in C, examples/c/minimal.c, over a veth pair: against the daemon, and with a stranger on the wire."""

from __future__ import annotations

import os
import signal
import subprocess
import time

from checking import check, within
from daemon import ENDS, Daemon, Part
from daemons import COMES_UP, GOES_DOWN, STALL, STRANGER
from repository import read_text
from spaces import OURS, THEIRS, Wire, inside, ip, lacpdu, marker, most_within

# How many markers it is sent in a burst, and what a response begins with.
BURST, RESPONSE = 40, marker(2)[:3]
UP, DOWN = "a0: it distributes", "a0: the link is down"
WAITS, SILENT, ALONE = "a0: it waits for wait_while", "a0: no LACPDU came in time", "a0: it distributes without a partner"
GONE = "minimal: a0: No such device"
# Wrong words, with the status and the line that they end with.
WRONG: list[tuple[list[str], int, str]] = [([], 2, "minimal: usage: minimal INTERFACE\n"), (["none0"], 1, "minimal: none0: No such device\n")]


class Minimal:
    """The example on the interface a0, and what it printed."""

    def __init__(self, part: Part, program: str) -> None:
        self.words, self.log = [program, "a0"], os.path.join(part.folder, "minimal-lines")
        with open(self.log, "w", encoding="utf-8") as log:
            self.process = subprocess.Popen(["ip", "netns", "exec", OURS, *self.words], stdout=log, stderr=log)
        part.running.append(self)

    def printed(self) -> str:
        return read_text(self.log)

    def printed_in_all(self, *lines: str) -> bool:
        return self.printed().splitlines() == list(lines)


def wrong_words(program: str) -> None:
    for words, status, line in WRONG:
        ended = inside(OURS, program, *words, timeout=ENDS)
        check((ended.returncode, ended.stderr) == (status, line), f"{words}: it ends with status {status} and a line", ended.stderr)


def comes_up(ours: Minimal, theirs: Daemon) -> None:
    """The daemon at the other end names the interface's own address as the system."""
    holds = within(COMES_UP, lambda: ours.printed_in_all(UP) and theirs.distributes("b0"))
    check(holds, "examples/c/minimal.c and a daemon: both come to distribute, and it prints so", ours.printed(), theirs.text())
    mac = inside(OURS, "cat", "/sys/class/net/a0/address").stdout.strip()
    partner = theirs.port("b0")["partner"]
    named = [partner[name] for name in ("system_priority", "system", "key", "port")]
    check(named == [32768, mac, 1, 1], "the daemon names its system, key and port", partner)


def meets_strangers(ours: Minimal, theirs: Daemon) -> None:
    """A marker; and LACPDUs of another system, to other addresses and then to the right one."""
    wire = Wire(THEIRS, "b0")
    wire.send(marker(1))
    check(within(ENDS, lambda: theirs.count("b0", "foreign_responses") == 1), "it answers a marker", theirs.text())
    for to in "ff:ff:ff:ff:ff:ff", "01:80:c2:00:00:00", "01:80:c2:00:00:03":
        wire.send(lacpdu(STRANGER, 1), to)
    time.sleep(1)
    check(ours.printed_in_all(UP), "it takes no LACPDU to another address", ours.printed())
    wire.send(lacpdu(STRANGER, 1))
    holds = within(COMES_UP, lambda: ours.printed_in_all(UP, WAITS, UP))
    check(holds, "after one of another system to the right address it waits, and distributes again", ours.printed())


def floods_markers() -> None:
    """No more than ten frames of a slow protocol leave in a second (802.3, 57A.2)."""
    wire = Wire(THEIRS, "b0")
    time.sleep(STALL)
    wire.arrivals(RESPONSE)
    for number in range(3 * BURST):
        wire.send(marker(1, number=number))
        time.sleep(0 if number < BURST else 0.025)
    time.sleep(1)
    found = wire.arrivals(RESPONSE)
    check(most_within(found) == 10 and len(found) >= 20, "of a flood of markers it answers ten within a second, and goes on so", most_within(found), len(found))


def misses_ticks(ours: Minimal, theirs: Daemon) -> None:
    """It is stopped for longer than three short periods, while LACPDUs wait in its socket."""
    before, sent = ours.printed(), theirs.count("b0", "lacpdus_sent")
    ours.process.send_signal(signal.SIGSTOP)
    time.sleep(STALL)
    ours.process.send_signal(signal.SIGCONT)
    within(ENDS, lambda: theirs.count("b0", "lacpdus_sent") >= sent + STALL + 2)
    check(ours.printed() == before and theirs.distributes("b0"), "after a stall it distributes as before", ours.printed(), theirs.text())


def minimal(part: Part) -> None:
    """The daemon waits for 90 s, and sends each second."""
    program = part.minimal()
    wrong_words(program)
    ours, theirs = Minimal(part, program), part.theirs("b0", options=["--timeout", "long"])
    comes_up(ours, theirs)
    meets_strangers(ours, theirs)
    floods_markers()
    misses_ticks(ours, theirs)
    lines = [UP, WAITS, UP]
    for word, line in ("down", DOWN), ("up", UP):
        ip(THEIRS, "link", "set", "b0", word)
        lines.append(line)
        check(within(COMES_UP, lambda: ours.printed_in_all(*lines)), f"its link is taken {word}: it prints '{line}'", ours.printed())
    theirs.process.kill()
    for line in SILENT, ALONE:
        lines.append(line)
        check(within(GOES_DOWN, lambda: ours.printed_in_all(*lines)), f"its peer is gone: it prints '{line}'", ours.printed())
    ip(OURS, "link", "del", "a0")  # it goes down first, which may be seen
    told = lambda: ours.printed_in_all(*lines, GONE) or ours.printed_in_all(*lines, DOWN, GONE)
    ends = within(ENDS, lambda: ours.process.poll() == 1 and told())
    check(ends, "its interface is gone: it ends with status 1, and ASan and UBSan find no fault", ours.process.poll(), ours.printed())


PARTS = {"one port in C": minimal}
