"""The Link Aggregation TLV in LLDP: lldpd at both ends of the links, and lagd/boot/lagd-lldp.py beside one of the daemons."""

from __future__ import annotations

import json
import os
import shutil
import signal
import socket
import subprocess
import sys
from typing import Iterator

from checking import Skipped, check, within
from daemon import Daemon, Part
from daemons import COMES_UP
from linking import DAEMON
from managed import index_of
from spaces import OURS, OUTGOING, THEIRS, inside, ip, packet_socket

LLDP, TYPE, ORGANIZATION = 0x88CC, 9, 127
# IEEE 802.1AX-2014: the OUI 00-80-C2 and the subtype 7; and the one that this replaced, in IEEE 802.3.
OURS_IS, OLD_IS = b"\x00\x80\xc2\x07", b"\x00\x12\x0f\x03"
# The status octet: capable is bit 0, aggregated bit 1.
CAPABLE, AGGREGATED = 1, 3
# The example looks each two seconds, and lldpd sends each second.
TELLS = 20
# lldpd keeps what it needs below /run.
OWN_RUN = ["unshare", "--mount", "sh", "-c", 'mount -t tmpfs none /run && mkdir /run/lldpd && exec "$@"', "sh"]


class Runs:
    """A program in a namespace."""

    def __init__(self, part: Part, space: str, name: str, *words: str) -> None:
        self.words, self.log = list(words), os.path.join(part.folder, name)
        path = {**os.environ, "PATH": f"{os.path.dirname(part.program)}:{os.environ['PATH']}:/usr/sbin"}
        with open(self.log, "w", encoding="utf-8") as log:
            self.process = subprocess.Popen(["ip", "netns", "exec", space, *words], stdout=log, stderr=log, env=path)
        part.running += [self]

    def printed(self) -> str:
        with open(self.log, encoding="utf-8", errors="replace") as it:
            return it.read()[-3000:]

    def ends(self, by: signal.Signals = signal.SIGTERM) -> int:
        self.process.send_signal(by)
        return self.process.wait(20)


def lldpd(part: Part, space: str, names: str) -> Runs:
    """An lldpd that sends each second."""
    os.chmod(part.folder, 0o711)  # its user looks whether somebody else has the socket
    at = os.path.join(part.folder, f"lldpd-{space}")
    asked = lambda: inside(space, "lldpcli", "-u", at, "configure", "lldp", "tx-interval", "1").returncode == 0
    within(TELLS, lambda: not asked())  # one that was killed has a child that ends after it
    started = Runs(part, space, f"{os.path.basename(at)}.log", *OWN_RUN, "lldpd", "-d", "-u", at, "-I", names)
    if not within(TELLS, asked):
        raise Skipped(f"lldpd does not run: {started.printed()}")
    return started


def tlvs(frame: bytes) -> Iterator[bytes]:
    """The TLVs of an organization that an LLDPDU has (IEEE 802.1AB, 8.4): 7 bits of type, and 9 of length."""
    at = 14
    while at + 2 <= len(frame):
        head = int.from_bytes(frame[at : at + 2], "big")
        if head >> TYPE == ORGANIZATION:
            yield frame[at + 2 : at + 2 + (head & 0x1FF)]
        at += 2 + (head & 0x1FF)


class Heard:
    """What comes by LLDP at the end of a link."""

    def __init__(self, name: str) -> None:
        self.socket = packet_socket(THEIRS, name, LLDP)

    def last(self) -> list[bytes]:
        """The TLVs of an organization, of the last LLDPDU that came."""
        frame = b""
        while True:
            try:
                got, address = self.socket.recvfrom(2048, socket.MSG_DONTWAIT)
            except BlockingIOError:
                return list(tlvs(frame))
            if address[2] != OUTGOING:
                frame = got

    def told(self) -> list[str]:
        """What each Link Aggregation TLV of it has behind its subtype."""
        return [it[4:].hex() for it in self.last() if it.startswith(OURS_IS)]

    def tells(self, status: int | None, index: int = 0) -> bool:
        """Whether one comes soon with just this TLV once, or, without a status, with none."""
        right = [] if status is None else [f"{status:02x}{index:08x}"]

        def comes() -> bool:
            got = self.last()
            return bool(got) and [it[4:].hex() for it in got if it.startswith(OURS_IS)] == right

        return within(TELLS, comes)


def neighbour(part: Part, name: str) -> list[str]:
    """What the other lldpd shows of the TLV that came on a link."""
    told = inside(THEIRS, "lldpcli", "-u", os.path.join(part.folder, f"lldpd-{THEIRS}"), "-f", "json0", "show", "neighbors", "ports", name, "details")
    found = [it for part in json.loads(told.stdout)["lldp"] for it in part.get("interface", []) if it["name"] == name]
    tlvs_of = [tlv for it in found for group in it.get("unknown-tlvs", []) for tlv in group["unknown-tlv"]]
    return [tlv["value"] for tlv in tlvs_of if (tlv["oui"], tlv["subtype"]) == ("00,80,C2", "7")]


def told_of(daemon: Daemon, *heard: Heard) -> list[object]:
    return [daemon.text(), *(it.last() for it in heard)]


def link_aggregation(part: Part) -> None:
    """Ports join and leave, lldpd starts again, the daemon is killed, the example ends."""
    if not shutil.which("lldpcli", path=f"{os.environ['PATH']}:/usr/sbin"):
        raise Skipped("no command lldpcli (Debian: lldpd)")
    ours, theirs = part.ours(options=["--carry", "lag0"]), part.theirs(options=["--carry", "lag0"])
    ours_lldp, _ = lldpd(part, OURS, "a0,a1"), lldpd(part, THEIRS, "b0,b1")
    words = [sys.executable, os.path.join(DAEMON, "boot", "lagd-lldp.py"), "--folder", ours.folder, "--socket", os.path.join(part.folder, f"lldpd-{OURS}")]
    beside = Runs(part, OURS, "lagd-lldp", *words)
    first, second = Heard("b0"), Heard("b1")
    check(within(COMES_UP, lambda: ours.distributes("a0", "a1")), "both links carry", ours.text())
    device = index_of("lag0")
    both = lambda: first.tells(AGGREGATED, device) and second.tells(AGGREGATED, device)
    check(both(), "the LLDPDUs of both links have one Link Aggregation TLV: aggregated, with the ifIndex of lag0", *told_of(ours, first, second), beside.printed())
    octets = ",".join(f"{it:02X}" for it in [AGGREGATED, *device.to_bytes(4, "big")])
    check(within(TELLS, lambda: neighbour(part, "b0") == [octets]), "the lldpd of the peer shows it", neighbour(part, "b0"))
    old = lambda: [it[4:].hex() for it in first.last() if it.startswith(OLD_IS)]
    check(within(TELLS, lambda: old() == ["0100000000"]), "lldpd's own TLV of IEEE 802.3 beside it says: capable, and in none")
    ip(OURS, "link", "set", "a1", "down")
    within(COMES_UP, lambda: not ours.distributes("a1"))
    ip(OURS, "link", "set", "a1", "up")
    ip(THEIRS, "link", "set", "b1", "up")
    check(within(COMES_UP, lambda: ours.distributes("a1")) and second.tells(AGGREGATED, device), "a port that left comes back", *told_of(ours, second))
    theirs.process.send_signal(signal.SIGSTOP)
    check(first.tells(CAPABLE), "a port without a partner is capable, and in no aggregation", *told_of(ours, first))
    theirs.process.send_signal(signal.SIGCONT)
    check(within(COMES_UP, lambda: ours.distributes("a0", "a1")) and both(), "with it both are aggregated again", *told_of(ours, first, second))
    ours_lldp.ends(signal.SIGKILL)
    first.last()
    lldpd(part, OURS, "a0,a1")
    check(both(), "after another start of lldpd, too", *told_of(ours, first, second), beside.printed())
    ours.kill()
    check(first.tells(None) and second.tells(None), "of a daemon that is killed there is no TLV", *told_of(ours, first, second))
    again = part.ours(options=["--carry", "lag0"])
    check(within(COMES_UP, lambda: again.distributes("a0", "a1")) and first.tells(AGGREGATED, index_of("lag0")), "of the next daemon there is one, with the new ifIndex", *told_of(again, first))
    check(beside.ends() == 0 and first.tells(None), "when the example ends, it takes them out", beside.printed(), *told_of(again, first))


PARTS = {"LLDP": link_aggregation}
