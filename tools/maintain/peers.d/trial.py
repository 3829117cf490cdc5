"""What is tried with each peer, and the row of the table that it leaves."""

from __future__ import annotations

import os
import re
import time

from capturing import Capture, most_in_a_second
from checking import check, command, within
from daemon import Daemon, Part
from peer import Stranger
from repository import TOOLS
from spaces import OURS, drop_spaces, ip, make_spaces

LAGTOOL = os.path.join(TOOLS, "lagtool")
BOTH = {"b0", "b1"}
NONE: set[str] = set()
# Limits of what is waited for, in seconds: a partner of long timeouts is missed after 90 s.
COMES_UP, GOES_DOWN = 60, 120
# How long what stays so is watched.
STEADY, WATCHED = 20, 10
OTHER_KEY = "99"
HEADINGS = ["peer", "version", "up", "link down / back", "peer again", "daemon ended / again", "another key"]
HEADINGS += ["LACPDUs/s out, in (most in 1 s)"]
# What lagtool capture says of a frame that it refuses, and in its end.
REFUSED = re.compile(r"\d+ \S+ \S+ refused .*")
SLOW = re.compile(r"packets \d+ slow (\d+) .*")


class Trial:
    """One peer on two links, from its start to its end."""

    # The daemon that runs.
    ours: Daemon

    def __init__(self, peer: Stranger, program: str, folder: str) -> None:
        self.peer, self.part = peer, Part(program, folder)
        self.row: list[str] = []

    def check(self, holds: object, what: str, *told: object) -> None:
        check(holds, f"{self.peer.name}: {what}", *told)

    def carries(self, links: set[str], limit: float, what: str) -> str:
        """Waits until the peer itself says that these links carry and no others; tells the seconds."""
        begin = time.monotonic()
        holds = within(limit, lambda: self.peer.carrying() == links)
        passed = f"{time.monotonic() - begin:.1f}"
        self.check(holds, f"{what}: {passed} s", "" if holds else self.peer.view(), "" if holds else self.ours.text())
        return passed if holds else "never"

    def come_up(self) -> None:
        self.ours = self.part.ours()
        self.peer.start()
        self.row += [self.peer.version(), self.carries(BOTH, COMES_UP, "both links carry, as the peer says")]
        self.check(within(COMES_UP, lambda: self.ours.distributes("a0", "a1")), "the daemon says so, too", self.ours.text())

    def lose_link(self) -> str:
        ip(OURS, "link", "set", "a1", "down")
        down = self.carries({"b0"}, GOES_DOWN, "a link that goes down no longer carries")
        ip(OURS, "link", "set", "a1", "up")
        return f"{down} / {self.carries(BOTH, COMES_UP, 'it is back')}"

    def restart_peer(self) -> str:
        self.peer.stop()
        self.peer.start()
        return self.carries(BOTH, COMES_UP, "the peer was ended, and is there again")

    def restart_daemon(self) -> str:
        self.ours.process.terminate()
        down = self.carries(NONE, GOES_DOWN, "the daemon was ended, and no link carries")
        self.ours.status()
        self.ours = self.part.ours()
        return f"{down} / {self.carries(BOTH, COMES_UP, 'the daemon is there again')}"

    def change_key(self) -> str:
        """Link 2 has another key at our end. Neither end may use both."""
        self.ours.process.terminate()
        within(GOES_DOWN, lambda: not self.peer.carrying())
        self.ours.status()
        self.ours = self.part.ours("a0", f"a1:key={OTHER_KEY}")
        apart = lambda: {self.ours.port(name)["aggregator"] for name in ("a0", "a1")} >= {1, 2}
        self.check(within(COMES_UP, lambda: apart() and self.peer.carrying()), "two keys are two aggregators", self.ours.text())
        both = within(WATCHED, lambda: self.peer.carrying() == BOTH)
        if both and self.peer.mixes_keys:
            print(f"{self.peer.name} has a fault: it aggregates links of two keys", flush=True)
            return "both used: its fault"
        self.check(not both, f"the link of another key is kept out for {WATCHED} s", self.peer.view() if both else "")
        return "both used" if both else "kept out"

    def steady(self, capture: Capture) -> str:
        """Counts the LACPDUs of both links while nothing changes."""
        begin = time.time()
        time.sleep(STEADY)
        stays = self.peer.carrying() == BOTH and self.ours.distributes("a0", "a1")
        self.check(stays, f"both links carry after {STEADY} s more", "" if stays else self.peer.view(), self.ours.text())
        told = [[capture.lacpdus(name, out, begin, begin + STEADY) for name in ("a0", "a1")] for out in (True, False)]
        rates = ", ".join(f"{sum(map(len, times)) / 2 / STEADY:.2f}" for times in told)
        most = [max(map(most_in_a_second, times)) for times in told]
        self.check(most[0] <= 3, f"{rates} LACPDUs a second on each link, out and in; {most[0]}, {most[1]} in one second at most")
        return f"{rates} ({most[0]}, {most[1]})"

    def run(self, captures: str) -> list[str]:
        """The whole trial; answers the row of the table."""
        try:
            make_spaces()
            capture = Capture("a0", "a1")
            self.come_up()
            counted = self.steady(capture)
            self.row += [self.lose_link(), self.restart_peer(), self.restart_daemon(), self.change_key(), counted]
            self.ours.ends(f"{self.peer.name}: the daemon")
            capture.stop()
        finally:
            self.peer.end()
            self.part.drop()
            drop_spaces()
        check_frames(self.peer.name, capture.write(captures, self.peer.name.lower().replace(" ", "-")))
        return [self.peer.name, *self.row]


def check_frames(name: str, paths: list[str]) -> None:
    """Each frame of the captures is one that lagtool reads without a refusal."""
    count, refused = 0, []
    for path in paths:
        told = command(LAGTOOL, "capture", path)
        lines = told.stdout.splitlines() or [""]
        found = SLOW.fullmatch(lines[-1])
        count += int(found[1]) if found else 0
        refused += [line for line in lines if REFUSED.fullmatch(line)]
        refused += [] if found else [told.stderr]
    check(count > 0 and not refused, f"{name}: lagtool capture reads all {count} frames of {len(paths)} captures", *refused[:5])
