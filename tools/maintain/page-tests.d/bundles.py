"""Bundles of Linux bonding 6.1 (and of teamd 1.31, where it is said) over veth cables, each broken in one way: what is said first of their captures, a file a link, is
what was done to them."""

from __future__ import annotations

import glob
import os
import subprocess
import tarfile

import made
from repository import TOP
from stored import Tests

CAPTURES = os.path.join(os.path.dirname(os.path.realpath(__file__)), "bundles.tar.xz")
KEYS = "Keys differ within one pair of systems."
CROSSED = "Cables of two bundles are crossed, or a port is in the group of another link."
DEAF = "An end hears nobody for longer than 6 seconds"
ONE, NONE = "1 of 2 links carries", "0 of 2 links carry"

# For each what was done, what is said first, and what stands in the lines of links or the first cause.
BUNDLES = {
    "keys-by-any": ("two bonds at the far end, captured by -i any", f"{ONE}. {KEYS}", "key 399: interface 3"),
    "bridge-between": ("a bridge between, on the second link", f"{ONE}. Nobody answers on p2.", "p2 (02-00-00-0b-0a-01 port 2 - nobody): does not carry"),
    "copied-system": ("two far ends have one system", "4 links carry, both ways. Two devices act as one system: right if they are an MLAG pair.", "on p2 and 02-00-00-0a-0c-04 on p4"),
    "crossed-cables": ("two bonds, each with a system of its own, at this end; the cables of the second and the third port are crossed", f"1 of 4 links carries. {CROSSED}", "Swap the far ends of p2 and p3,"),
    "crossed-cables-of-one-system": ("the same, with one system at this end", f"1 of 4 links carries. {CROSSED}", "Swap the far ends of p2 and p3,"),
    "dead-both-ways": ("from 25 s on neither end of the second link gets anything", f"{ONE}. {DEAF}: p2.", "0a-01 port 2 and 02-00-00-06-0b-01 port 2 hear nobody"),
    "deaf-on-both-links": ("this end drops what comes", f"{NONE}. {DEAF}.", "p1 (02-00-00-03-0a-01 port 1 - 02-00-00-03-0b-01 port 1): does not carry: 02-00-00-03-0a-01 port 1 hears nobody"),
    "deaf-here": ("from 25 s on this end drops what comes on the first link", f"{ONE}. {DEAF}: p1.", "does not carry: 02-00-00-04-0a-01 port 1 hears nobody"),
    "deaf-there": ("from 25 s on the far end drops what comes on the second link", f"{ONE}. {DEAF}: p2.", "does not carry: 02-00-00-05-0b-01 port 2 hears nobody"),
    "doubled-frames": ("each frame of the far end comes twice on the second link", "2 of 2 links carry. Each LACPDU of an end is there twice.", "at p2 02-00-00-02-0b-02 port 2"),
    "cable-moved": ("the second cable led to a third system for 25 s", "2 links carry, both ways, since 36.4 s. Before, links of one system lead to two systems.", "p2 (02-00-00-06-0a-01 port 2 - 02-00-00-06-0b-01 port 2): carries"),
    "deaf-until": ("for 25 s this end dropped what came on the second link", f"2 links carry, both ways, since 45.4 s. Before, a{DEAF[1:]}.", "1. until 45.4 s"),
    "keys-until": ("for 25 s the second port was in another bond there", f"2 links carry, both ways, since 36.5 s. Before, k{KEYS[1:]}", "1. until 36.5 s"),
    "passive-until": ("for 25 s both ends were passive", "2 links carry, both ways, since 35.3 s. Before, both ends are passive.", "1. until 35.3 s"),
    "carrier-flaps": ("the far end of the second link went down seven times", "2 links carry, both ways, since 66.0 s. Before, a link is silent at both ends for a while.", "nothing is sent on p2"),
    "link-down": ("from 25 s on the far end of the second link is down, in a file of its own", f"{ONE}. A link fell silent, or its capture was stopped before the others: p2.", "port 2): not seen: it carries up to 32.8 s, where its file ends"),
    "hub": ("a third system on the second link", "1 of 3 links carries. A third system on the link, and 1 more cause.", "rule 26"),
    "key-of-one-of-three": ("the third port is in another bond there", f"2 of 3 links carry. {KEYS}", "key 399: p3"),
    "late-frames": ("from 20 s on frames of the far end of the second link come 1 to 7 s late", "2 of 2 links carry. No LACPDU for longer than the partner's timeout: p2.", "at p2"),
    "looped-port": ("a port hears itself", "0 of 1 link carries. An end hears itself alone.", "Look for a loop"),
    "lossy-link": ("60 of 100 frames are lost on the second link, each way", f"{ONE}. No LACPDU for longer than the partner's timeout: p2, and 1 more cause.", "Look for lost frames"),
    "taken-out": ("at 25 s the second port is taken out of its bond there", f"{ONE}. A port is taken out of its bundle: p2.", "02-00-00-08-0b-01 port 2 says Individual"),
    "both-passive": ("bonding and teamd, both passive", f"{NONE}. Both ends are passive.", "both ends are passive"),
    "restart": ("the far end is gone for 12 s", "2 links carry, both ways, since 38.0 s. Before, a port is taken out of its bundle.", "nothing up to"),
    "two-bonds-there": ("the far end has a bond for each link, with a system each", f"{ONE}. Links of one system lead to two systems.", "leads to 02-00-00-09-0b-01 and 02-00-00-09-0b-02"),
    "teamd-keys": ("teamd, with another lacp_key for the second port", f"{ONE}. {KEYS}", "key 9: p2"),
    "slow-and-fast": ("teamd, with long timeouts: nothing is wrong",
                      "2 links carry, both ways: LACP is not your trouble. One flow has the speed of one link: the hash chooses it.", "p1 ("),
    "cable-to-third": ("the third cable leads to a third system", "1 of 3 links carries. Links of one system lead to two systems.", "leads to 02-00-00-0b-0b-01 and 02-00-00-0b-0c-03"),
    "member-missing": ("the second port is in no bond there", f"{ONE}. Nobody answers on p2.", "p2 (02-00-00-07-0a-01 port 2 - nobody)"),
    "tagged-one": ("the second member there is a VLAN interface", f"{ONE}. A frame with a tag: p2.", "p2 ("),
    "tagged-both": ("both members there are VLAN interfaces", f"{NONE}. A frame with a tag.", "p1 ("),
}  # fmt: skip


def explained(*files: str) -> str:
    return subprocess.run([os.path.join(TOP, "tools", "lagtool"), "explain", *files], capture_output=True, text=True).stdout


def of_two_in_turn(tests: Tests, folder: str) -> None:
    """A port hears two ports of its partner in turn: whether another link of these systems does not carry, which may wait for it."""
    path, (near, far) = os.path.join(folder, "in-turn.pcap"), made.one_link(made.FAST_DOWN, port=2)
    for state, waits in (made.FAST_DOWN, True), (made.FAST, False):
        made.capture(path, made.exchange(*made.one_link(state), range(30)), made.exchange(near, far, made.at(0.1, 30)), made.sends(far._replace(port=5), near, made.at(0.6, 30)))
        tests.same(f"two ports in turn, beside a link in state {state:#x}", "not up yet wait for it: take this link out" in explained(path), waits)


def of_bundles(tests: Tests, folder: str) -> None:
    """Each bundle, explained as text."""
    with tarfile.open(CAPTURES) as it:
        it.extractall(folder)
    of_two_in_turn(tests, folder)
    for name, (done, headline, seen) in BUNDLES.items():
        files = sorted(glob.glob(os.path.join(folder, name, "*.pcap")))
        said = explained(*files)
        tests.same(f"{name}: {done}", said.partition("\n")[0], headline)
        tests.told(f"{name}: where", "" if seen in said else f"{seen!r} is not in {said[:600]!r}")
