"""Ports that others choose (members=follow), as they put interfaces into the device of the team driver, delete, rename and take them out."""

from __future__ import annotations

import re

from checking import Skipped, check, command, within
from daemon import Daemon, Part
from daemons import COMES_UP, GOES_DOWN
from resuming import hand_over
from spaces import OURS, inside, ip, make_pair

FOLLOWS = ["--plane", "team", "--members", "follow", "--carry", "lag0"]
# More interfaces than a bundle has ports.
MANY = 70


def batch(*lines: str) -> None:
    ip(OURS, "-batch", "-", input="".join(f"{line}\n" for line in lines))


def put_in(name: str) -> tuple[str, ...]:
    """An interface that is up is put into the device."""
    return f"link set {name} down", f"link set {name} master lag0", f"link set {name} up"


def up(ours: Daemon, *names: str) -> bool:
    """Whether the bundle has these ports, all of which distribute."""
    return set(ours.ports()) == set(names) and ours.distributes(*names)


def goes_away(ours: Daemon) -> None:
    """An interface is deleted, and comes back: free, and in the device."""
    for turn in range(3):
        ip(OURS, "link", "del", "a1")
        check(within(GOES_DOWN, lambda: up(ours, "a0")), "an interface that was deleted is a port no more", ours.text())
        make_pair(1)
        check(not within(1, lambda: not up(ours, "a0")), "one of its name that is in no device is none", ours.text())
        batch(*put_in("a1"))
        check(within(COMES_UP, lambda: up(ours, "a0", "a1")), "and is one in the device", ours.text())
    batch("link del a1", "link add a1 type veth peer name c1", *put_in("a1"))
    check(not within(2, lambda: "a1" not in ours.ports()), "so is one that came in the place of a deleted one", ours.text())
    ip(OURS, "link", "del", "a1")
    make_pair(1)
    batch(*put_in("a1"))
    check(within(COMES_UP, lambda: up(ours, "a0", "a1")), "and another one after it", ours.text())


def has_new_name(ours: Daemon) -> None:
    """An interface has another name: its port goes on, and has that."""
    number = ours.port("a1")["actor"]["port"]
    for before, name in ("a1", "z1"), ("z1", "y1"), ("y1", "a1"):
        batch(f"link set {before} down", f"link set {before} name {name}", f"link set {name} up")
        check(within(COMES_UP, lambda: up(ours, "a0", name)), f"the port of {before} is that of {name}", ours.text())
        check(ours.port(name)["actor"]["port"] == number, "its number is the same", ours.text())
        check(re.search(rf"port {number} {before}: its name is {name} now", ours.printed()), "and a line tells of it", ours.printed())


def is_taken_out(ours: Daemon) -> None:
    """What is put in and taken out at once stays out."""
    ip(OURS, "link", "add", "q0", "type", "veth", "peer", "name", "q1")
    for _ in range(20):
        batch("link set q0 down", "link set q0 master lag0", "link set q0 up", "link set q0 nomaster")
        out = lambda: "q0" not in ours.ports() and "master" not in inside(OURS, "ip", "-o", "link", "show", "q0").stdout
        check(within(2, out) and not within(0.3, lambda: not out()), "an interface that was put in and taken out at once stays out", ours.printed()[-800:])
    for turn in range(MANY):
        batch(f"link add d{turn} type veth peer name e{turn}", *put_in(f"d{turn}"), f"link del d{turn}")
    check(within(GOES_DOWN, lambda: up(ours, "a0", "a1")), f"{MANY} interfaces that came and went leave no port", ours.text())


def leaves(ours: Daemon) -> None:
    """A port that others put in leaves by an order, and joins by one."""
    joins = lambda: ours.lines("a1").count("it joins the bundle")
    before = joins()
    for _ in range(5):
        for order, names in ("remove", ["a0"]), ("add", ["a0", "a1"]):
            ended = inside(OURS, ours.program, "--folder", ours.folder, f"--{order}", "a1")
            check(ended.returncode == 0, f"--{order} a1 is done", ended.stderr)
            check(within(COMES_UP, lambda: up(ours, *names)), f"and there are the ports {' '.join(names)}", ours.text())
    check(joins() == before + 5, "it joins once for each order", ours.printed()[-800:])


def followed(part: Part) -> None:
    if command("ip", "-n", OURS, "link", "add", "tried", "type", "team").returncode:
        raise Skipped("this kernel has no team driver")
    ip(OURS, "link", "del", "tried")
    ours, theirs = part.ours("a0", options=FOLLOWS), part.theirs()
    check(within(COMES_UP, lambda: up(ours, "a0")), "the port of the command line comes up", ours.text())
    batch(*put_in("a1"))
    check(within(COMES_UP, lambda: up(ours, "a0", "a1")), "and one that others put into the device", ours.text(), theirs.text())
    goes_away(ours)
    has_new_name(ours)
    is_taken_out(ours)
    leaves(ours)
    again = hand_over(part, ours, lambda: ip(OURS, "link", "del", "a1"), names=("a0",), options=FOLLOWS)
    check(within(COMES_UP, lambda: up(again, "a0")), "an interface that was deleted between two daemons is a port no more", again.text())
    make_pair(1)
    batch(*put_in("a1"))
    check(within(COMES_UP, lambda: up(again, "a0", "a1")), "and one of its name is, in the device", again.text())


PARTS = {"ports that others choose": followed}
