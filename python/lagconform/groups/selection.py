"""SL: the Selection Logic (6.4.14), on two links and more.

LACPDUs don't tell in which aggregator a port is. Where the device carries on two links that may not share an aggregator, data has to show it:

- A hook (`data start`, `data stop`) makes its one client send UDP of many flows from 198.18.0.0/16: if they come on both links, it is one
  aggregator.
- Without a hook, broadcasts of the bench on one link come out of the other, if a bridge joins two aggregators: it sends none back into the
  one that they came from. Beside such a device, where none comes out, it is one aggregator.

What the device does is found out by the test that wants to know it, so that each test alone comes to what it comes to in a run.
"""

from __future__ import annotations

from dataclasses import replace
from typing import Sequence

from niwhopera import Lacpdu, State

from ..bench import PROMPT, SOON, UNHEARD, Bench
from ..model import MEMORY, SURE, Frame, Group, NotHere, Stop
from ..pdus import BROADCAST, BROADCAST_TYPE, CARRIES, COUNT_AT, end
from .receive import carries, does_not_carry
from .silence import wants_short

group = Group("SL", "Selection Logic (6.4.14)", needs=("two-ports",))
SECONDS = 2.0
DATA = ("data",)
# What the bench's broadcasts begin with.
PROBE = b"lagconform "


def flows(b: Bench, links: Sequence[int] = (1, 2)) -> dict[int, int]:
    """How many flows of the device's client came on each link, while a hook makes it send."""
    with b.undone(lambda: b.hook("data", "stop")):
        mark = b.data_starts()
        b.wait(SECONDS)
        found = {link: b.data(mark, link) for link in links}
    b.hook("data", "stop")
    return found


BROADCASTS = 20
# So long two links are given to join an aggregator, or to find one each.
JOINED, PARTED = 4.0, 8.0


def broadcasts(b: Bench) -> int:
    """How many of BROADCASTS frames that go to everyone on link 1 come out of link 2."""
    mark, source = b.mark(), b.new_mac()
    head = BROADCAST + source + BROADCAST_TYPE + PROBE
    for number in range(BROADCASTS):
        b.send_raw(1, head + bytes([number]) + bytes(46 - len(PROBE)))
        b.wait(0.03)
    b.wait(0.5)
    return len({it.octets for it in b.frames[mark:] if not it.out and it.link == 2 and it.octets.startswith(head)})


def spreads(b: Bench) -> bool:
    """Whether data of one aggregator comes on both links: found out once, beside one partner."""
    if b.spreads is None:
        b.up(1, 2)
        b.wait(JOINED)
        b.spreads = all(flows(b).values())
    return b.spreads


def floods(b: Bench) -> bool:
    """Whether broadcasts go from one aggregator to another: found out once, beside two partners that have nothing in common."""
    if b.floods is None:
        b.begin(1, 2, same=False, silent=True)
        for field in ("priority", "key"):
            b.partner(2).become_other(field)
        for link in (1, 2):
            b.partner(link).speak()
        b.wait(PARTED)
        b.floods = all(map(b.is_ready, (1, 2))) and broadcasts(b) > 0
    return b.floods


class Told:
    """What the device told on some links since a mark: by it a link on which it says that it carries does so, also where it tells a number of its
    partner wrong."""

    def __init__(self, b: Bench, mark: int, links: Sequence[int] = (1, 2)) -> None:
        self.frames = {it: b.frame(it) for it in links if next(b.heard(it, mark), None)}
        self.carrying = [it for it in self.frames if b.carries(it)]
        # Where it carries beside our system, and not beside one that was there before.
        self.ours = [it for it in self.carrying if b.device(it).partner.system.mac == b.partner(it).me.system.mac]
        wrong = {it: f"names {end(b.device(it).partner)}, and has to name {end(b.partner(it).me.info)}" for it in self.carrying if not b.names_us(it)}
        told = {it: ", ".join([end(b.device(it).actor), *([wrong[it]] if it in wrong else [])]) if it in self.frames else f"{UNHEARD} came" for it in links}
        self.text = "; ".join(f"link {it}: {text}" for it, text in told.items())
        misnamed = "; ".join(f"link {it} {text}" for it, text in wrong.items())
        self.carry = f"{'both' if len(links) == 2 else 'all'} links carry{f' ({misnamed})' if wrong else ''}"


def apart(b: Bench, seconds: float = PARTED, one: bool = True) -> None:
    """Claims that after some seconds the device does not use both links in one aggregator, whatever its LACPDUs say of each; and, if
    `one`, that it uses one of them. A link on which it says that it carries does so, however it names its partner."""
    mark = b.mark()
    b.wait(seconds)
    told = Told(b, mark)
    frames = list(told.frames.values())
    if not frames and not one:
        raise Stop(UNHEARD)
    if len(told.carrying) < 2:
        b.claim(True, f"after {seconds:g} s it does not carry on both: {told.text}", *frames)
        if one:
            b.claim(told.ours, f"{told.text}; one of them has to carry", *frames)
        return
    b.note(f"{told.carry} by their LACPDUs: in one aggregator, or in two")
    try:
        found = flows(b)
    except NotHere as why:
        apart_by_broadcasts(b, told, str(why))
        return
    if not any(found.values()):
        raise Stop(f"{told.carry}, and no data of the device came")
    if not all(found.values()) and not spreads(b):
        raise Stop(f"{told.carry}, and data came on one: but the device does so for one aggregator, too")
    text = f"flows of one client: {found[1]} on link 1, {found[2]} on link 2; has to be one link alone"
    b.claim(not all(found.values()), text, *frames, bears=1.0)


def apart_by_broadcasts(b: Bench, told: Told, why: str) -> None:
    """Claims that two links that carry are two aggregators, as broadcasts show it where the device is a bridge."""
    found, frames = broadcasts(b), told.frames.values()
    text = f"of {BROADCASTS} broadcasts into link 1, {found} come out of link 2"
    if found:
        b.claim(True, f"{text}: two aggregators", *frames)
    elif floods(b):
        b.claim(False, f"{text}: one aggregator; has to be two, between which this device forwards broadcasts", *frames, bears=1.0)
    else:
        raise Stop(f"{told.carry}, and {text}: one aggregator, or a device that forwards none. Data of its client would show it ({why})")


def joined_by_broadcasts(b: Bench, why: str) -> None:
    """Claims that two links that carry are one aggregator, as broadcasts show it where the device is known to be a bridge."""
    found = broadcasts(b)
    text = f"of {BROADCASTS} broadcasts into link 1, {found} come out of link 2"
    if found or floods(b):
        b.claim(not found, f"{text}; has to be none: they are one aggregator")
    else:
        raise Stop(f"both links carry, and {text}: one aggregator, or two of a device that forwards none. Data of its client would show it ({why})")


@group.test("01", "6.4.14, 6.3.7", "Two links of one partner aggregate", "be one partner with one key on both links",
            rule="both carry, and stay so for 4 s, in one aggregator: no broadcast comes back; on which links data comes is told alone: the "
            "distribution is the device's own", links=2, takes=8.5, hooks=DATA, causes=("SL-02",))  # fmt: skip
def aggregates(b: Bench) -> None:
    """Links of one LAG ID share an aggregator."""
    b.up(1, 2)
    mark = b.mark()
    b.wait(JOINED)
    wrong = [it for link in (1, 2) for it in b.heard(link, mark, lambda pdu: not carries(pdu))]
    b.holds(not wrong, "both carry for 4 s", *wrong[:2])
    try:
        found = flows(b)
        b.spreads = all(found.values())
        b.note(f"flows of one client: {found[1]} on link 1, {found[2]} on link 2")
    except NotHere as why:
        joined_by_broadcasts(b, str(why))


@group.test("02", "6.3.2, 6.3.4, 6.3.5", "Identifiers of two ports", "carry on both links", rule="one system, one key, two port numbers",
            links=2, takes=2.5)  # fmt: skip
def identifiers(b: Bench) -> None:
    """Ports of one aggregator have one system identifier and key, and port identifiers of their own."""
    b.up(1, 2)
    one, two = b.device(1).actor, b.device(2).actor
    frames = [b.frame(it) for it in (1, 2)]
    b.claim((one.system, one.key) == (two.system, two.key), f"system and key: {end(one)}; {end(two)}; have to be the same", *frames, bears=SURE)
    b.claim(one.port.number != two.port.number, f"port numbers {one.port.number} and {two.port.number}; have to differ", *frames, bears=SURE)
    same = frames[0].octets[6:12] == frames[1].octets[6:12]
    b.note("both links have one source address" if same else "each link has a source address of its own")


@group.test("03", "6.4.14, 6.3.6", "Two partner systems", "be another system on each link", rule="not both links in one aggregator; one carries",
            links=2, takes=10.5, hooks=DATA)  # fmt: skip
def two_systems(b: Bench) -> None:
    """Ports of two LAG IDs never share an aggregator: here the partner systems differ."""
    b.begin(1, 2, same=False)
    apart(b)


def differ(b: Bench, field: str) -> None:
    """One partner on both links but for a field."""
    b.begin(1, 2, silent=True)
    b.partner(2).become_other(field)
    for link in (1, 2):
        b.partner(link).speak()
    apart(b)


@group.test("04", "6.4.14, 6.3.6", "Two partner keys", "be one system with another key on each link",
            rule="not both links in one aggregator; one carries", links=2, takes=10.5, hooks=DATA, causes=("SL-03",))  # fmt: skip
def two_keys(b: Bench) -> None:
    """Ports of two LAG IDs never share an aggregator: here the partner keys differ."""
    differ(b, "key")


@group.test("13", "6.4.14, 6.3.6", "Two partner keys that differ in the high octet",
            "be one system with another key on each link, of which the high octet differs", rule="not both links in one aggregator; one carries",
            links=2, takes=10.5, hooks=DATA, causes=("SL-04",))  # fmt: skip
def two_high_keys(b: Bench) -> None:
    """Keys have two octets, and keys of which one differs are two keys."""
    b.begin(1, 2, silent=True)
    b.partner(2).become(key=b.partner(2).me.key ^ 0x4000)
    for link in (1, 2):
        b.partner(link).speak()
    apart(b)


@group.test("05", "6.4.14, 6.3.2", "Two system priorities", "be one MAC address with another system priority on each link",
            rule="not both links in one aggregator; one carries", links=2, takes=10.5, hooks=DATA, causes=("SL-03",))  # fmt: skip
def two_priorities(b: Bench) -> None:
    """The priority is part of the system identifier: two priorities are two systems."""
    differ(b, "priority")


@group.test("06", "6.4.14, 6.3.6.1", "Individual links don't aggregate", "be one partner with one key on both links, not aggregatable",
            rule="not both links in one aggregator", links=2, takes=10.5, hooks=DATA, causes=("SL-03",))  # fmt: skip
def individual(b: Bench) -> None:
    """An individual link is alone in its aggregator."""
    b.begin(1, 2, silent=True)
    for link in (1, 2):
        b.partner(link).become(aggregatable=False)
        b.partner(link).speak()
    apart(b, one=False)


@group.test("07", "6.4.14, 6.4.9", "One of two links gets another key", "carry on both links", "change our key on link 2",
            rule="link 2 stops carrying promptly; link 1 carries on; they don't share an aggregator again", tolerance="prompt: 0.5 s", links=2,
            takes=12.5, hooks=DATA, causes=("SL-04", "TX-06"))  # fmt: skip
def leaves(b: Bench) -> None:
    """A link whose partner changes its key leaves the aggregator, and the others stay."""
    b.up(1, 2)
    b.behind(2)
    b.partner(2).become_other("key")
    mark, sent = b.mark(), b.partner(2).send()
    seen = b.first(2, mark, does_not_carry, SOON)
    b.timed("link 2 stops carrying", sent, seen, 0, PROMPT)
    b.wait(1)
    wrong = list(b.heard(1, mark, lambda pdu: not carries(pdu)))
    b.holds(not wrong, "link 1 carries all the time", *wrong[:2])
    apart(b, 6)


@group.test("08", "6.4.12, 6.4.14", "One of two links falls silent", "carry on both links", "say nothing on link 2",
            rule="link 2 stops after 3 s; link 1 carries on", tolerance="3 s: -0.25 s, +0.75 s (timer and LACPDU)", links=2, takes=6.5,
            needs=("short-timeouts",), causes=("RX-02",))  # fmt: skip
def one_silent(b: Bench) -> None:
    """A silent link leaves, and the other one carries on."""
    b.up(1, 2)
    wants_short(b, 2)
    b.wait(0.5)
    mark, sent = b.mark(), b.partner(2).send()
    b.partner(2).hush()
    seen = b.first(2, mark, does_not_carry, 5)
    b.timed("link 2 stops carrying", sent, seen, 3, 3, timer=True)
    b.wait(1)
    wrong = list(b.heard(1, mark, lambda pdu: not carries(pdu)))
    b.holds(not wrong, "link 1 carries all the time", *wrong[:2])


@group.test("09", "6.4.14, 6.4.9", "The partner becomes another system on both links", "carry on both links", "be another system on both",
            rule="both detach (Synchronization 0), and both carry again", links=2, takes=4.5, causes=("RX-12b",))  # fmt: skip
def restarts(b: Bench) -> None:
    """A partner that restarts as another system is selected anew, on both links together."""
    b.up(1, 2)
    mark, new = b.mark(), b.new_mac()
    for link in (1, 2):
        partner = b.partner(link)
        partner.become(system=replace(partner.me.system, mac=new))
        partner.send()
    for link in (1, 2):
        seen = b.first(link, mark, lambda pdu: not pdu.actor.state & State.SYNCHRONIZATION, 2)
        b.holds(seen, f"link {link} detaches", seen)
    both = b.until(8, lambda: all(map(b.is_ready, (1, 2))))
    b.holds(both, "both carry again", b.frame(1), b.frame(2))


def counted(frame: Frame) -> int:
    """The how many-th of its flow a frame is."""
    return int.from_bytes(frame.octets[COUNT_AT : COUNT_AT + 4], "big")


@group.test("17", "6.2.4, 6.4.14", "Each frame of a flow goes out once, and in order", "carry on both links, while the device's client sends (hook: data)",
            "change our key on link 2, and take it back after 3 s",
            rule="no frame of a flow comes twice, or behind a later one, by the kernel's times", links=2, takes=14.5, hooks=DATA)  # fmt: skip
def in_order(b: Bench) -> None:
    """A frame of the client goes out on one link, and its conversation stays in order, also where links leave and come back: the Distributor
    neither duplicates nor misorders."""
    b.up(1, 2)
    with b.undone(lambda: b.hook("data", "stop")):
        mark, partner = b.data_starts(), b.partner(2)
        b.wait(2)
        key = partner.me.key
        partner.become_other("key")
        partner.send()
        b.wait(3)
        partner.become(key=key)
        partner.send()
        b.until(5, lambda: b.is_ready(2))
        b.wait(2)
    b.hook("data", "stop")
    flows_seen = b.flows(mark)
    if not flows_seen:
        raise Stop("no data of the device came that has numbers: those of examples/conform/flows.py have them")
    twice = [it for those in flows_seen.values() for one, it in zip(those, those[1:]) if counted(it) == counted(one)]
    behind = [it for those in flows_seen.values() for one, it in zip(those, those[1:]) if counted(it) < counted(one)]
    total = sum(map(len, flows_seen.values()))
    b.claim(not twice, f"of {total} frames of {len(flows_seen)} flows, {len(twice)} came twice; has to be none", *twice[:3], bears=1.0, in_flood=True)
    b.claim(not behind, f"of {total} frames of {len(flows_seen)} flows, {len(behind)} came behind a later one; has to be none", *behind[:3], bears=1.0)


def reflect(b: Bench, across: bool, seconds: float) -> int:
    """Sends the device's own LACPDUs back to it, on the same link or on the other one; the mark of the start."""
    b.silence()
    mark = done = b.mark()
    limit = b.now() + seconds
    links = 2 if across else 1
    while b.now() < limit:
        b.wait(0.05)
        came, done = b.frames[done:], len(b.frames)
        for frame in came:
            if not frame.out and frame.lacpdu and frame.link <= links:
                b.send_raw(3 - frame.link if across else frame.link, frame.octets)
    return mark


def carries_for_itself(pdu: Lacpdu) -> bool:
    """Whether an LACPDU carries with the device as its own partner."""
    return pdu.partner.system == pdu.actor.system and bool(pdu.actor.state & CARRIES)


@group.test("10", "6.4.14 (loopback)", "A link that is looped back", "send each LACPDU of the device back to it, for 7 s",
            rule="the port never collects and distributes with itself as its partner", takes=7.5, basis=MEMORY)  # fmt: skip
def looped(b: Bench) -> None:
    """A port that hears itself is no link to a partner: it may not carry."""
    b.still_up()
    mark = reflect(b, False, 7)
    found = list(b.heard(1, mark))
    if not found:
        raise Stop(UNHEARD)
    wrong = list(b.heard(1, mark, lambda pdu: carries_for_itself(pdu) and pdu.partner.port == pdu.actor.port))
    b.claim(not wrong, f"{len(wrong)} LACPDUs that carry with the port itself as the partner; has to be none", *wrong[:2])


@group.test("11", "6.4.14 (loopback)", "Two ports of the device joined by a cable",
            "send each LACPDU of link 1 back on link 2, and the other way, for 9 s", rule="not both carry with the device itself as the partner",
            links=2, takes=11.5, basis=MEMORY)  # fmt: skip
def crossed(b: Bench) -> None:
    """Two ports of one system that are joined may not be in one aggregator."""
    b.up(1, 2)
    mark = reflect(b, True, 9)
    found = {link: list(b.heard(link, mark, carries_for_itself)) for link in (1, 2)}
    text = f"LACPDUs that carry with the own system as partner: {len(found[1])} on link 1, {len(found[2])} on link 2; has to be none on one of them"
    b.claim(not all(found.values()), text, *found[1][-1:], *found[2][-1:])


@group.test("12", "6.4.14", "A third LAG ID does not disturb two links", "carry on both links",
            "send single LACPDUs of another system on link 2, each second, beside ours",
            rule="link 1 carries on; at most one LACPDU of link 2 carries while its partner changes twice a second", links=2, takes=7.5,
            causes=("RX-12b",))  # fmt: skip
def stranger(b: Bench) -> None:
    """LACPDUs of a second system on one link take that link out, and not the other one."""
    b.up(1, 2)
    mark, partner = b.mark(), b.partner(2)
    me = partner.me
    for _ in range(5):
        partner.become(system=replace(me.system, mac=b.new_mac()))
        partner.send()
        b.wait(0.5)
        partner.become(system=me.system)
        partner.send()
        b.wait(0.5)
    wrong = list(b.heard(1, mark, lambda pdu: not carries(pdu)))
    b.holds(not wrong, "link 1 carries all the time", *wrong[:2])
    wrong = list(b.heard(2, mark, lambda pdu: pdu.actor.state & CARRIES))
    b.claim(len(wrong) <= 1, f"{len(wrong)} LACPDUs of link 2 carry while its partner changes twice a second; has to be at most 1", *wrong[:3])


THREE = (1, 2, 3)


@group.test("14", "6.4.14, 6.3.7", "Three links of one partner aggregate", "be one partner with one key on three links",
            rule="all carry, and stay so for 4 s; data comes on all of them, or it is told on which", links=3, takes=8.5, hooks=DATA, causes=("SL-01",))  # fmt: skip
def three_aggregate(b: Bench) -> None:
    """Links of one LAG ID share an aggregator, however many they are."""
    b.up(*THREE)
    mark = b.mark()
    b.wait(4)
    wrong = [it for link in THREE for it in b.heard(link, mark, lambda pdu: not carries(pdu))]
    b.holds(not wrong, "all carry for 4 s", *wrong[:2])
    try:
        b.note(f"flows of one client by link: {flows(b, THREE)}")
    except NotHere:
        b.note("no hook for data: that all links are one aggregator is not seen")


@group.test("15", "6.4.14, 6.3.6", "Two of three links are of one partner", "be one system on links 1 and 2, and another one on link 3",
            rule="links 1 and 2 carry, or link 3 alone; link 3 is not in their aggregator", links=3, takes=10.5, hooks=DATA, causes=("SL-03", "SL-01"))  # fmt: skip
def two_and_one(b: Bench) -> None:
    """Links of two LAG IDs are two aggregators, also where one of them has several links."""
    b.begin(1, 2)
    b.begin(3)
    mark = b.mark()
    b.wait(PARTED)
    told = Told(b, mark, THREE)
    frames, right = list(told.frames.values()), {1, 2} <= set(told.ours) or told.carrying == told.ours == [3]
    b.claim(right, f"{told.text}; links 1 and 2 have to carry, or link 3 alone", *frames)
    try:
        found = flows(b, THREE)
    except NotHere as why:
        if told.carrying == [*THREE]:
            raise Stop(f"{told.carry}; without data it cannot be seen in how many aggregators ({why})") from why
        return
    if told.carrying == [*THREE] and sum(map(bool, found.values())) < 2 and not spreads(b):
        raise Stop(f"{told.carry}, and data came on one at most: but the device does so for one aggregator, too")
    mixed = found[3] and (found[1] or found[2])
    b.claim(not mixed, f"flows of one client by link: {found}; has to be links 1 and 2, or link 3", *frames, bears=1.0)


@group.test("16", "6.4.14, 6.4.9", "One of three links leaves", "carry on three links", "change our key on link 3",
            rule="link 3 stops carrying promptly; links 1 and 2 carry on", tolerance="prompt: 0.5 s", links=3, takes=6.5, causes=("SL-07",))  # fmt: skip
def one_of_three_leaves(b: Bench) -> None:
    """A link that leaves the aggregator takes no other one along."""
    b.up(*THREE)
    b.behind(3)
    b.partner(3).become_other("key")
    mark, sent = b.mark(), b.partner(3).send()
    seen = b.first(3, mark, does_not_carry, SOON)
    b.timed("link 3 stops carrying", sent, seen, 0, PROMPT)
    b.wait(3)
    wrong = [it for link in (1, 2) for it in b.heard(link, mark, lambda pdu: not carries(pdu))]
    b.holds(not wrong, "links 1 and 2 carry all the time", *wrong[:2])
