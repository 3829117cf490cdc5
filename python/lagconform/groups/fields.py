"""FM: the format of LACPDUs, and what their fields say."""

from __future__ import annotations

from dataclasses import replace
from typing import Callable

from niwhopera import PortId, State, SystemId

from ..bench import SOON, Bench, is_lacp
from ..model import SURE, Frame, Group, Stuck
from ..pdus import GROUP, PAYLOAD, end, is_individual, mac, words
from ..pics import denied

# These look at each link, but for FM-07 and FM-09, which have the device answer at once.
group = Group("FM", "Format and fields of LACPDUs (6.4.2)")
RESERVED = [*range(19, 22), *range(39, 42), *range(46, 58), *range(60, 110)]
TLVS = (("Actor", 2, b"\1\x14"), ("Partner", 22, b"\2\x14"), ("Collector", 42, b"\3\x10"), ("Terminator", 58, b"\0\0"))
# The bits of a state octet that a device echoes as they were.
ECHOED = State.TIMEOUT | State.COLLECTING | State.DISTRIBUTING


def others(b: Bench) -> list[int]:
    """The links beside link 1, each with a right partner of the same system, so that they speak, too; whether they carry is no matter here."""
    links = [it for it in b.links if it != 1]
    for it in links:
        b.partner(it).begin(b.partner().me.system.mac)
        b.partner(it).speak()
    return links


def collected(b: Bench, least: int, takes: Callable[[Frame], object]) -> dict[int, list[Frame]]:
    """What comes on each link in 6 s until there are so many on each; a link beside link 1 that has fewer is told, and left out."""
    links = [1, *others(b)]
    mark = b.mark()

    def found(link: int) -> list[Frame]:
        return [it for it in b.frames[mark:] if not it.out and it.link == link and takes(it)]

    b.until(6, lambda: all(len(found(it)) >= least for it in links))
    for link in links[1:]:
        if len(found(link)) < least:
            b.note(f"link {link}: {len(found(link))} LACPDUs in 6 s, so nothing is claimed of it")
    return {it: found(it) for it in links if it == 1 or len(found(it)) >= least}


def spoken(b: Bench, least: int = 3, reads: bool = False) -> dict[int, list[Frame]]:
    """Some frames of the device on each link with the subtype of LACP, beside a right partner, whether the device carries or not; `reads`: those that
    can be read."""
    try:
        b.still_up()
    except Stuck:
        b.begin(1)
    found = collected(b, least, lambda it: it.lacpdu if reads else is_lacp(it.octets))
    if len(found[1]) < least:
        raise b.stuck(f"{len(found[1])} LACPDUs in 6 s", 1)
    return found


def octets(frame: Frame, at: int, count: int) -> bytes:
    """Octets of the payload."""
    return frame.octets[PAYLOAD + at : PAYLOAD + at + count]


def on(link: int) -> str:
    """How a claim begins that looks at a link: link 1 is not named."""
    return "" if link == 1 else f"link {link}: "


@group.test("01", "6.4.2.2, 6.2.10.1", "Destination, source and type", "take LACPDUs of the device beside a right partner, on each link",
            rule="each has the Slow Protocols address and type and an individual source", takes=5.5)  # fmt: skip
def addresses(b: Bench) -> None:
    """Each LACPDU goes to 01-80-C2-00-00-02, with EtherType 8809, from the individual address of the port."""
    for link, found in spoken(b).items():
        wrong = [it for it in found if it.octets[:6] != GROUP]
        text = f"{on(link)}destination {mac((wrong or found)[0].octets[:6])}; has to be {mac(GROUP)}"
        b.claim(not wrong, text, *wrong[:3] or found[:1], bears=SURE)
        sources = {it.octets[6:12] for it in found}
        one = min(sources)
        right = len(sources) == 1 and is_individual(one)
        b.claim(right, f"{on(link)}source {', '.join(map(mac, sources))}; has to be one individual address", found[0], bears=SURE)


@group.test("02", "6.4.2.3, 6.4.2.2", "Length, subtype and version", "take LACPDUs on each link",
            rule="payload of exactly 110 octets (version 1); subtype 1; version 1 or 2", takes=3.5)  # fmt: skip
def head(b: Bench) -> None:
    """An LACPDU has subtype 1, version 1 (or 2), and as version 1 has 110 octets of payload."""
    for link, found in spoken(b).items():
        versions = sorted({octets(it, 1, 1).hex() or "none" for it in found})
        b.claim(set(versions) <= {"01", "02"}, f"{on(link)}version {', '.join(versions)}; has to be 01, or 02", found[0], bears=SURE)
        wrong = [it for it in found if len(it.octets) < 124 or len(it.octets) > 124 and octets(it, 1, 1) == b"\1"]
        sizes = sorted({len(it.octets) for it in found})
        text = f"{on(link)}frames of {', '.join(map(str, sizes))} octets without FCS; has to be 124, or more in version 2"
        b.claim(not wrong, text, *wrong[:2] or found[:1], bears=SURE)


@group.test("03", "6.4.2.3", "Types and lengths of TLVs", "take LACPDUs on each link", rule="1/20, 2/20, 3/16, 0/0 at their offsets", takes=3.5)
def tlvs(b: Bench) -> None:
    """The Actor, Partner, Collector and Terminator TLVs have their types and lengths."""
    for link, found in spoken(b).items():
        for name, at, right in TLVS:
            if name == "Terminator" and octets(found[0], 1, 1) != b"\1":
                continue
            wrong = [it for it in found if octets(it, at, 2) != right]
            stands = octets(wrong[0], at, 2).hex() or "nothing: the frame ends before" if wrong else right.hex()
            text = f"{on(link)}{name} TLV, octets {at} and {at + 1} of the payload: {stands}; has to be {right.hex()}"
            b.claim(not wrong, text, *wrong[:2] or found[:1], bears=SURE)


@group.test("04", "6.4.2.3", "Reserved octets are zero", "take LACPDUs on each link",
            rule="octets 19-21, 39-41, 46-57 and, in version 1, 60-109 of the payload are 0", takes=3.5)  # fmt: skip
def reserved(b: Bench) -> None:
    """Reserved octets are sent as zero."""
    for link, found in spoken(b).items():
        wrong = [(it, at) for it in found for at in RESERVED if octets(it, 1, 1) == b"\1" and octets(it, at, 1) not in (b"", b"\0")]
        stands = f"octet {wrong[0][1]} is {octets(wrong[0][0], wrong[0][1], 1).hex()}" if wrong else "all are 00"
        b.claim(not wrong, f"{on(link)}reserved octets: {stands}; has to be 00", *[it for it, _ in wrong[:2]] or found[:1], bears=SURE)


@group.test("05", "6.3.2, 6.3.4", "Identifiers of the actor", "take LACPDUs over 3 s, on each link",
            rule="an individual system address that is not 0; port number not 0; system, key and port stay", takes=4.5)  # fmt: skip
def identifiers(b: Bench) -> None:
    """The system identifier has an individual MAC address, the port number is not 0, and neither changes."""
    for link, found in spoken(b, least=4, reads=True).items():
        actors = [it.lacpdu.actor for it in found if it.lacpdu]
        system, port = actors[0].system, actors[0].port
        b.claim(is_individual(system.mac), f"{on(link)}system {system}; has to be an individual address, not 0", found[0], bears=SURE)
        b.claim(port.number, f"{on(link)}port number {port.number}; has to be another than 0", found[0], bears=SURE)
        ends = {it: (it.lacpdu.actor.system, it.lacpdu.actor.key, it.lacpdu.actor.port) for it in found if it.lacpdu}
        changed = [it for it in found if ends.get(it) != ends[found[0]]]
        stands = f"; then {end(changed[0].lacpdu.actor)}" if changed and changed[0].lacpdu else ""
        b.claim(not changed, f"{on(link)}system, key and port {end(actors[0])}{stands}; have to stay", found[0], *changed[:1], bears=SURE)
        if not actors[0].key:
            b.note(f"{on(link)}the key is 0")


@group.test("06", "6.4.9 (recordPDU)", "Each field of the partner is recorded", "on each link, send LACPDUs of an actor with unusual priorities, key and port",
            "read the partner of the next LACPDUs", rule="the partner in the answers equals our actor, octet by octet", takes=0.5,
            causes=("FM-02", "FM-03"))  # fmt: skip
def echo(b: Bench) -> None:
    """The partner that the device tells is the actor of the last LACPDU that it got: each of its numbers, and each bit but
    Synchronization, Defaulted and Expired."""
    for priority, key, ports in (0x0102, 0xFFFE, (0xA5, 0xF00C)), (0, 1, (0xFFFF, 0)):
        b.begin(*b.links, silent=True)
        for link in b.links:
            partner = b.partner(link)
            partner.become(system=SystemId(priority, partner.me.system.mac), key=key, port=PortId(ports[0], ports[1] + link))
        mark = b.mark()
        for link in b.links:
            b.partner(link).speak()
        for link in b.links:
            recorded(b, link, mark)


def recorded(b: Bench, link: int, mark: int) -> None:
    """Claims that the device tells our end of a link as it is, since a mark."""
    own = b.partner(link).me.info
    seen = b.first(link, mark, lambda pdu: pdu.partner.system.mac == own.system.mac, 3)
    told = seen.lacpdu.partner if seen and seen.lacpdu else None
    same = told and replace(told, state=own.state) == own
    b.claim(same, f"{on(link)}the partner told is {end(told) if told else 'none'}; has to be what was sent, {end(own)}", seen)
    mask = State.ACTIVITY | State.TIMEOUT | State.AGGREGATION
    bits = words(told.state & mask) if told else "nothing"
    alike = told and not (told.state ^ own.state) & mask
    b.claim(alike, f"{on(link)}of Activity, Timeout and Aggregation it tells {bits}; has to be {words(own.state & mask)}", seen)


@group.test("07", "6.4.2.3, 6.4.9", "State bits of the partner are recorded",
            "beside a device that carries, change Timeout, Collecting and Distributing of our state",
            rule="the partner's state told next has these bits", takes=5.5)  # fmt: skip
def echoed_bits(b: Bench) -> None:
    """Actor_State is recorded as Partner_State: Timeout, Collecting, Distributing."""
    b.up()
    for bits in dict(distributing=False), dict(collecting=False), dict(collecting=True, distributing=True):
        mark, sent = b.mark(), b.say(**bits)
        want = b.partner().lacpdu().actor.state & ECHOED
        seen = b.first(1, mark, lambda pdu: pdu.partner.state & ECHOED == want, SOON)
        said = words(b.device().partner.state & ECHOED)
        b.claim(seen, f"of the partner's Timeout, Collecting and Distributing it tells {said}; has to be {words(want)}", sent, seen or b.frame())


@group.test("08", "6.4.2.3", "Timeout and Aggregation are told, and stay", "take LACPDUs on each link",
            rule="Activity, Timeout and Aggregation stay, as --pics claims them; Defaulted and Expired are 0 beside a right partner, "
            "and on link 1 Synchronization is 1", takes=3.5, causes=("RX-04",))  # fmt: skip
def steady_bits(b: Bench) -> None:
    """Beside a right partner, Defaulted and Expired are 0, and Activity, Timeout and Aggregation stay."""
    b.still_up()
    b.wait(0.5)
    for link, found in spoken(b, reads=True).items():
        # Beside link 1, what came before the device heard its new partner is of no matter.
        own = b.partner(link).me.system
        heard = [it for it in found if link == 1 or it.lacpdu and it.lacpdu.partner.system == own]
        if heard:
            steady(b, link, heard)


def steady(b: Bench, link: int, found: list[Frame]) -> None:
    """Claims of the bits that LACPDUs of a link tell."""
    states = {it.number: it.lacpdu.actor.state for it in found if it.lacpdu}
    first = states[found[0].number]
    wrong = [it for it in found if states[it.number] & (State.DEFAULTED | State.EXPIRED)]
    b.holds(not wrong, f"{on(link)}neither Defaulted nor Expired", *wrong[:2] or found[:2])
    wrong = [it for it in found if (states[it.number] ^ first) & 7]
    text = f"{on(link)}Activity, Timeout, Aggregation are {words(first & 7)}"
    b.claim(not wrong, f"{text}, then {words(states[wrong[0].number] & 7)}; have to stay" if wrong else f"{text}, and stay", found[0], *wrong[:1], bears=SURE)
    if link == 1:
        b.holds(first & State.SYNCHRONIZATION, "synchronized", found[0])
    if b.claimed:
        wrong_claims = denied(b.claimed, first)
        text = f"it tells {words(first & 7)}, and claims {', '.join(wrong_claims)}" if wrong_claims else "its bits are as it claims"
        b.claim(not wrong_claims, f"{on(link)}{text}", found[0], bears=SURE)
    b.note(f"{on(link)}{'aggregatable' if first & State.AGGREGATION else 'individual'}")


@group.test("09", "6.4.2.3, 6.4.9", "Expired and Defaulted of the partner are recorded",
            "beside a device that carries, say Expired, then Defaulted, then neither", rule="the partner's state told next has these bits", takes=3.5)  # fmt: skip
def echoed_machines(b: Bench) -> None:
    """Actor_State is recorded as Partner_State whole, but for Synchronization: Expired and Defaulted, too."""
    b.still_up()
    mask = State.EXPIRED | State.DEFAULTED
    for expired, defaulted in (True, False), (False, True), (False, False):
        mark, sent = b.mark(), b.say(expired=expired, defaulted=defaulted)
        want = b.partner().lacpdu().actor.state & mask
        seen = b.first(1, mark, lambda pdu: pdu.partner.state & mask == want, SOON)
        said = words(b.device().partner.state & mask)
        b.claim(seen, f"of the partner's Defaulted and Expired it tells {said}; has to be {words(want)}", sent, seen or b.frame())
