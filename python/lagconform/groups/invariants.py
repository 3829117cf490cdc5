"""IV: what holds for every frame of the whole run. These come last and send nothing."""

from __future__ import annotations

from math import inf
from typing import Optional, Tuple

from niwhopera import Info, Lacpdu, State

from ..bench import PROMPT, Bench
from ..model import SURE, Frame, Group
from ..pdus import PAYLOAD, SIX, SLOW, is_of_lag, number_of, put, read, value

group = Group("IV", "All frames of the run")
Told = Tuple[object, ...]


def lacpdus(b: Bench) -> list[tuple[Frame, Lacpdu]]:
    """All LACPDUs of the device."""
    return [(it, it.lacpdu) for it in b.frames if not it.out and it.lacpdu]


def implies(info: Info, one: State, other: State) -> bool:
    """Whether the first bit is set with the second one alone."""
    return not info.state & one or bool(info.state & other)


@group.test("01", "6.4.15", "Distributing implies Collecting, and that implies Synchronization", "look at all LACPDUs of the run",
            rule="no LACPDU tells otherwise", takes=0.1)  # fmt: skip
def implied(b: Bench) -> None:
    """In each state of the mux machine Distributing has Collecting, and Collecting has Synchronization."""
    found = lacpdus(b)
    pairs = ((State.DISTRIBUTING, State.COLLECTING), (State.COLLECTING, State.SYNCHRONIZATION))
    wrong = [it for it, pdu in found if not all(implies(pdu.actor, *pair) for pair in pairs)]
    text = f"{len(wrong)} of {len(found)} LACPDUs tell Distributing without Collecting, or Collecting without Synchronization; has to be none"
    b.claim(not wrong, text, *wrong[:4], bears=SURE)


@group.test("02", "6.4.15, 6.4.9", "It never carries for a partner that it tells as out of sync", "look at all LACPDUs of the run",
            rule="no LACPDU has Distributing with Partner_State.Synchronization 0", takes=0.1, causes=("MX-03",))  # fmt: skip
def in_sync(b: Bench) -> None:
    """COLLECTING_DISTRIBUTING is left as partner Synchronization becomes false; no LACPDU is sent between."""
    found = lacpdus(b)
    wrong = [it for it, pdu in found if pdu.actor.state & State.DISTRIBUTING and not pdu.partner.state & State.SYNCHRONIZATION]
    b.claim(not wrong, f"{len(wrong)} of {len(found)} LACPDUs tell Distributing for a partner out of sync; has to be none", *wrong[:4], bears=SURE)


def is_marker(frame: Frame) -> bool:
    """Whether a frame has the subtype of Marker PDUs."""
    return frame.octets[12:15] == SLOW + b"\2"


@group.test("03", "6.4.2, 6.5.3", "The library's codec reads each LACPDU and Marker PDU", "look at all LACPDUs and Marker PDUs of the device: subtypes 1 and 2",
            rule="niwhopera.decode refuses none but echoes of markers that the bench sent wrong, which are told; TLV types as they have to be; "
            "124 octets or more", takes=0.1)  # fmt: skip
def whole(b: Bench) -> None:
    """Each LACPDU and Marker PDU of the whole run has the right shape. The response to a marker that the bench sent wrong (MK-08, MK-09) may be as wrong.
    Other Slow Protocols, as OAM and ESMC, are not looked at."""
    slow = [it for it in b.frames if not it.out and is_of_lag(it.octets)]

    def is_whole(it: Frame) -> bool:
        types = (16, 36, 56) if it.lacpdu else ()
        right = all(it.octets[at : at + 1] == bytes([number]) for number, at in enumerate(types, 1))
        return it.pdu is not None and right and len(it.octets) >= 124

    sent = {it.octets[17:30] for it in b.frames if it.out and is_marker(it) and not is_whole(it)}
    echoes = [it for it in slow if not is_whole(it) and it.octets[17:30] in sent]
    wrong = [it for it in slow if not is_whole(it) and it not in echoes]
    text = f"{len(wrong)} of {len(slow)} frames are something else{f': {wrong[0].fault}' if wrong else ''}; has to be none"
    b.claim(not wrong, text, *wrong[:4], bears=SURE, causes=("MK-02", "MK-01", "MK-09") if all(map(is_marker, wrong)) else ())
    if echoes:
        b.note(f"{number_of(len(echoes), 'response')} to wrong markers of the bench may be as wrong: packet {echoes[0].number}: {echoes[0].fault}")


@group.test("04", "6.4.9 (recordPDU)", "The partner that it tells is one that it was told", "look at all LACPDUs of the run whose partner is one of our systems",
            rule="each was sent on that link before", takes=0.1)  # fmt: skip
def known(b: Bench) -> None:
    """A partner that is told was the actor of an LACPDU on that link: nothing is mixed between links. What the device tells until it has taken our first
    LACPDU there may be of the run before."""
    sent: dict[int, set[Told]] = {link: set() for link in b.links}
    begin: dict[int, float] = {}
    wrong = []
    for frame in b.frames:
        pdu = frame.lacpdu or (shown(frame) if frame.out else None)
        if pdu and frame.out:
            sent[frame.link].add(told_of(b, pdu.actor))
            begin.setdefault(frame.link, frame.time + PROMPT)
        elif pdu and frame.time > begin.get(frame.link, inf) and b.is_ours(pdu.partner.system.mac) and told_of(b, pdu.partner) not in sent[frame.link]:
            wrong.append(frame)
    b.claim(not wrong, f"{len(wrong)} LACPDUs tell a partner that was never there; has to be none", *wrong[:3], bears=SURE)


def told_of(b: Bench, info: Info) -> Told:
    """How the device should tell an end of ours: the six parameters, but for those that it tells wrong all along."""
    return tuple(value(info, it) for it in SIX if it not in b.mistold)


def shown(frame: Frame) -> Optional[Lacpdu]:
    """What a device may read in an LACPDU of ours that the codec refuses, for its lengths or its end."""
    if frame.octets[12:15] != SLOW + b"\1" or len(frame.octets) < PAYLOAD + 30:
        return None
    octets = frame.octets[PAYLOAD:] + bytes(110)
    pdu, _ = read(SLOW.rjust(PAYLOAD, b"\0") + put(put(put(octets, 3, b"\x14"), 23, b"\x14"), 43, b"\x10"))
    return pdu if isinstance(pdu, Lacpdu) else None


@group.test("05", "6.4.16", "At most three LACPDUs a second, in the whole run", "look at all LACPDUs of the run",
            rule="never four in 0.75 s on a link, counted anew from each start by the hook; four in 0.98 s are told", tolerance="timers 0.25 s", takes=0.1, causes=("TX-01",))  # fmt: skip
def rate(b: Bench) -> None:
    """The limit of the transmit machine holds whatever the partner does."""
    starts = [when for when, words in b.events if words[0] == "start"]
    for link in b.links:
        found = list(b.heard(link, 0))
        begun = [sum(when <= it.time for when in starts) for it in found]
        spans = [found[at + 3].time - found[at].time if begun[at] == begun[at + 3] else inf for at in range(len(found) - 3)]
        high = [at for at, span in enumerate(spans) if span < 0.75]
        text = f"link {link}: four or more LACPDUs within 0.75 s, {number_of(len(high), 'time')} of {len(found)}; has to be never"
        b.claim(not high, text, *(found[high[0] : high[0] + 4] if high else ()), bears=SURE)
        if not high and (near := [span for span in spans if span < 0.98]):
            b.note(f"link {link}: four or more within 0.98 s, {number_of(len(near), 'time')}")
