"""MK: the Marker Responder (6.5.4), which every system has."""

from __future__ import annotations

from typing import Optional, Sequence, Tuple

from niwhopera import MarkerKind, State, encode
from niwhopera import Marker as MarkerPdu

from ..bench import Bench, most_within
from ..model import MEMORY, SURE, Frame, Group, NotHere, Stop
from ..partner import slow
from ..pdus import GROUP, PAYLOAD, SLOW, mac, number_of, put
from .mux import OUT_OF_SYNC
from .silence import on_defaults

group = Group("MK", "Marker Responder (6.5.4)", needs=("marker-responder",))
# Between markers of tests that want no more than an answer: one device in the field answers one in 2 s.
GAP = 2.6
# Octets of a frame: where the identifier of a marker stands, and what a response echoes: port, system and identifier.
ID, ECHOED = slice(PAYLOAD + 12, PAYLOAD + 16), slice(PAYLOAD + 4, PAYLOAD + 16)
# A marker, and its response, if one came.
Pair = Tuple[Frame, Optional[Frame]]


def marker(b: Bench, link: int = 1, kind: MarkerKind = MarkerKind.INFORMATION) -> bytes:
    """The payload of a marker with an identifier of its own, which differs from those of others by more than one."""
    return encode(MarkerPdu(kind, 0x0102, b.partner(link).me.system.mac, 0xC0000000 + 0x111 * b.number()))


def answered(b: Bench, link: int, mark: int, sent: Frame) -> Optional[Frame]:
    """The response to a marker, if it came: the one with its identifier, or one whose identifier no marker of ours had."""
    came = b.markers(link, mark)
    right = next((it for it in came if it.octets[ID] == sent.octets[ID]), None)
    if right or not came:
        return right
    asked = {it.octets[ID] for it in b.frames if it.out and it.octets[12:15] == SLOW + b"\2"}
    return next((it for it in came if it.octets[ID] not in asked), None)


def shown(frame: Optional[Frame]) -> str:
    """The port, the system and the identifier of a Marker PDU, as octets."""
    if not frame:
        return "nothing"
    octets = frame.octets
    return f"port {octets[18:20].hex()}, system {mac(octets[20:26])}, identifier {octets[ID].hex()}"


def echo(b: Bench, pairs: Sequence[Pair]) -> None:
    """Claims that each response which came has the port, system and identifier of its marker (6.5.3.3, 6.5.4.2)."""
    came = [(sent, seen) for sent, seen in pairs if seen]
    if not came:
        return
    wrong = [(sent, seen) for sent, seen in came if seen.octets[ECHOED] != sent.octets[ECHOED]]
    sent, seen = (wrong or came)[0]
    count = f"{len(wrong)} of {len(came)} responses echo another marker: the first" if wrong else f"{number_of(len(came), 'response')}: the first"
    text = f"{count} has {shown(seen)}; has to be what was sent, {shown(sent)}"
    b.claim(not wrong, text, *[it for pair in (wrong[:3] or came[:1]) for it in pair], bears=SURE)


def ask(b: Bench, payload: bytes, link: int = 1, to: bytes = GROUP, tries: int = 1) -> Pair:
    """Sends a marker, and waits a second for its response; up to `tries` times, where another test claims that each is answered."""
    mark = b.mark()
    sent = b.send_raw(link, to + slow(payload, b.wire.source(link))[6:])
    b.marked = sent.time
    b.until(1.0, lambda: answered(b, link, mark, sent))
    seen = answered(b, link, mark, sent)
    b.answers = b.answers or seen is not None
    if not seen and tries > 1:
        b.wait(GAP)
        return ask(b, payload, link, to, tries - 1)
    return sent, seen


def is_answered(b: Bench, statement: str) -> None:
    """Claims that a marker is answered now, by a response that echoes it."""
    sent, seen = ask(b, marker(b), tries=3)
    b.holds(seen, statement, sent, seen)
    echo(b, [(sent, seen)])


def pdus(b: Bench, mark: int) -> list[Frame]:
    """What came on link 1 since a mark that has the subtype of Marker PDUs."""
    return [it for it in b.frames[mark:] if not it.out and it.link == 1 and it.octets[12:15] == SLOW + b"\2"]


def answers(b: Bench, mark: int) -> list[Frame]:
    """The same, without the device's own markers: those that name no system of ours."""
    return [it for it in pdus(b, mark) if not (it.marker and it.marker.kind is MarkerKind.INFORMATION and not b.is_ours(it.marker.system))]


def wants_answers(b: Bench) -> None:
    """The tests behind the first one want a device that answers at all."""
    b.still_up()
    pause(b)
    if not b.answers and not ask(b, marker(b), tries=3)[1]:
        raise NotHere("no marker is answered rightly (MK-01)")
    pause(b)


def pause(b: Bench) -> None:
    """Waits until the last marker is so long ago that the device has to answer one more."""
    b.wait(max(0.0, b.marked + GAP - b.now()))


@group.test("01", "6.5.4, 6.2.6", "A marker is answered", "carry", "send a marker, three times, 2.6 s apart",
            rule="each gets a Marker Response within 1 s, which echoes its port, system and identifier; --pics does not deny it", tolerance="1 s: the standard has no number",
            takes=7.5, causes=("MK-02", "MK-11"))  # fmt: skip
def responds(b: Bench) -> None:
    """The Marker Responder is required of every system: a Marker PDU is answered by a Marker Response PDU."""
    b.still_up()
    got = []
    for _ in range(3):
        pause(b)
        got.append(ask(b, marker(b)))
    times = [seen.time - sent.time for sent, seen in got if seen]
    told = f", after {max(times) * 1000:.1f} ms at most" if times else ""
    b.claim(len(times) == 3, f"{len(times)} of 3 markers were answered within 1 s{told}; has to be 3", *[it for pair in got for it in pair])
    echo(b, got)
    if b.claimed.get("marker-responder") is False:
        b.claim(False, "it claims to have no Marker Responder, which 6.2.6 wants of every system", bears=SURE)


@group.test("02", "6.5.3.3, 6.5.4.2", "The response echoes port, system and transaction", "send a marker",
            rule="it is answered; the octets of port, system and identifier are those of the marker; TLV 2 of length 16; subtype 2; Terminator 0, 0; 110 octets",
            takes=3)  # fmt: skip
def echoes(b: Bench) -> None:
    """A response differs from its marker in the TLV type alone, as far as the fields go."""
    b.still_up()
    pause(b)
    mark = b.mark()
    sent = b.send(1, marker(b))
    b.marked = sent.time
    b.until(1.0, lambda: b.markers(1, mark))
    seen = next(iter(b.markers(1, mark)), None)
    if not seen:
        wants_answers(b)
        b.claim(False, "no response came in 1 s, though other markers are answered; has to be one", sent, causes=("MK-01",))
        return
    echo(b, [(sent, seen)])
    head = seen.octets[14:15] + seen.octets[16:18]
    b.claim(head == b"\2\2\x10", f"subtype, TLV type and length are {head.hex(' ')}; has to be 02 02 10", seen, bears=SURE)
    told = f"Terminator {seen.octets[32:34].hex(' ')}, frame of {len(seen.octets)} octets"
    b.claim(seen.octets[32:34] == b"\0\0" and len(seen.octets) == 124, f"{told}; has to be 00 00, and 124", seen, bears=SURE)


@group.test("03", "6.5.3.2, 6.2.10.1", "Addresses of the response", "send a marker",
            rule="to 01-80-C2-00-00-02, from the individual address of the port: that of its LACPDUs", takes=3)  # fmt: skip
def addresses(b: Bench) -> None:
    """A Marker Response goes to the Slow Protocols address, from the address of the port."""
    wants_answers(b)
    sent, seen = ask(b, marker(b), tries=3)
    if not seen:
        raise Stop("no answer this time")
    b.claim(seen.octets[:6] == GROUP, f"destination {mac(seen.octets[:6])}; has to be {mac(GROUP)}", seen, bears=SURE)
    individual = not seen.octets[6] & 1 and seen.octets[6:12] != sent.octets[6:12]
    b.holds(individual, f"source {mac(seen.octets[6:12])} is individual, and not ours", seen)
    own = b.frame()
    same = seen.octets[6:12] == own.octets[6:12]
    b.claim(same, f"its LACPDUs come from {mac(own.octets[6:12])}; the response has to, too", own, seen, bears=SURE)


@group.test("04", "6.5.3.3, 6.5.4.2", "Version, pad and reserved octets of the response",
            "send a marker of version 2 whose pad and reserved octets are not 0",
            rule="it is answered; version, pad and reserved octets are those of the marker, or 1 and zeros: either is right", takes=3,
            basis=MEMORY)  # fmt: skip
def pads(b: Bench) -> None:
    """The responder does not validate version, pad and reserved fields. In the response they may be those that were received, or 1 and
    zeros."""
    wants_answers(b)
    odd = put(put(put(marker(b), 1, b"\2"), 16, b"\xa5\x5a"), 20, b"\xa5" * 90)
    sent, seen = ask(b, odd, tries=3)
    b.holds(seen, "it is answered", sent, seen)
    if not seen:
        return
    for what, at, count, new in ("version", 1, 1, b"\1"), ("pad", 16, 2, bytes(2)), ("reserved octets", 20, 90, bytes(90)):
        stands = seen.octets[PAYLOAD + at : PAYLOAD + at + count]
        kind = "those of the marker" if stands == odd[at : at + count] else "made anew" if stands == new else "something else"
        b.note(f"{what} {stands[:4].hex()}: {kind}")


@group.test("05", "6.5.4.2", "Markers each second are all answered", "send ten markers, 1 s apart",
            rule="ten responses, each of which echoes its marker", takes=13, causes=("MK-02",))  # fmt: skip
def each_second(b: Bench) -> None:
    """Each marker is answered; one a second is well under the limit of Slow Protocols."""
    wants_answers(b)
    got = []
    for _ in range(10):
        got.append(ask(b, marker(b)))
        b.until(max(0.0, got[-1][0].time + 1 - b.now()))
    missed = [sent for sent, seen in got if not seen]
    b.claim(not missed, f"{10 - len(missed)} of 10 were answered; has to be 10", *missed[:4])
    echo(b, got)


@group.test("06", "6.5.4.1, 802.3 57A.2", "A burst of markers", "send 40 markers in 1 s", "then one more after 2.6 s",
            rule="at most 10 Marker PDUs in a second (802.3 Annex 57A, 10 of each Slow Protocol); each response echoes its marker; afterwards it still answers",
            tolerance="window 0.98 s", takes=5.5, basis=MEMORY, causes=("MK-02",))  # fmt: skip
def burst(b: Bench) -> None:
    """Markers that come faster than responses may be sent are dropped, without harm."""
    wants_answers(b)
    mark, sent = b.mark(), list[Frame]()
    for _ in range(40):
        sent.append(b.send(1, marker(b)))
        b.wait(0.025)
    b.wait(GAP)
    found = pdus(b, mark)
    times = [it.time for it in found]
    most = most_within(times, 0.98)
    first = next((at for at, time in enumerate(times) if sum(time <= other < time + 0.98 for other in times) == most), 0)
    text = f"{most} Marker PDUs within one second, {len(b.markers(1, mark))} of 40 markers were answered; has to be at most 10 in a second"
    b.claim(most <= 10, text, *found[first : first + 1], *found[first + 10 : first + 11], bears=SURE)  # the eleventh is one too many
    asked = {it.octets[ID]: it for it in sent}
    echo(b, [(asked.get(it.octets[ID], sent[-1]), it) for it in b.markers(1, mark)])
    is_answered(b, "afterwards a marker is answered")


@group.test("07", "6.5.4.2", "A response is not answered", "send a Marker Response that nobody asked for", rule="no Marker PDU comes back",
            takes=4.5)  # fmt: skip
def no_answer_to_response(b: Bench) -> None:
    """A Marker Response goes to the Marker Receiver, not to the responder."""
    wants_answers(b)
    mark = b.mark()
    sent = b.send(1, marker(b, kind=MarkerKind.RESPONSE))
    b.marked = sent.time
    b.wait(1.5)
    wrong = answers(b, mark)
    b.claim(not wrong, f"{len(wrong)} Marker PDUs come back; has to be none", sent, *wrong[:2], bears=SURE)


@group.test("08", "6.5.4.2, 6.2.7", "A Marker PDU of an unknown TLV", "send a Marker PDU with TLV type 3", rule="no response", takes=2.5)
def unknown_tlv(b: Bench) -> None:
    """A Marker PDU that is neither a marker nor a response is not answered."""
    wants_answers(b)
    mark = b.mark()
    sent = b.send(1, put(marker(b), 2, b"\3"))
    b.marked = sent.time
    b.wait(1.2)
    found = answers(b, mark)
    b.claim(not found, f"{len(found)} responses; has to be none", sent, *found[:1], bears=SURE)


@group.test("09", "6.5.3.3", "Malformed markers", "send markers of 14, 20 and 45 octets of payload and one with a wrong TLV length",
            "then a right one", rule="a marker cut off in its identifier is not answered; the right one is, and the link carries; what happened to the others is told",
            takes=12, causes=("MK-02",))  # fmt: skip
def malformed(b: Bench) -> None:
    """Markers that are cut off, or whose TLV has a wrong length, do no harm. A response to one that lacks its identifier would be made
    up."""
    wants_answers(b)
    whole, told = marker(b), []
    for what, payload in ("14 octets", whole[:14]), ("20 octets", whole[:20]), ("45 octets", whole[:45]), ("length 15", put(whole, 3, b"\x0f")):
        mark = b.mark()
        sent = b.send(1, payload)
        b.wait(GAP)
        back = answers(b, mark)
        told.append(f"{what}: {'answered' if back else 'not answered'}")
        if len(payload) == 14:
            b.holds(not back, "a marker that lacks half of its identifier is not answered", sent, *back[:1])
    b.note("; ".join(told))
    is_answered(b, "afterwards a right marker is answered")
    b.holds(b.carries(), "and the link carries", b.frame())


@group.test("10", "6.2.7, 6.5.4", "A port that does not collect answers, too", "be a partner out of sync: the device is ATTACHED",
            "send a marker", "say nothing until it is on defaults, and send a marker",
            rule="both are answered: the Aggregator Parser passes markers on whatever the state of the port", takes=11,
            causes=("MK-02",))  # fmt: skip
def not_collecting(b: Bench) -> None:
    """The Aggregator Parser passes Marker PDUs to the responder without regard to Collecting, and its responses out without regard to
    Distributing."""
    wants_answers(b)
    b.begin(1, silent=True)
    b.partner().forced.update(OUT_OF_SYNC)
    mark = b.mark()
    b.partner().speak()
    attached = b.first(1, mark, lambda pdu: b.partner().is_named_by(pdu) and pdu.actor.state & State.SYNCHRONIZATION, 6)
    if not attached or b.bits() & State.COLLECTING:
        raise Stop("it is not ATTACHED")
    is_answered(b, "in ATTACHED a marker is answered")
    b.silence()
    if not b.first(1, b.mark(), on_defaults, 9):
        b.note("it is not on defaults after 9 s")
        return
    is_answered(b, "on defaults a marker is answered")


@group.test("11", "6.5.4", "The response leaves on the link of the marker", "carry on both links", "send markers on link 1, then on link 2",
            rule="each is answered, on its own link alone", links=2, takes=5.5, needs=("two-ports",), causes=("MK-02",))  # fmt: skip
def own_link(b: Bench) -> None:
    """A response goes out on the port that got the marker: else order is not what it stands for."""
    b.up(1, 2)
    for link in (1, 2):
        pause(b)
        mark = b.mark()
        sent, seen = ask(b, marker(b, link), link)
        b.wait(0.3)
        stray = [it for it in b.markers(3 - link, mark) if it.octets[ID] == sent.octets[ID]]
        came = "answered" if seen else "answered wrongly" if b.markers(link, mark) else "not answered in 1 s"
        if not seen and not stray:
            wants_answers(b)
        b.claim(seen and not stray, f"link {link}: {came} there, and {number_of(len(stray), 'time')} on the other link; has to be answered there alone", sent, seen, *stray[:1])
        echo(b, [(sent, seen)])


@group.test("13", "6.5.3.3, 6.5.4.2", "A long marker gets an ordinary response", "send a marker of 1500 octets of payload",
            rule="a response of 110 octets of payload", takes=3, basis=MEMORY)  # fmt: skip
def long_marker(b: Bench) -> None:
    """A Marker Response PDU has 110 octets, however long the marker was: what stands behind the PDU is no part of it, and is not sent back."""
    wants_answers(b)
    sent, seen = ask(b, marker(b) + b"\xa5" * 1390, tries=3)
    if not seen:
        raise Stop("a marker of 1500 octets is not answered")
    b.claim(len(seen.octets) == 124, f"a marker of 1514 octets gets a response of {len(seen.octets)}; has to be 124", sent, seen, bears=SURE)


@group.test("12", "6.2.9, 6.5.3.2", "A marker to the port's own address", "send a marker to the source address of the device's LACPDUs",
            rule="told alone: the standard's markers go to the group address; the link carries", takes=3, basis=MEMORY)  # fmt: skip
def unicast(b: Bench) -> None:
    """Markers go to the Slow Protocols address; what a device makes of others is its own."""
    wants_answers(b)
    sent, seen = ask(b, marker(b), to=b.frame().octets[6:12])
    b.note(f"it is {'answered' if seen else 'not answered'}")
    b.holds(b.carries(), "the link carries", sent, seen)
