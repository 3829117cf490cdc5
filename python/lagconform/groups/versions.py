"""VN: LACPDUs of other versions and shapes (6.4.2.3, 6.4.12).

How it is seen whether an LACPDU was taken: a port that carries gets one of such a shape that says Collecting and Distributing 0, and
Synchronization 1 as before. If an LACPDU of the device within 1.7 s tells the partner so, it was taken. (Synchronization 0 would be
quicker to see, but one device in the field does not look at that bit.)
"""

from __future__ import annotations

from typing import Callable, Optional, Sequence

from niwhopera import State, encode

from ..bench import UNHEARD, Bench
from ..model import DEVICES, MEMORY, PROFILE, Frame, Group, Stop
from ..partner import slow
from ..pdus import CARRIES, GROUP, SLOW, put
from .fields import RESERVED, octets

group = Group("VN", "LACPDUs of other versions and shapes (6.4.2.3, 6.4.12)", DEVICES)
# How long is looked for it: a period of 1 s and more, and less than the 3 s after which the partner expires.
SEEN = 1.7
# What makes the payload of the LACPDU wrong, and what makes a frame of our address and the payload.
Change = Callable[[bytes], bytes]
# What a device tells all along, whether it takes such an LACPDU or not; with independent control it may stop distributing.
STAYS = State.SYNCHRONIZATION | State.COLLECTING


def taken(b: Bench, change: Change, wrap: Optional[Change]) -> tuple[Frame, Optional[Frame]]:
    """Whether such an LACPDU was taken: what was sent, and the LACPDU that shows it."""
    b.still_up()
    partner, mark = b.partner(), b.mark()
    partner.send()  # the device's timer of the partner starts anew: none comes for SEEN
    payload, source = change(not_collecting(b)), b.wire.source(1)
    sent = b.send_raw(1, wrap(source + payload) if wrap else slow(payload, source))
    partner.hush()
    seen = b.first(1, mark, lambda pdu: not pdu.partner.state & CARRIES, SEEN)
    heard = next(b.heard(1, mark), None)
    partner.send()
    partner.speak()
    if not heard:
        raise Stop(f"{UNHEARD} in {SEEN} s")
    b.until(3, lambda: b.carries() and b.device().partner.state & CARRIES)
    return sent, seen


def not_collecting(b: Bench) -> bytes:
    """The payload of an LACPDU of our partner that says Collecting and Distributing 0."""
    partner = b.partner()
    partner.forced.update({State.COLLECTING: False, State.DISTRIBUTING: False})
    payload = encode(partner.lacpdu())
    partner.forced.clear()
    return payload


def accepts(
    number: str, title: str, change: Change, why: str, clause: str = "6.4.12", causes: Sequence[str] = (), unless: Optional[Change] = None, may: str = "",
    behind: Optional[Callable[[Bench, Frame], None]] = None, rule: str = "",
) -> None:  # fmt: skip
    """A test of an LACPDU that has to be taken. A device that ignores `unless`, too, may ignore it for the reason `may`. `behind` looks at what the
    device sends then."""

    def run(b: Bench) -> None:
        sent, seen = taken(b, change, None)
        if not seen and unless and not taken(b, unless, None)[1]:
            raise Stop(may)
        b.claim(seen, "it is taken" if seen else f"it is ignored: no LACPDU in {SEEN} s tells what it said; has to be taken", sent, seen)
        if behind:
            behind(b, sent)

    group.test(number, clause, title, "carry", "send one such LACPDU with Collecting and Distributing 0",
               rule=f"taken: an LACPDU within 1.7 s shows it{rule}", tolerance="1.7 s", takes=2, causes=() if number == "01" else ("VN-01", *causes),
               purpose=why)(run)  # fmt: skip


def refuses(number: str, title: str, why: str, clause: str, change: Change = lambda it: it, wrap: Optional[Change] = None,
            must: bool = True, basis: str = PROFILE, causes: Sequence[str] = ()) -> None:  # fmt: skip
    """A test of a frame that is no LACPDU; where it need not be one, either is right."""

    def run(b: Bench) -> None:
        sent, seen = taken(b, change, wrap)
        if must:
            b.claim(not seen, "it is taken for an LACPDU; has to be ignored" if seen else "it is not taken", sent, seen)
        else:
            b.note(f"it is {'taken' if seen else 'not taken'}: both are right")
        wrong = list(b.heard(1, sent.number, lambda pdu: pdu.actor.state & STAYS != STAYS))
        b.holds(not wrong and b.carries(), "the link stays as it was", sent, *wrong[:2])

    rule = "not taken, and the link stays as it was" if must else "either is right; the link stays as it was"
    step = "send one such frame, which as an LACPDU says Collecting and Distributing 0"
    group.test(number, clause, title, "carry", step, rule=rule, tolerance="1.7 s", takes=2.1, basis=basis, purpose=why,
               causes=(*causes, "RX-04"))(run)  # fmt: skip


SHALL = "The Receive machine does not validate the version, the TLV types and the reserved octets: its actions are the same whatever they are."
MAY = "A Receive machine may validate the lengths of the TLVs: both are right."
UNKNOWN = "Frames of an unknown subtype are discarded."
TYPE = "Without the type of Slow Protocols it is no LACPDU."
V2 = b"\4\6\0\x80\xc2\0" + b"\5\x14\0\1" + b"\x5a" * 16 + bytes(2)
FILL = b"\xa5" * 50


def reserved(payload: bytes) -> bytes:
    """The payload with other octets in each reserved place."""
    for at, count in (19, 3), (39, 3), (46, 12), (60, 50):
        payload = put(payload, at, FILL[:count])
    return payload


def own_version(b: Bench, sent: Frame) -> None:
    """Claims that the device's version is its own, as it was before, whatever its partner's is."""
    before = [it for it in b.frames[: sent.number] if not it.out and it.link == 1 and it.lacpdu][-1:]
    wrong = next((it for it in b.heard(1, sent.number) if before and octets(it, 1, 1) != octets(before[0], 1, 1)), None)
    came = f"it tells version {octets(wrong, 1, 1).hex()} then" if wrong else "it tells the same version then"
    stood = f", and {octets(before[0], 1, 1).hex()} before; has to stay" if wrong else ""
    b.claim(not wrong, f"{came}{stood}", sent, wrong)


def no_echo(b: Bench, sent: Frame) -> None:
    """Claims that the device's reserved octets are 0, whatever its partner's are."""
    wrong = [(it, at) for it in b.heard(1, sent.number) for at in RESERVED if octets(it, 1, 1) == b"\1" and octets(it, at, 1) not in (b"", b"\0")]
    stands = f"octet {wrong[0][1]} is {octets(*wrong[0], 1).hex()}" if wrong else "all are 00"
    b.claim(not wrong, f"reserved octets of the device then: {stands}; has to be 00", sent, *[it for it, _ in wrong[:1]], causes=("FM-04",))


SAME = "; its own version stays as it was"
accepts("01", "An ordinary LACPDU is taken (base line)", lambda it: it,
        "The way by which this group sees whether an LACPDU is taken works with this device.")  # fmt: skip
accepts("02", "Version 2", lambda it: put(it, 1, b"\2"), SHALL, behind=own_version, rule=SAME)
accepts("03", "Version 255", lambda it: put(it, 1, b"\xff"), SHALL, causes=("VN-02",), behind=own_version, rule=SAME)
accepts("04", "Version 0", lambda it: put(it, 1, b"\0"), SHALL, causes=("VN-02",), behind=own_version, rule=SAME)
accepts("05", "Version 2 with the Port Algorithm and Digest TLVs", lambda it: put(put(it, 1, b"\2"), 58, V2),
        "A receiver of version 1 takes an LACPDU of version 2 by its first octets, and ignores the TLVs behind. In the place of the Terminator's length, "
        "which 6.4.12 lets it validate, stands that of the Port Algorithm TLV: a receiver that does so has no answer here.",
        "6.4.2.4, 6.4.12", ("VN-02",), lambda it: put(it, 59, V2[1:2]),
        "it is ignored, and so is an LACPDU of version 1 with octet 59 of this one, the length of the Terminator: 6.4.12 lets a device validate that")  # fmt: skip
accepts("06", "Reserved octets that are not 0", reserved, SHALL, behind=no_echo, rule="; its own reserved octets are 0")
accepts("07", "Other types of the Actor and Partner TLV", lambda it: put(put(it, 2, b"\x77"), 22, b"\x78"), SHALL)
accepts("08", "Another type of the Collector TLV", lambda it: put(it, 42, b"\x79"), SHALL)
accepts("09", "Another type of the Terminator TLV", lambda it: put(it, 58, b"\x7a\0"), SHALL)
accepts("10", "An LACPDU of 1500 octets", lambda it: put(it, 1, b"\2") + b"\xa5" * 1390,
        "A longer LACPDU of a later version is taken by its first octets.", "6.4.2.4, 6.4.12", ("VN-02",))  # fmt: skip
refuses("11", "Wrong length of the Actor TLV", MAY, "6.4.12", lambda it: put(it, 3, b"\x13"), must=False)
refuses("12", "Wrong length of the Partner TLV", MAY, "6.4.12", lambda it: put(it, 23, b"\xff"), must=False)
refuses("13", "Wrong length of the Collector TLV", MAY, "6.4.12", lambda it: put(it, 43, b"\x00"), must=False)
refuses("13a", "Wrong length of the Terminator TLV", MAY, "6.4.12", lambda it: put(it, 59, b"\xa5"), must=False)
refuses("14", "Subtype 0", UNKNOWN, "6.2.7, 802.3 57A", lambda it: put(it, 0, b"\0"), causes=("RB-03",))
refuses("15", "Subtype 11", UNKNOWN, "6.2.7, 802.3 57A", lambda it: put(it, 0, b"\x0b"), causes=("RB-03",))
refuses("16", "Subtype 3 (OAM)", "A frame of another slow protocol is no LACPDU.", "6.2.7, 802.3 57A", lambda it: put(it, 0, b"\3"),
        causes=("RB-03",))  # fmt: skip
refuses("17", "Another EtherType", TYPE, "6.2.9, 6.4.2.2", wrap=lambda it: GROUP + it[:6] + b"\x88\xb5" + it[6:])
refuses("18", "A length in the place of the EtherType", TYPE, "6.2.9, 6.4.2.2", wrap=lambda it: GROUP + it[:6] + b"\0\x6e" + it[6:])
refuses("19", "To a group address that is not Slow Protocols'",
        "The Control Parser takes frames to the Slow Protocols address (or another group address that is configured).", "6.2.9, 6.2.10",
        wrap=lambda it: bytes.fromhex("01005e000001") + it[:6] + SLOW + it[6:], must=False, basis=MEMORY)  # fmt: skip
refuses("20", "With a tag of priority 7, VLAN 0",
        "LACPDUs are not tagged (6.2.9 compares the type alone); a receiver that takes a priority-tagged one does more than it has to.",
        "6.2.9", wrap=lambda it: GROUP + it[:6] + b"\x81\x00\xe0\x00" + SLOW + it[6:], must=False, basis=MEMORY)  # fmt: skip
refuses("21", "An LACPDU cut off after 109 octets", "An LACPDU has 110 octets; of a shorter one the standard says nothing.", "6.4.2.3",
        lambda it: it[:109], must=False, causes=("RB-01",))  # fmt: skip
refuses("22", "An LACPDU cut off within the Partner TLV", "Of an LACPDU that has no partner nothing may be recorded.", "6.4.2.3",
        lambda it: it[:30], causes=("RB-01",))  # fmt: skip
