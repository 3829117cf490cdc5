"""RB: frames that are no PDUs, and many of them. After each the device has to be as it was."""

from __future__ import annotations

from dataclasses import replace
from typing import Iterable

from niwhopera import encode

from ..bench import Bench, apart, most_within
from ..model import DEVICES, SURE, Frame, Group, Stop
from ..partner import slow
from ..pdus import GROUP, SLOW, with_bits
from .mux import OUT_OF_SYNC
from .receive import carries

group = Group("RB", "Robustness", DEVICES)
# What a storm may not change, and how old the last LACPDU may be behind it: two periods of a second.
STANDS, OLD = "it carries all the time, and an LACPDU comes within 2 s", 2.0
# What explains that LACPDUs do not go on.
PERIODIC = ("PT-01", "PT-03")
HEAD = b"\1\1\1\x14"


def storm(b: Bench, frames: Iterable[bytes], gap: float, what: str = "frames") -> None:
    """Sends frames while the partner goes on, and claims what STANDS says."""
    b.still_up()
    b.wait(1.2)
    mark, count = b.mark(), 0
    for octets in frames:
        b.send_raw(1, octets)
        count += 1
        b.wait(gap)
    b.wait(1.3)
    found = list(b.heard(1, mark))
    wrong = [it for it in found if it.lacpdu and not carries(it.lacpdu)]
    if not found:
        b.claim(False, f"the device sends nothing any more behind {count} {what}; has to go on (6.4.13)", b.links[1].frame, causes=PERIODIC)
        return
    b.holds(not wrong, f"it carries all the time, through {count} {what}", *wrong[:2])
    goes_on(b, found[-1])


def goes_on(b: Bench, last: Frame) -> None:
    """Claims that the last LACPDU of the device is not old."""
    old, most = b.now() - last.time, OLD + b.slack
    places = 2 if old < most else apart(old, most)
    text = f"its last LACPDU, packet {last.number}, is {old:.{places}f} s old; has to be less than {most:.{places}f} s (6.4.13)"
    b.claim(old < most, text, last, causes=PERIODIC)


def out_of_sync(b: Bench) -> bytes:
    """The payload of an LACPDU that stops the link, if it is taken for one."""
    pdu = b.partner().lacpdu()
    return encode(replace(pdu, actor=with_bits(pdu.actor, OUT_OF_SYNC)))


def to_group(b: Bench) -> bytes:
    """The addresses of a frame of ours."""
    return GROUP + b.wire.source(1)


@group.test("01", "802.3 3.1, 57A", "Short frames of Slow Protocols", "while it carries, send frames of type 8809 with 0 to 45 octets of payload",
            "send them again, each behind a frame of subtype 11 which as an LACPDU would say Synchronization 0", rule=STANDS, takes=7,
            causes=("RB-03",))  # fmt: skip
def runts(b: Bench) -> None:
    """Frames that end within the header of a PDU, or before it, change nothing, whatever stood in the device's buffer before."""
    short = [to_group(b) + SLOW + (HEAD + bytes(60))[:size] for size in (*range(0, 8), 19, 20, 23, 24, 41, 43, 45)]
    storm(b, short, 0.05, "short frames")
    before = to_group(b) + SLOW + b"\x0b" + out_of_sync(b)[1:]
    storm(b, [it for one in short for it in (before, one)], 0.05, "frames of which each second one is short")


@group.test("02", "802.3 3.2.6", "Lengths in the place of the type", "send 802.3 frames to the group address whose length is 0, 46, 110, 1500, 1535",
            rule=STANDS, takes=3)  # fmt: skip
def lengths(b: Bench) -> None:
    """A value below 1536 is a length, and no type."""
    b.still_up()
    payload = out_of_sync(b)
    storm(b, [to_group(b) + size.to_bytes(2, "big") + payload for size in (0, 46, 110, 1500, 1501, 1535)], 0.05)


@group.test("03", "802.3 57A.4", "Every other subtype", "send frames of each subtype but 1 and 2, and an organization specific one",
            rule=STANDS, takes=5.5)  # fmt: skip
def subtypes(b: Bench) -> None:
    """Frames of other slow protocols and of unknown subtypes change nothing."""
    b.still_up()
    rest = out_of_sync(b)[1:]
    storm(b, [to_group(b) + SLOW + bytes([it]) + rest for it in (0, *range(3, 256))], 0.01)


@group.test("04", "6.4.12", "Random payloads behind a right head",
            "send 300 frames of type 8809, subtype 1 or 2, with random octets of random length up to 60",
            rule=f"{STANDS}: none is a whole PDU", takes=9, causes=("RB-01",))  # fmt: skip
def noise(b: Bench) -> None:
    """Short random PDUs change nothing, and do no harm."""
    dice = b.dice("RB-04")
    heads = (bytes([dice.choice((1, 2))]) + dice.randbytes(dice.randrange(0, 57)) for _ in range(300))
    storm(b, [to_group(b) + SLOW + it for it in heads], 0.02)


@group.test("05", "6.4.12, 6.4.16", "Random whole LACPDUs", "send 300 LACPDUs of 110 random octets in 6 s", "be a right partner again",
            rule="at most three LACPDUs a second come all along (0.75 s: sure), and it carries again within 9 s", takes=8.5,
            causes=("TX-01",))  # fmt: skip
def wild(b: Bench) -> None:
    """Partners that change with every LACPDU do no lasting harm."""
    dice, mark = b.dice("RB-05"), b.mark()
    b.silence()
    for _ in range(300):
        ends = HEAD + dice.randbytes(18) + b"\2\x14" + dice.randbytes(18)
        b.send_raw(1, to_group(b) + SLOW + ends + b"\3\x10" + dice.randbytes(66))
        b.wait(0.02)
    found = list(b.heard(1, mark))
    most = most_within([it.time for it in found], 0.75)
    b.claim(most <= 3, f"{most} LACPDUs within 0.75 s; has to be at most 3", *found[:1], bears=SURE)
    try:
        b.up()
        b.claim(True, "a right partner is carried for again", b.frame())
    except Stop as why:
        b.claim(False, f"a right partner is no longer carried for: {why}", b.frame())


@group.test("06", "6.4.12", "A storm of right LACPDUs", "send 2000 right LACPDUs as fast as can be, while it carries",
            rule="it carries all the time, and an LACPDU comes; at most three in 0.75 s", takes=4, causes=("TX-01",))  # fmt: skip
def flood(b: Bench) -> None:
    """LACPDUs that change nothing may come at any rate."""
    b.still_up()
    b.wait(1.2)
    mark, payload = b.mark(), encode(b.partner().lacpdu())
    for turn in range(2000):
        b.send(1, payload)
        if turn % 50 == 0:
            b.wait(0.005)
    b.wait(2)
    found = list(b.heard(1, mark))
    wrong = [it for it in found if it.lacpdu and not carries(it.lacpdu)]
    b.claim(found, f"{len(found)} LACPDUs came; has to be 1 at least", causes=PERIODIC)
    b.holds(not wrong, "it carries all the time", *wrong[:2])
    most = most_within([it.time for it in found], 0.75)
    b.claim(most <= 3, f"{len(found)} LACPDUs come, {most} within 0.75 s; has to be at most 3", *found[:4], bears=SURE)


@group.test("07", "6.2.10.1", "Sources that no port has", "send right LACPDUs from a group address, from 0, and from the device's own address",
            rule=STANDS, takes=4)  # fmt: skip
def sources(b: Bench) -> None:
    """The source address has no part in LACP: identifiers are in the PDU. None of these makes the device stop."""
    b.still_up()
    own, payload = b.frame().octets[6:12], SLOW + encode(b.partner().lacpdu())
    storm(b, [GROUP + source + payload for source in (b"\xff" * 6, GROUP, bytes(6), own)], 0.3)


@group.test("08", "6.4.2.3", "The longest frames", "send LACPDUs and markers padded to 1514 octets", rule=STANDS, takes=4.5)
def longest(b: Bench) -> None:
    """A PDU may be longer than 110 octets (later versions); nothing of it is lost by its length."""
    b.still_up()
    source = b.wire.source(1)
    lacpdu, marker = encode(b.partner().lacpdu()) + bytes(1390), b"\2\1\3\x10" + bytes(1496)
    storm(b, [slow(lacpdu, source)] * 4 + [slow(marker, source)] * 4, 0.2)
