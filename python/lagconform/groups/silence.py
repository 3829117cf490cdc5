"""RX, continued: what a silent partner brings (6.4.12), by the timers of 6.4.4."""

from __future__ import annotations

from typing import Callable, Optional

from niwhopera import Lacpdu, Marker, MarkerKind, PortId, State, SystemId, encode

from ..bench import PROMPT, Bench
from ..model import DoesNotApply, Frame, Stop
from ..partner import slow
from ..pdus import CARRIES, SIX, value
from .receive import WAITS, carries, group, wants_active

IS_OVER = State.EXPIRED | State.DEFAULTED


def wants_short(b: Bench, link: int = 1) -> None:
    """A device that asks for long timeouts notices silence after 90 s."""
    if not b.bits(link) & State.TIMEOUT:
        raise DoesNotApply("the device asks for long timeouts (PICS: short-timeouts)")


def on_defaults(pdu: Lacpdu) -> bool:
    """Whether an LACPDU is Defaulted and not Expired."""
    return pdu.actor.state & IS_OVER == State.DEFAULTED


def fall_silent(b: Bench, pause: float = 0.5) -> tuple[int, Frame]:
    """The device carries, and the partner says nothing more; the last thing that it said."""
    b.up()
    wants_short(b)
    b.wait(pause)
    sent = b.partner().send()
    b.silence()
    return b.mark(), sent


@group.test("02", "6.4.12, 6.4.4", "Silence expires the partner", "carry", "say nothing",
            rule="an LACPDU with Expired comes 3 s after our last one, and neither collects nor distributes",
            tolerance="3 s: -0.25 s, +0.75 s (timer and LACPDU)", takes=6, needs=("short-timeouts",))  # fmt: skip
def expires(b: Bench) -> None:
    """current_while expires 3 s after the last LACPDU (short timeouts): Expired is told, and the port leaves COLLECTING_DISTRIBUTING,
    since partner Synchronization is false."""
    mark, sent = fall_silent(b)
    seen = b.first(1, mark, lambda pdu: pdu.actor.state & IS_OVER or not carries(pdu), 5)
    b.timed("the partner expires", sent, seen, 3, 3, timer=True)
    pdu = seen.lacpdu if seen else None
    b.holds(pdu and not pdu.actor.state & CARRIES, "neither collects nor distributes then", seen)
    b.holds(pdu and pdu.actor.state & State.EXPIRED, "and Expired is 1", seen)


@group.test("03", "6.4.12", "More silence brings defaults", "carry", "say nothing for 7 s, twice, half a second of the device's period apart",
            rule="Defaulted is 1 and Expired 0 6 s after our last LACPDU, and our system is no longer named",
            tolerance="6 s, two timers of 0.25 s; up to 1 s more if it waits for the next periodic LACPDU", takes=18,
            needs=("short-timeouts", "active"), causes=("RX-02",))  # fmt: skip
def defaults(b: Bench) -> None:
    """In EXPIRED current_while runs 3 s, then the administrative partner is recorded: Defaulted true, Expired false, and our end is no
    longer named. A passive device has a passive partner then, and need not say so."""
    wants_active(b)
    for pause in (0.5, 1.0):
        mark, sent = fall_silent(b, pause)
        seen = b.first(1, mark, on_defaults, 10)
        more = b.slack + 0.5
        passed = f"after {seen.time - sent.time:.2f} s" if seen else "never"
        right = seen and 6 - more <= seen.time - sent.time <= 7 + more
        b.claim(right, f"defaults are told {passed}; has to be 6 to 7 s, within {more:.2f} s", sent, seen)
        pdu = seen.lacpdu if seen else None
        b.holds(pdu and pdu.partner.system != b.partner().me.system, "our system is no longer named", seen)


@group.test("20", "6.4.12, 6.4.9 (recordDefault)", "Defaults are the same whoever was there", "carry",
            "say nothing until Defaulted", "be a partner that differs in each of its parameters, carry, and say nothing until Defaulted",
            rule="on defaults it tells the same partner both times", takes=22, needs=("short-timeouts", "active"), causes=("RX-03",))  # fmt: skip
def same_defaults(b: Bench) -> None:
    """recordDefault records the administrative partner, of which nothing goes by the partner that is gone."""
    wants_active(b)
    seen: list[Frame] = []
    for turn in range(2):
        b.up()
        wants_short(b)
        if turn:
            me = b.partner().me
            b.partner().become(key=me.key ^ 0x4140, port=PortId(me.port.priority ^ 0x4140, me.port.number ^ 0x4140), system=SystemId(0x4140, me.system.mac))
            b.partner().send()
            if not b.until(6, b.is_ready):
                raise Stop(f"it does not carry beside a partner of other parameters: {b.stands(1)}")
        b.wait(0.5)
        b.partner().send()
        b.silence()
        told = b.first(1, b.mark(), on_defaults, 10)
        if not told:
            raise Stop("it did not tell of its defaults in 10 s")
        seen.append(told)
    one, two = [it.lacpdu.partner for it in seen if it.lacpdu]
    wrong = [it for it in SIX if value(one, it) != value(two, it)]
    stands = "; ".join(f"{it} {value(one, it)}, and then {value(two, it)}" for it in wrong)
    text = f"on defaults its partner has {stands}; has to be the same" if wrong else "on defaults its partner is the same"
    b.claim(not wrong, text, *seen)


@group.test("04", "6.4.12", "Each LACPDU starts current_while again", "carry", "send an LACPDU every 2.5 s, four times",
            rule="LACPDUs come, and none is Expired or does not carry", takes=12.5)  # fmt: skip
def again(b: Bench) -> None:
    """LACPDUs at 2.5 s keep the partner current for 10 s, though the period is 1 s."""
    b.up()
    mark = b.mark()
    b.partner().send()
    b.partner().keep_pace(2.5)
    b.wait(10.2)
    wrong = list(b.heard(1, mark, lambda pdu: pdu.actor.state & IS_OVER or not carries(pdu)))
    b.holds(next(b.heard(1, mark), None), "LACPDUs come")
    b.holds(not wrong, "it carries all the time", *wrong[:3])


@group.test("05", "6.4.12, 6.4.15", "From EXPIRED back without a wait", "carry", "say nothing until Expired", "send the same LACPDU again",
            rule="it carries again promptly: Selected has not changed, so the mux machine is ATTACHED", tolerance="prompt: 0.5 s", takes=7,
            needs=("short-timeouts",), causes=("RX-02",))  # fmt: skip
def returns(b: Bench) -> None:
    """In EXPIRED the selection stays; an LACPDU of the same partner makes the port carry at once, without wait_while."""
    mark, _ = fall_silent(b)
    if not b.first(1, mark, lambda pdu: pdu.actor.state & State.EXPIRED, 4):
        raise Stop("it did not expire")
    b.behind()
    mark, sent = b.mark(), b.partner().send()
    b.partner().speak()
    seen = b.first(1, mark, carries, 4)
    b.timed("it carries again", sent, seen, 0, PROMPT)


@group.test("06", "6.4.12, 6.4.9 (update_Default_Selected)", "From defaults back through wait_while", "carry", "say nothing until Defaulted",
            "be the same partner again", rule="Synchronization is 0 on defaults, and 1 again 2 s after our LACPDU",
            tolerance="2 s: -0.25 s, +0.75 s (timer and LACPDU)", takes=13.5, needs=("short-timeouts",), causes=("RX-12b",))  # fmt: skip
def waits_again(b: Bench) -> None:
    """A port that defaults is UNSELECTED, and detaches. A partner that comes then is selected anew: 2 s pass in WAITING, in which Synchronization
    is 0."""
    mark, _ = fall_silent(b)
    told = b.first(1, mark, on_defaults, 9)
    if told:
        b.holds(not b.bits() & State.SYNCHRONIZATION, "the first LACPDU on defaults is not synchronized: the port was UNSELECTED", told)
    else:
        b.note("it did not tell of its defaults in 9 s")
    b.wait(2.5)
    mark, sent = b.mark(), b.partner().send()
    b.partner().speak()
    system = b.partner().me.system
    synced = State.SYNCHRONIZATION
    seen = b.first(1, mark, lambda pdu: pdu.partner.system == system and pdu.actor.state & (synced | State.DEFAULTED) == synced, 6)
    b.timed("it is synchronized", sent, seen, 2, 2, timer=True, causes=WAITS)


@group.test("16", "6.4.12, 6.4.4", "Silence of a partner that asks for long timeouts", "carry, asked for long timeouts", "say nothing",
            rule="an LACPDU with Expired comes 3 s after our last one: the time is that of the device's own LACP_Timeout",
            tolerance="3 s: -0.25 s, +0.75 s (timer and LACPDU)", takes=7, needs=("short-timeouts",), causes=("RX-02",))  # fmt: skip
def expires_by_its_own(b: Bench) -> None:
    """current_while is set by the LACP_Timeout of the actor itself, not by what the partner asks for."""
    b.up()
    wants_short(b)
    b.partner().become(short=False)
    b.partner().send()
    b.partner().keep_pace(1)
    b.wait(1.2)
    mark, sent = b.mark(), b.partner().send()
    b.silence()
    seen = b.first(1, mark, lambda pdu: pdu.actor.state & IS_OVER or not carries(pdu), 6)
    b.timed("the partner expires", sent, seen, 3, 3, timer=True)


def kept_by(b: Bench, frames: Callable[[int], bytes]) -> None:
    """The partner says nothing more, while other frames go on each 0.3 s: they are no LACPDUs, and it expires all the same."""
    mark, sent = fall_silent(b)
    seen: Optional[Frame] = None
    for turn in range(18):
        b.send_raw(1, frames(turn))
        seen = b.first(1, mark, lambda pdu: pdu.actor.state & IS_OVER or not carries(pdu), 0.3)
        if seen:
            break
    b.timed("the partner expires", sent, seen, 3, 3, timer=True)


@group.test("17", "6.4.12, 6.5.4", "Markers keep no partner current", "carry", "say nothing but a marker each 0.3 s",
            rule="an LACPDU with Expired comes 3 s after our last one", tolerance="3 s: -0.25 s, +0.75 s (timer and LACPDU)", takes=6.5,
            needs=("short-timeouts",), causes=("RX-02",))  # fmt: skip
def kept_by_markers(b: Bench) -> None:
    """current_while is started by an LACPDU alone, not by a Marker PDU."""
    mac = b.partner().me.system.mac
    kept_by(b, lambda turn: slow(encode(Marker(MarkerKind.INFORMATION, 1, mac, 0xCAFE0000 + turn)), b.wire.source(1)))


@group.test("18", "6.4.12, 802.3 57A", "Runts and other slow protocols keep no partner current", "carry",
            "say nothing but, each 0.3 s, a frame of another subtype or an LACPDU that is cut off in its actor",
            rule="an LACPDU with Expired comes 3 s after our last one", tolerance="3 s: -0.25 s, +0.75 s (timer and LACPDU)", takes=6.5,
            needs=("short-timeouts",), causes=("RX-02", "RB-03", "RB-01"))  # fmt: skip
def kept_by_runts(b: Bench) -> None:
    """current_while is started by an LACPDU alone: neither OAM nor a frame that ends too early is one."""
    source = b.wire.source(1)
    rest = encode(b.partner().lacpdu())
    kept_by(b, lambda turn: slow(b"\3" + rest[1:] if turn % 2 else rest[:16], source))


@group.test("14", "6.4.12, 6.4.4", "Silence of long timeouts", "the device asks for long timeouts", "carry, and say nothing",
            rule="Expired after 90 s", tolerance="90 s: -0.25 s, +0.75 s (timer and LACPDU)", takes=96)  # fmt: skip
def expires_long(b: Bench) -> None:
    """current_while expires 90 s after the last LACPDU where the device asks for long timeouts."""
    b.up()
    if b.bits() & State.TIMEOUT:
        raise DoesNotApply("the device asks for short timeouts")
    b.wait(0.5)
    sent = b.partner().send()
    b.silence()
    seen = b.first(1, b.mark(), lambda pdu: pdu.actor.state & IS_OVER or not carries(pdu), 95)
    b.timed("the partner expires", sent, seen, 90, 90, timer=True)
