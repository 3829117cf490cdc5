"""PT: the periodic transmission machine (6.4.13)."""

from __future__ import annotations

from typing import Optional, Sequence

from niwhopera import Info, State

from ..bench import PROMPT, TIMERS, Bench, apart
from ..model import SURE, DoesNotApply, Frame, Group, Stop
from .receive import wants_active

group = Group("PT", "Periodic transmission (6.4.13)")


def gaps(found: Sequence[Frame]) -> list[float]:
    """The seconds between frames."""
    return [two.time - one.time for one, two in zip(found, found[1:])]


def listed(between: Sequence[float], places: int = 2) -> str:
    """Gaps as text."""
    return f"gaps of {', '.join(f'{it:.{places}f}' for it in between)} s" if between else "fewer than two LACPDUs came"


def told_by(frame: Frame) -> Optional[Info]:
    """What an LACPDU of the device tells of its own end."""
    return frame.lacpdu.actor if frame.lacpdu else None


def at_most(b: Bench, found: Sequence[Frame], before: str, shown: int) -> None:
    """Claims that LACPDUs come as often as a partner that asks for short timeouts wants it."""
    between, most = gaps(found), 1 + TIMERS + b.slack
    longest = max(between, default=0.0)
    places = apart(longest, most) if longest > most else 2
    text = f"{before}{listed(between, places)}; has to be at most {most:.{places}f} s"
    b.claim(len(between) >= 2 and longest <= most, text, *found[:shown])


def calm(b: Bench, short: bool) -> None:
    """Carrying, asked for this timeout, with a partner that answers nothing, and with nothing left to tell."""
    b.up()
    b.wait(1.2)
    b.partner().become(short=short)
    b.partner().send()
    b.partner().keep_pace(1)
    b.wait(1.6)


@group.test("01", "6.4.13, 6.4.4", "Short timeouts: one LACPDU each second", "carry, and ask for short timeouts", "take LACPDUs for 8 s",
            rule="each gap is 1 s", tolerance="timers 0.25 s", takes=13.5, causes=("RX-04",))  # fmt: skip
def fast(b: Bench) -> None:
    """A partner that asks for short timeouts gets an LACPDU each Fast_Periodic_Time."""
    calm(b, True)
    mark = b.mark()
    b.wait(8.3)
    found = list(b.heard(1, mark))
    between, more = gaps(found), TIMERS + b.slack
    if not between:
        b.claim(False, f"{len(found)} LACPDUs in 8.3 s; has to be 8", *found)
        return
    wrong = [at for at, gap in enumerate(between) if abs(gap - 1) > more]
    places = max(apart(min(between), 1 - more), apart(max(between), 1 + more)) if wrong else 2
    text = f"{len(between)} gaps of {min(between):.{places}f} to {max(between):.{places}f} s; has to be 1 s, within {more:.2f} s"
    b.claim(not wrong and len(found) > 4, text, *[it for at in wrong[:2] for it in found[at : at + 2]] or found[:2])


@group.test("02", "6.4.13", "Long timeouts: quiet", "carry, and ask for long timeouts", "take LACPDUs for 8 s", rule="at most one", takes=13)
def slow_is_quiet(b: Bench) -> None:
    """A partner that asks for long timeouts gets an LACPDU each Slow_Periodic_Time of 30 s: at most one in 8 s."""
    calm(b, False)
    mark = b.mark()
    b.wait(8)
    found = list(b.heard(1, mark))
    b.claim(len(found) <= 1, f"asked for one each 30 s, it sends {len(found)} LACPDUs in 8 s; has to be at most 1", *found[:4], bears=SURE)


@group.test("03", "6.4.13", "From long to short", "ask for long timeouts for 4 s", "ask for short ones",
            rule="an LACPDU promptly (PERIODIC_TX), then one each second", tolerance="prompt: 0.5 s; timers 0.25 s", takes=10,
            causes=("TX-06",))  # fmt: skip
def to_short(b: Bench) -> None:
    """In SLOW_PERIODIC a partner that asks for short timeouts brings PERIODIC_TX: NTT at once."""
    calm(b, False)
    b.wait(1.5)
    mark = b.mark()
    b.partner().become(short=True)
    sent = b.partner().send()
    seen = b.first(1, mark, lambda _: True, 2)
    b.timed("an LACPDU comes", sent, seen, 0, PROMPT)
    b.wait(3.3)
    found = list(b.heard(1, mark))
    at_most(b, found, "then ", 4)


@group.test("04", "6.4.13", "From short to long", "ask for short timeouts", "ask for long ones",
            rule="in the 6 s after 1.5 s, at most one LACPDU", takes=12.5)  # fmt: skip
def to_long(b: Bench) -> None:
    """In FAST_PERIODIC a partner that asks for long timeouts brings SLOW_PERIODIC."""
    calm(b, True)
    b.partner().become(short=False)
    b.partner().send()
    b.wait(1.5)
    mark = b.mark()
    b.wait(6)
    found = list(b.heard(1, mark))
    b.claim(len(found) <= 1, f"asked for one each 30 s, it sends {len(found)} LACPDUs in 6 s; has to be at most 1", *found[:4], bears=SURE)


@group.test("05", "6.4.12, 6.4.13", "In EXPIRED it sends each second", "ask for long timeouts", "say nothing: the device expires after 3 s",
            "take LACPDUs in the next 3 s", rule="at least two, each with partner Timeout short", takes=11, needs=("short-timeouts",),
            causes=("RX-02", "RX-16"))  # fmt: skip
def expired_is_fast(b: Bench) -> None:
    """EXPIRED sets Partner_Oper_Port_State.LACP_Timeout to short: the device sends each second there, whatever the partner had asked
    for."""
    if not b.bits() & State.TIMEOUT:
        raise DoesNotApply("the device asks for long timeouts: this takes 90 s (PICS: short-timeouts)")
    calm(b, False)
    b.partner().send()
    b.silence()
    mark = b.mark()
    seen = b.first(1, mark, lambda pdu: pdu.actor.state & State.EXPIRED, 4.5)
    if not seen:
        raise Stop("it did not expire: RX-02 and RX-16 look at that")
    b.wait(2.6)
    found = list(b.heard(1, mark, lambda pdu: pdu.actor.state & State.EXPIRED))
    b.claim(len(found) >= 2, f"{len(found)} LACPDUs in EXPIRED, of 3 s; has to be 2 at least", *found[:4])
    long = [it for it in found if it.lacpdu and not it.lacpdu.partner.state & State.TIMEOUT]
    b.holds(not long, "partner Timeout is told as short", *long[:2] or found[:2])


@group.test("06", "6.4.13", "A passive partner gets LACPDUs of an active device", "carry, with Activity 0 of our own",
            rule="LACPDUs each second go on", tolerance="timers 0.25 s", takes=8, needs=("active",))  # fmt: skip
def passive_partner(b: Bench) -> None:
    """If either end is active, LACPDUs are sent periodically."""
    wants_active(b)
    b.up()
    b.partner().become(active=False)
    b.partner().send()
    b.partner().keep_pace(1)
    b.wait(1.2)
    mark = b.mark()
    b.wait(4.3)
    found = list(b.heard(1, mark))
    at_most(b, found, "", 3)


@group.test("07", "6.4.13, 6.4.4", "Long timeouts: one LACPDU each 30 s", "carry, and ask for long timeouts", "take LACPDUs for 92 s",
            rule="each gap is 30 s; an LACPDU that tells a change of the device's own end is left out", tolerance="timers 0.25 s",
            takes=98)  # fmt: skip
def slow(b: Bench) -> None:
    """A partner that asks for long timeouts gets an LACPDU each Slow_Periodic_Time."""
    calm(b, False)
    last, mark = b.frame(), b.mark()
    b.wait(92)
    came = list(b.heard(1, mark))
    found = [two for one, two in zip([last, *came], came) if told_by(one) == told_by(two)]
    if len(found) < len(came):
        b.note(f"left out: {len(came) - len(found)} LACPDUs that tell a change of the device's own end, which are no periodic ones")
    between, more = gaps(found), TIMERS + b.slack
    right = between and all(abs(it - 30) <= more for it in between)
    b.claim(right, f"{listed(between)}; has to be 30 s, within {more:.2f} s", *found)


@group.test("08", "6.4.13, 6.4.12", "An active device speaks first", "say nothing until it is on defaults", "take LACPDUs for 31 s",
            rule="at least one", takes=40, needs=("active",))  # fmt: skip
def speaks_first(b: Bench) -> None:
    """An active device sends LACPDUs without a partner, each 30 s at least."""
    wants_active(b)
    b.silence()
    b.wait(8)
    mark = b.mark()
    b.wait(31)
    found = list(b.heard(1, mark))
    b.claim(found, f"{len(found)} LACPDUs in 31 s; has to be 1 at least", *found[:3])
    if between := gaps(found):
        b.note(f"on defaults it sends each {min(between):.2f} to {max(between):.2f} s")
