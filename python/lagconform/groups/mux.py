"""MX: the mux machine (6.4.15). Coupled and independent control are both right; what is told of a device says which it has."""

from __future__ import annotations

from typing import Optional

from niwhopera import Lacpdu, State

from ..bench import LIMIT, PROMPT, REST, SOON, TIMERS, UNHEARD, Bench, apart
from ..model import SURE, Frame, Group, Run, Stop
from ..pdus import CARRIES, words
from .receive import WAITS, carries, does_not_carry

group = Group("MX", "Mux machine (6.4.15)")
OUT_OF_SYNC = {State.SYNCHRONIZATION: False, State.COLLECTING: False, State.DISTRIBUTING: False}
# What explains that a device skips WAITING. That it waits too long, it does not explain.
NO_WAIT = ("RX-12b",)


def waited_wrong(b: Bench, sent: Frame, seen: Optional[Frame]) -> tuple[str, ...]:
    """What explains that a device takes other than 2 s from our frame until it is synchronized."""
    skips = seen and seen.time - sent.time < 2 - TIMERS - b.slack
    return (*NO_WAIT, *WAITS) if skips else WAITS


def attach(b: Bench) -> int:
    """Beside a new partner that is not in sync, the device is ATTACHED; the mark of the start."""
    b.begin(1, silent=True)
    b.partner().forced.update(OUT_OF_SYNC)
    mark = b.mark()
    b.partner().speak()
    if not b.first(1, mark, lambda pdu: pdu.actor.state & State.SYNCHRONIZATION and b.partner().is_named_by(pdu), 6):
        raise Stop("the device is not synchronized after 6 s")
    b.wait(0.4)
    return mark


@group.test("01", "6.4.15, 6.4.4", "wait_while: 2 s before Synchronization", "be a new partner on one link",
            rule="Synchronization is 0 first, and 1 after 2 s", tolerance="2 s: -0.25 s, +0.75 s (timer and LACPDU)", takes=2.5)  # fmt: skip
def waits(b: Bench) -> None:
    """A port that is selected waits Aggregate_Wait_Time, 2 s, in WAITING before it attaches."""
    b.begin(1, silent=True)
    partner = b.partner()
    partner.forced.update(OUT_OF_SYNC)
    mark, sent = b.mark(), partner.send()
    partner.speak()
    first = b.first(1, mark, lambda pdu: pdu.partner.system == partner.me.system, 2)
    told = first.lacpdu.actor.state if first and first.lacpdu else None
    what = f"the first LACPDU that names us tells {'nothing' if told is None else words(told)}; has to be without Synchronization"
    b.claim(told is not None and not told & State.SYNCHRONIZATION, what, first, causes=NO_WAIT)
    seen = b.first(1, mark, lambda pdu: pdu.partner.system == partner.me.system and pdu.actor.state & State.SYNCHRONIZATION, 6)
    b.timed("it is synchronized", sent, seen, 2, 2, timer=True)


@group.test("02", "6.4.15", "ATTACHED until the partner is in sync", "be a partner out of sync for 4 s", "then in sync, without Collecting",
            "then with Collecting", rule="Collecting 0 before; promptly 1 after Synchronization of the partner; it distributes once the partner collects", tolerance="prompt: 0.5 s", takes=5.5,
            causes=("RX-09",))  # fmt: skip
def collects(b: Bench) -> None:
    """From ATTACHED the port collects as soon as the partner is synchronized; with coupled control it distributes at once, too."""
    mark = attach(b)
    b.wait(1.5)
    system = b.partner().me.system
    wrong = list(b.heard(1, mark, lambda pdu: pdu.actor.state & CARRIES and pdu.partner.system == system))
    b.holds(not wrong, "it does not collect before", *wrong[:2])
    b.behind()
    mark, sent = b.mark(), b.say(sync=True)
    seen = b.first(1, mark, lambda pdu: pdu.actor.state & State.COLLECTING, 3)
    b.timed("it collects", sent, seen, 0, PROMPT)
    b.wait(0.5)
    coupled = b.bits() & State.DISTRIBUTING
    b.note("coupled control: it distributes without Collecting of the partner" if coupled else "independent control: it waits for Collecting")
    mark, sent = b.mark(), b.say(collecting=True, distributing=True)
    b.first(1, mark, lambda pdu: pdu.actor.state & State.DISTRIBUTING, SOON)
    b.holds(b.carries(), "with Collecting of the partner it distributes", b.frame())


@group.test("03", "6.4.15", "The partner falls out of sync", "carry", "say Synchronization 0", "say 1 again",
            rule="promptly Collecting and Distributing 0; Synchronization stays 1; it carries promptly again", tolerance="prompt: 0.5 s", takes=4.2,
            causes=("RX-09",))  # fmt: skip
def back_to_attached(b: Bench) -> None:
    """From COLLECTING_DISTRIBUTING the port goes to ATTACHED, not to DETACHED, if the partner falls out of sync."""
    b.still_up()
    b.wait(REST)
    b.behind()
    mark, sent = b.mark(), b.say(sync=False, collecting=False, distributing=False)
    seen = b.first(1, mark, does_not_carry, SOON)
    b.timed("it neither collects nor distributes", sent, seen, 0, PROMPT)
    b.wait(1.5)
    wrong = list(b.heard(1, mark, lambda pdu: not pdu.actor.state & State.SYNCHRONIZATION))
    b.holds(not wrong, "it stays synchronized: ATTACHED", *wrong[:2])
    b.behind()
    mark = b.mark()
    b.partner().forced.clear()
    sent = b.partner().send()
    seen = b.first(1, mark, carries, 4)
    b.timed("in sync again, it carries", sent, seen, 0, PROMPT)


@group.test("04", "6.4.15", "The partner stops collecting", "carry", "say Collecting and Distributing 0, Synchronization 1",
            rule="for 8 s, coupled: it carries on; independent: it collects alone. LACPDUs come, and it stays synchronized and collects", takes=8.5)  # fmt: skip
def partner_stops_collecting(b: Bench) -> None:
    """Collecting of the partner has no part in coupled control; in independent control the port stops distributing."""
    b.still_up()
    mark = b.mark()
    b.say(collecting=False, distributing=False)
    b.wait(8)
    both = State.COLLECTING | State.SYNCHRONIZATION
    wrong = list(b.heard(1, mark, lambda pdu: pdu.actor.state & both != both))
    b.holds(next(b.heard(1, mark), None), "LACPDUs come")
    b.holds(not wrong, "it is synchronized and collects all the time", *wrong[:2])
    b.note("it distributes on: coupled control" if b.bits() & State.DISTRIBUTING else "it stops distributing: independent control")


@group.test("11", "6.4.15, 6.4.4", "wait_while beside a partner that speaks often", "be a new partner that sends an LACPDU each 0.4 s",
            rule="Synchronization is 1 after 2 s", tolerance="2 s: -0.25 s, +0.75 s (timer and LACPDU)", takes=3, causes=("MX-01",))  # fmt: skip
def waits_once(b: Bench) -> None:
    """wait_while starts once, where the port is selected: an LACPDU that comes in WAITING and tells nothing new does not start it again."""
    b.begin(1, silent=True)
    partner = b.partner()
    partner.forced.update(OUT_OF_SYNC)
    mark, sent = b.mark(), partner.send()
    partner.keep_pace(0.4)
    seen = b.first(1, mark, lambda pdu: pdu.partner.system == partner.me.system and pdu.actor.state & State.SYNCHRONIZATION, 6)
    b.timed("it is synchronized", sent, seen, 2, 2, timer=True, causes=waited_wrong(b, sent, seen))


@group.test("05", "6.4.15, 6.4.9", "Detached: all three bits fall", "carry", "change our key",
            rule="the first LACPDU that names the new key has Synchronization, Collecting and Distributing 0", takes=2.5,
            causes=NO_WAIT)  # fmt: skip
def detaches(b: Bench) -> None:
    """UNSELECTED brings DETACHED: neither synchronized nor collecting nor distributing is told together with the new partner."""
    b.still_up()
    b.partner().become_other("key")
    mark = b.mark()
    b.partner().send()
    seen = b.first(1, mark, lambda pdu: pdu.partner.key == b.partner().me.key, 2)
    told = seen.lacpdu.actor.state if seen and seen.lacpdu else None
    what = f"together with the new key it tells {'nothing' if told is None else words(told)}; has to be without Synchronization, Collecting, Distributing"
    b.claim(told is not None and not told & (State.SYNCHRONIZATION | CARRIES), what, seen)


@group.test("06", "6.4.15 (Ready), 6.4.14", "Ports wait for each other", "be a new partner on link 1",
            "1.5 s later the same partner on link 2",
            rule="both attach when the later one has waited: link 1 3.5 s after it was selected, both at once",
            tolerance="-0.25 s, +0.75 s (timer and LACPDU)", links=2, takes=11, needs=("two-ports",))  # fmt: skip
def wait_together(b: Bench) -> None:
    """Ready is true if Ready_N is for all ports that wait to attach to the aggregator: a port that comes 1.5 s later holds the first one
    back, so that both attach at once."""
    b.silence()
    b.wait(7)
    b.begin(1, 2, silent=True)
    mark, sent = b.mark(), b.partner(1).send()
    b.partner(1).speak()
    b.wait(1.5)
    later = b.partner(2).send()
    b.partner(2).speak()

    def ours(pdu: Lacpdu) -> bool:
        return pdu.partner.system == b.partner(1).me.system and pdu.actor.state & State.SYNCHRONIZATION != 0

    one, two = b.first(1, mark, ours, 6), b.first(2, mark, ours, 4)
    if silent := [it for it in (1, 2) if not next(b.heard(it, mark), None)]:
        b.claim(False, f"no LACPDU came on link {' and '.join(map(str, silent))} beside a partner that speaks; both have to be synchronized")
        return
    if not one or not two:
        raise Stop(f"not both links are synchronized: {bool(one)}, {bool(two)}")
    alone = 2 - TIMERS - b.slack <= one.time - sent.time < 3.5 - TIMERS - b.slack  # it waited for itself, and not for link 2
    b.timed("link 1 is synchronized", sent, one, 3.5, 3.5, timer=True, causes=() if alone else waited_wrong(b, sent, one))
    b.timed("link 2 is synchronized", later, two, 2, 2, timer=True, causes=waited_wrong(b, later, two))
    between, most = abs(one.time - two.time), TIMERS + PROMPT + b.slack
    places = apart(between, most) if between > most else 2
    b.claim(between <= most, f"{between:.{places}f} s lie between them; has to be at most {most:.{places}f} s", one, two)


@group.test("07", "6.4.15, 6.4.9", "A partner that alternates in and out of sync", "carry, and change nothing for 1.2 s",
            "say Synchronization 0 and 1 in turn, each 1.1 s, six times",
            rule="Collecting and Distributing follow each time, never told beside partner Synchronization 0", tolerance="prompt: 0.5 s",
            takes=10.5, causes=("MX-03",))  # fmt: skip
def alternates(b: Bench) -> None:
    """Each change of partner Synchronization moves the port between ATTACHED and COLLECTING_DISTRIBUTING. The steps leave room for three LACPDUs
    a second: independent control tells two for each way up."""
    b.still_up()
    b.partner().keep_pace(1)
    b.wait(REST)
    b.behind()
    start = b.mark()
    for turn in range(6):
        on = bool(turn % 2)
        mark, sent = b.mark(), b.say(sync=on, collecting=on, distributing=on)
        seen = b.first(1, mark, carries if on else does_not_carry, SOON)
        b.timed(f"change {turn + 1} of 6: it {'carries' if on else 'stops carrying'}", sent, seen, 0, PROMPT)
        b.until(max(0.0, sent.time + LIMIT - b.now()))
    wrong = list(b.heard(1, start, lambda pdu: pdu.actor.state & State.DISTRIBUTING and not pdu.partner.state & State.SYNCHRONIZATION))
    b.holds(not wrong, "Distributing is never told beside a partner out of sync", *wrong[:3], bears=SURE)


def out_for(seconds: float) -> Run:
    """The partner is out of sync for a time, and then in sync."""

    def run(b: Bench) -> None:
        mark = attach(b)
        b.wait(seconds)
        wrong = list(b.heard(1, mark, lambda pdu: pdu.actor.state & CARRIES and b.partner().is_named_by(pdu)))
        b.holds(not wrong, "it does not collect before", *wrong[:2])
        heard = next(b.heard(1, b.frame().number - 1), None)
        quiet = b.now() - b.frame().time
        b.claim(quiet <= 2, f"after {seconds:g} s out of sync its last LACPDU is {quiet:.1f} s old; has to be at most 2 s", heard)
        b.behind()
        mark, sent = b.mark(), b.say(sync=True, collecting=True, distributing=True)
        seen = b.first(1, mark, carries, 4)
        b.timed(f"in sync after {seconds:g} s, it carries", sent, seen, 0, PROMPT)

    return run


for _number, _seconds in ("09", 15), ("10", 65):
    group.test(_number, "6.4.15, 6.4.17", f"A partner that is out of sync for {_seconds} s", f"be a partner out of sync for {_seconds} s", "then in sync",
               rule="it does not collect, and sends an LACPDU within 2 s; it carries promptly then", tolerance="prompt: 0.5 s", takes=_seconds + 3.5,
               causes=("MX-02", "MX-09") if _number == "10" else ("MX-02",),
               purpose="The port stays in ATTACHED however long the partner is out of sync. Churn detection, which notices it after "
               "60 s (6.4.17), only tells of it.")(out_for(_seconds))  # fmt: skip


@group.test("08", "6.4.15, 6.3.5", "An individual partner", "be a partner that is not aggregatable, in sync",
            rule="the device is synchronized after 2 s, or never is; it tells Aggregation of the partner as 0; whether it carries is told alone", tolerance="2 s: -0.25 s, +0.75 s (timer and LACPDU)",
            takes=3)  # fmt: skip
def individual(b: Bench) -> None:
    """A link whose partner is individual is a group of its own; the device may carry on it. It is told as it is: the partner's Aggregation
    is 0."""
    b.begin(1, silent=True)
    partner = b.partner()
    partner.become(aggregatable=False)
    mark, sent = b.mark(), partner.send()
    partner.speak()
    seen = b.first(1, mark, lambda pdu: pdu.actor.state & State.SYNCHRONIZATION and pdu.partner.system == partner.me.system, 5)
    if seen:
        b.timed("it is synchronized", sent, seen, 2, 2, timer=True, causes=waited_wrong(b, sent, seen))
    b.wait(0.7)
    if not next(b.heard(1, mark), None):
        raise Stop(UNHEARD)
    b.note("it carries on an individual link" if b.carries() else "it does not carry on an individual link")
    b.holds(not b.device().partner.state & State.AGGREGATION, "Aggregation of the partner is told as 0", b.frame())
