"""RX: the receive machine (6.4.12) and its functions (6.4.9). `silence` has the tests of its timers."""

from __future__ import annotations

from dataclasses import replace
from typing import Any

from niwhopera import Info, Lacpdu, Mac, PortId, State, SystemId

from ..bench import PROMPT, QUIET, SOON, TIMERS, UNHEARD, Bench
from ..model import DoesNotApply, Group, Run, Stop
from ..pdus import CARRIES, NOBODY, SIX, end, other, other_high_octet, other_octet, six

group = Group("RX", "Receive machine (6.4.12)")
# What explains that a device attaches too early or too late, where it did detach: its wait_while.
WAITS = ("MX-01",)


def wants_active(b: Bench) -> None:
    """A passive device leaves nothing to see here."""
    if not b.bits() & State.ACTIVITY:
        raise DoesNotApply("the device is passive (PICS: active)")


def does_not_carry(pdu: Lacpdu) -> bool:
    """Whether neither Collecting nor Distributing is told."""
    return not pdu.actor.state & CARRIES


def carries(pdu: Lacpdu) -> bool:
    """Whether Collecting and Distributing are told."""
    return pdu.actor.state & CARRIES == CARRIES


@group.test("01", "6.4.12", "An LACPDU makes the partner current", "carry", "be another system: send one LACPDU",
            rule="the next periodic LACPDU at the latest names us, and Expired and Defaulted are 0 in it", tolerance="1 s, timers 0.25 s",
            takes=0.5)  # fmt: skip
def current(b: Bench) -> None:
    """An LACPDU of a new partner brings CURRENT: Expired and Defaulted false, and the partner is recorded at once."""
    b.still_up()
    b.begin(1, silent=True)
    mark, sent = b.mark(), b.partner().send()
    seen = b.first(1, mark, lambda pdu: pdu.partner.system == b.partner().me.system, 3)
    b.timed("the new partner is named", sent, seen, 0, 1 + TIMERS)
    pdu = seen.lacpdu if seen else None
    b.holds(pdu and not pdu.actor.state & (State.EXPIRED | State.DEFAULTED), "neither Expired nor Defaulted", seen)


def differs(field: str) -> Run:
    """A partner that names the device wrong in one of the six parameters."""

    def run(b: Bench) -> None:
        b.still_up()
        b.behind()
        partner = b.partner()
        mark, partner.says = b.mark(), lambda info: other(info, field)
        sent = partner.send()
        seen = b.first(1, mark, does_not_carry, SOON)
        b.timed(f"with another {field} of the device it stops carrying", sent, seen, 0, PROMPT)
        b.wait(1.3)
        back = next(b.heard(1, seen.number, lambda pdu: pdu.actor.state & CARRIES), None) if seen else None
        b.holds(not back, "and stays so", back)
        mark, partner.says = b.mark(), None
        sent = partner.send()
        seen = b.first(1, mark, carries, 4)
        b.claim(seen, f"named right again, it carries {f'after {seen.time - sent.time:.2f} s' if seen else 'never again'}", sent, seen)

    return run


for _place, _field in enumerate(SIX):
    group.test(f"07{'abcdef'[_place]}", "6.4.9 (recordPDU)", f"A partner that names another {_field}", "carry",
               f"name another {_field} of the device, and say Synchronization", "name the right one again",
               rule="it stops carrying for 1.3 s at least, and then carries again within 4 s", tolerance="prompt: 0.5 s", takes=3, causes=("RX-08",),
               purpose="recordPDU takes the partner for synchronized only if the PDU's partner equals the device in all six parameters. "
               f"One with another {_field} stops the port from carrying, though it says Synchronization.")(differs(_field))  # fmt: skip


@group.test("07g", "6.4.9 (recordPDU)", "Each octet of the system is compared", "carry",
            "name another system of the device, six times: each differs in one octet", rule="it stops carrying each time",
            tolerance="prompt: 0.5 s", takes=7.5, causes=("RX-07b", "RX-08"))  # fmt: skip
def each_octet(b: Bench) -> None:
    """A system that differs from the device's in any one octet is another system."""
    b.still_up()
    partner = b.partner()
    for at in range(6):
        b.behind()
        mark, partner.says = b.mark(), lambda info, at=at: other_octet(info, at)  # type: ignore[misc]
        sent = partner.send()
        seen = b.first(1, mark, does_not_carry, SOON)
        b.timed(f"with another octet {at} it stops carrying", sent, seen, 0, PROMPT)
        mark, partner.says = b.mark(), None
        partner.send()
        b.first(1, mark, carries, 4)


@group.test("07h", "6.4.9 (recordPDU)", "The high octets of the device's own numbers are compared", "carry",
            "name another system priority, key, port priority and port number of the device, one by one: each differs in its high octet alone",
            rule="it stops carrying each time", tolerance="prompt: 0.5 s", takes=6, causes=("RX-07b", "RX-08"))  # fmt: skip
def own_high_octets(b: Bench) -> None:
    """recordPDU compares whole numbers: a partner that names port 257 does not name port 1."""
    b.still_up()
    partner = b.partner()
    for what in ("priority", "key", "port_priority", "port"):
        b.behind()
        mark, partner.says = b.mark(), lambda info, what=what: other_high_octet(info, what)  # type: ignore[misc]
        sent = partner.send()
        seen = b.first(1, mark, does_not_carry, SOON)
        b.timed(f"with another high octet of its {what} it stops carrying", sent, seen, 0, PROMPT)
        mark, partner.says = b.mark(), None
        partner.send()
        b.first(1, mark, carries, 4)


@group.test("08", "6.4.9 (recordPDU)", "A partner that never names the device",
            "be an aggregatable partner in sync that collects and distributes, whose partner fields are all 0",
            rule="for 6 s the device never collects or distributes", takes=6.5)  # fmt: skip
def never_named(b: Bench) -> None:
    """An aggregatable partner that does not name the device is not synchronized: nothing is carried towards it."""
    b.begin(1, silent=True)
    partner, mark = b.partner(), b.mark()
    partner.says = lambda _: NOBODY
    partner.forced.update({State.SYNCHRONIZATION: True, State.COLLECTING: True, State.DISTRIBUTING: True})
    partner.keep_pace(1)
    b.wait(6)
    if not list(b.heard(1, mark)):
        raise Stop(UNHEARD)
    wrong = list(b.heard(1, mark, lambda pdu: pdu.actor.state & CARRIES and pdu.partner.system == partner.me.system))
    b.claim(not wrong, f"{len(wrong)} LACPDUs collect or distribute, of {len(list(b.heard(1, mark)))} in 6 s; has to be none", *wrong[:3])


@group.test("09", "6.4.9 (recordPDU)", "A partner out of sync", "be a partner that names the device, without Synchronization",
            rule="for 5 s the device is synchronized but does not carry", takes=5.5, causes=("MX-02",))  # fmt: skip
def out_of_sync(b: Bench) -> None:
    """Without Actor_State.Synchronization of the PDU the port stays in ATTACHED: Synchronization 1, Collecting and Distributing 0."""
    b.begin(1, silent=True)
    partner, mark = b.partner(), b.mark()
    partner.forced.update({State.SYNCHRONIZATION: False, State.COLLECTING: False, State.DISTRIBUTING: False})
    partner.speak()
    b.wait(5)
    wrong = list(b.heard(1, mark, lambda pdu: pdu.partner.system == partner.me.system and pdu.actor.state & CARRIES))
    b.holds(not wrong, "it neither collects nor distributes", *wrong[:3])
    last = [*b.heard(1, mark)][-1:]
    b.holds(last and b.bits() & State.SYNCHRONIZATION, "it is synchronized itself", *last)


@group.test("10", "6.4.9 (recordPDU)", "A passive partner that knows that the device is active",
            "be a passive partner (Activity 0) that names the device with its Activity 1", rule="it carries", takes=2.5, needs=("active",))  # fmt: skip
def passive(b: Bench) -> None:
    """A link is actively maintained if both Actor_Oper_Port_State.LACP_Activity and the PDU's Partner_State.LACP_Activity are true."""
    wants_active(b)
    b.begin(1, silent=True)
    b.partner().become(active=False)
    mark = b.mark()
    b.partner().speak()
    seen = b.first(1, mark, lambda pdu: carries(pdu) and not pdu.partner.state & State.ACTIVITY, 6)
    b.holds(seen, "it carries for a passive partner", seen)


@group.test("11", "6.4.9 (recordPDU)", "A passive partner that takes the device for passive", "carry with a passive partner",
            "tell the device's Activity as 0", rule="it stops carrying: the link is not actively maintained", tolerance="prompt: 0.5 s",
            takes=4.5, needs=("active",), causes=("RX-08",))  # fmt: skip
def not_maintained(b: Bench) -> None:
    """If neither end is active as far as the PDU tells, the link is not actively maintained, and the partner is not synchronized."""
    wants_active(b)
    b.up()
    partner = b.partner()
    partner.become(active=False)
    partner.send()
    b.wait(1.2)
    if not b.carries():
        raise Stop("it does not carry for a passive partner")
    b.behind()
    mark = b.mark()
    partner.says = lambda info: Info(info.system, info.key, info.port, info.state & ~State.ACTIVITY)
    sent = partner.send()
    seen = b.first(1, mark, does_not_carry, 2)
    b.timed("it stops carrying", sent, seen, 0, PROMPT)


def selects_anew(field: str) -> Run:
    """A partner that changes one of its six parameters."""

    def run(b: Bench) -> None:
        b.still_up()
        b.behind()
        partner = b.partner()
        partner.become_other(field)
        mark, sent = b.mark(), partner.send()
        seen = b.first(1, mark, lambda pdu: not pdu.actor.state & State.SYNCHRONIZATION, SOON)
        b.timed(f"with another {field} it is no longer synchronized", sent, seen, 0, PROMPT)
        if seen:
            own = six(partner.me.info)
            sync = b.first(1, seen.number, lambda pdu: pdu.actor.state & State.SYNCHRONIZATION and six(pdu.partner) == own, 4)
            if sync or field != "aggregation":
                b.timed("it is synchronized with the changed partner", sent, sync, 2, 2, timer=True, causes=WAITS)
            else:
                b.note("it is not synchronized with an individual partner, which it need not be")

    return run


for _place, _field in enumerate(SIX):
    group.test(f"12{'abcdef'[_place]}", "6.4.9 (update_Selected)", f"A partner that changes its {_field}", "carry",
               f"send LACPDUs with another {_field} of our own", rule="Synchronization is 0 promptly, and 1 after 2 s",
               tolerance="prompt: 0.5 s; 2 s: -0.25 s, +0.75 s (timer and LACPDU)", takes=3.5, causes=() if _field == "system" else ("RX-12b",),
               purpose=f"update_Selected: another {_field} of the partner makes the port UNSELECTED: it detaches (Synchronization 0), and "
               "attaches after wait_while of 2 s.")(selects_anew(_field))  # fmt: skip


def selected_anew(b: Bench, what: str, **changes: Any) -> None:
    """Another end in the place of our own, by these fields: the device has to select anew."""
    b.still_up()
    b.behind()
    partner = b.partner()
    partner.become(**changes)
    mark, sent = b.mark(), partner.send()
    seen = b.first(1, mark, lambda pdu: not pdu.actor.state & State.SYNCHRONIZATION, SOON)
    b.timed(f"with another {what} it is no longer synchronized", sent, seen, 0, PROMPT)
    b.until(6, b.is_ready)


@group.test("12g", "6.4.9 (update_Selected)", "The high octets of the partner's numbers are compared", "carry",
            "change the high octet of our system priority, key, port priority and port number, one by one",
            rule="Synchronization is 0 promptly each time", tolerance="prompt: 0.5 s", takes=14, causes=("RX-12b",))  # fmt: skip
def high_octets(b: Bench) -> None:
    """update_Selected compares whole numbers: one that differs in its high octet alone is another one."""
    b.still_up()
    me = b.partner().me
    ends = {
        "key": replace(me, key=me.key ^ 0x4000),
        "port number": replace(me, port=PortId(me.port.priority, me.port.number ^ 0x4000)),
        "port priority": replace(me, port=PortId(me.port.priority ^ 0x4000, me.port.number)),
        "system priority": replace(me, system=SystemId(me.system.priority ^ 0x4000, me.system.mac)),
    }
    for what, it in ends.items():
        selected_anew(b, f"high octet of the {what}", key=it.key, port=it.port, system=it.system)


@group.test("12h", "6.4.9 (update_Selected)", "Each octet of the partner's system is compared", "carry",
            "change an octet of our system, five times", rule="Synchronization is 0 promptly each time", tolerance="prompt: 0.5 s", takes=15.5,
            causes=("RX-12b",))  # fmt: skip
def octets_of_the_system(b: Bench) -> None:
    """A partner whose system differs in any one octet is another one. RX-12b has the last octet."""
    b.still_up()
    system = b.partner().me.system
    for at in range(5):
        octets = bytearray(system.mac)
        octets[at] ^= 0x40
        selected_anew(b, f"octet {at} of the system", system=replace(system, mac=Mac(bytes(octets))))


NOT_COMPARED = {
    "LACP_Timeout": State.TIMEOUT, "Synchronization": State.SYNCHRONIZATION, "Collecting": State.COLLECTING, "Distributing": State.DISTRIBUTING,
    "Defaulted": State.DEFAULTED, "Expired": State.EXPIRED,
}  # fmt: skip


@group.test("19", "6.4.9 (recordPDU)", "Other bits of the device's state may be told as they were", "carry",
            "tell LACP_Timeout, Synchronization, Collecting, Distributing, Defaulted and Expired of the device wrong, one by one for 1.3 s",
            rule="it carries all the time", takes=9.5)  # fmt: skip
def other_bits(b: Bench) -> None:
    """recordPDU compares the six parameters: a partner that tells another bit of the device's state wrong, as one that answers with what it heard
    before, is synchronized all the same."""
    b.still_up()
    partner = b.partner()
    for what, bit in NOT_COMPARED.items():
        mark, partner.says = b.mark(), lambda info, bit=bit: replace(info, state=info.state ^ bit)  # type: ignore[misc]
        sent = partner.send()
        partner.keep_pace(0.6)
        b.wait(1.3)
        wrong = next(b.heard(1, mark, lambda pdu: not carries(pdu)), None)
        came = f"it stops carrying: {end(wrong.lacpdu.actor)}" if wrong and wrong.lacpdu else "it carries on"
        b.claim(not wrong, f"with another {what} of the device told, {came}; has to carry on", sent, wrong)
        if wrong:
            partner.right()
            partner.send()
            b.until(4, b.is_ready)


# So many seconds a device is given to carry again behind a link that was down.
AGAIN = 6
# So long behind a link that comes up a device is EXPIRED in any case: current_while has 3 s there (6.4.4: within 0.25 s).
FIRST_EXPIRED = 2.5
# How often a link goes down in turn, and for how long.
FLAPS, FLAP = 4, 1.0


@group.test("13", "6.4.12 (PORT_DISABLED)", "The link goes down and comes back", "carry", "take the link down for 1.5 s (--flap, or the hook)",
            rule="the first LACPDU after it neither collects nor distributes, and if the device speaks first it is Expired (or Defaulted, where it comes "
            "later than 2.5 s); it carries again within 6 s", tolerance="2.5 s of the 3 s of EXPIRED", takes=5, hooks=("down", "up"), causes=("RX-02",))  # fmt: skip
def link_down(b: Bench) -> None:
    """In PORT_DISABLED partner Synchronization is false, and the link comes back by EXPIRED."""
    b.up()
    with b.undone(lambda: b.link_goes(1, True)):
        b.link_goes(1, False)
        b.wait(1.5)
    b.silence()
    mark, begin = b.mark(), b.now()
    b.link_goes(1, True)
    up = b.now()
    seen = first = b.first(1, mark, lambda _: True, 4)
    b.partner().speak()
    if not first:  # a passive device speaks when it is spoken to
        seen = b.first(1, mark, lambda _: True, AGAIN)
    if not seen or not seen.lacpdu:
        b.claim(False, f"no LACPDU came in {b.now() - up:.0f} s after the link came back; has to carry again within {AGAIN} s")
        return
    told = seen.lacpdu.actor
    b.holds(not told.state & CARRIES, f"the first one does not carry: {end(told)}", seen)
    if first:
        soon = seen.time - begin <= FIRST_EXPIRED
        b.holds(told.state & (State.EXPIRED if soon else State.EXPIRED | State.DEFAULTED), f"and is Expired{'' if soon else ' (or on defaults)'}", seen)
    again = b.first(1, mark, carries, AGAIN)
    b.holds(again, "it carries again", again)


@group.test("21", "6.4.12 (PORT_DISABLED)", "The link goes down four times", "carry", "take the link down for 1 s, four times (--flap, or the hook)",
            rule="it carries again within 6 s each time", takes=16, hooks=("down", "up"), causes=("RX-13",))  # fmt: skip
def flaps(b: Bench) -> None:
    """In PORT_DISABLED no count is kept: a link that comes up is EXPIRED at once, however often it went down before."""
    b.up()
    for turn in range(FLAPS):
        with b.undone(lambda: b.link_goes(1, True)):
            b.link_goes(1, False)
            b.wait(FLAP)
        mark = b.mark()
        b.link_goes(1, True)
        up = b.now()
        again = b.first(1, mark, lambda pdu: carries(pdu) and b.partner().is_named_by(pdu), AGAIN)
        came = f"after {again.time - up:.1f} s" if again else f"not in {AGAIN} s"
        if not b.claim(again, f"down for the {turn + 1}. time, it carries again {came}; has to carry within {AGAIN} s", again):
            return


@group.test("15", "6.4.12 (BEGIN), 6.4.15", "The device starts anew", "carry",
            "have the device end and start anew (hook: stop, start), and go on as its partner all the time",
            rule="its first LACPDU, and all in the second after it, are not synchronized and carry nothing; it carries within 9 s",
            tolerance="1 s, at least, of the 2 s of wait_while", takes=5.5, hooks=("stop", "start"), causes=("RX-12b",))  # fmt: skip
def begins(b: Bench) -> None:
    """After BEGIN the mux machine is DETACHED, and wait_while of 2 s runs before the port attaches."""
    b.up()
    with b.undone(lambda: b.hook("start")):
        b.hook("stop")
        b.wait(0.3)
    mark = b.mark()
    b.hook("start")
    first = b.first(1, mark, lambda _: True, QUIET)
    if not first or not first.lacpdu:
        b.claim(False, f"no LACPDU came in {QUIET:g} s after the start; has to carry within 9 s")
        return
    b.until(9, b.is_ready)
    after = [it for it in b.heard(1, mark) if it.time <= first.time + 1]
    wrong = [it for it in after if it.lacpdu and it.lacpdu.actor.state & (State.SYNCHRONIZATION | CARRIES)]
    told = end(first.lacpdu.actor)
    b.claim(not wrong, f"{len(wrong)} of {len(after)} LACPDUs in its first second are synchronized or carry; the first one: {told}", first, *wrong[:3])
    b.holds(b.carries(), "it carries again", b.frame())
