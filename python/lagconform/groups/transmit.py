"""TX: the transmit machine (6.4.16) and update_NTT (6.4.9)."""

from __future__ import annotations

from dataclasses import replace
from typing import Callable, Sequence

from niwhopera import Info, PortId, State

from ..bench import PROMPT, REST, SOON, UNHEARD, Bench, most_within
from ..model import SURE, Frame, Group, Run, Stop, Stuck
from ..pdus import NOBODY, SIX, other
from .periodic import calm

group = Group("TX", "Transmit machine and NTT (6.4.16, 6.4.9)")


@group.test("01", "6.4.16, 6.4.4", "At most three LACPDUs a second",
            "for 6 s, send an LACPDU each 50 ms on each link whose partner is wrong, so that each asks for an answer",
            rule="never more than three in any second on a link. Four in 0.75 s: fail. Four in a second, but not in 0.75 s: inconclusive, the 0.25 s of a timer",
            tolerance="window 0.98 s; timers 0.25 s", takes=6.5)  # fmt: skip
def three(b: Bench) -> None:
    """No more than three LACPDUs are transmitted in any Fast_Periodic_Time."""
    b.begin(*b.links, silent=True)
    for link in b.links:
        b.partner(link).says = lambda _: NOBODY
    mark = b.mark()
    for _ in range(120):
        for link in b.links:
            b.partner(link).send()
        b.wait(0.05)
    if not next(b.heard(1, mark), None):
        raise Stuck(UNHEARD)
    heard = {link: list(b.heard(link, mark)) for link in b.links}
    near = [three_at_most(b, found, "" if link == 1 else f"link {link}: ") for link, found in heard.items() if found]
    if why := "; ".join(filter(None, near)):
        raise Stop(why)


def three_at_most(b: Bench, found: Sequence[Frame], where: str) -> str:
    """Claims that no more than three of these LACPDUs of a link came within a second; where a timer leaves that open, claims nothing, and answers so."""
    times = [it.time for it in found]
    most, sure = most_within(times, 0.98), most_within(times, 0.75)
    at = next(it for it in times if sum(it <= other < it + 0.98 for other in times) == most)
    shown = [it for it in found if at <= it.time < at + 0.98][:4]
    if sure <= 3 < most:
        b.note(f"{where}{len(times)} LACPDUs in 6 s")
        within, packets = shown[-1].time - shown[0].time, f"packets {shown[0].number} to {shown[-1].number}"
        return f"{where}{most} LACPDUs within {within:.2f} s, {packets}, but 3 within 0.75 s: right only if the timer may be 0.25 s short"
    b.claim(most <= 3, f"{where}{most} LACPDUs within one second, {len(times)} in 6 s; has to be at most 3 in a second", *shown, bears=SURE)
    return ""


def still_calm(b: Bench) -> None:
    """Carrying and asked for long timeouts, as the test before left it, or anew."""
    partner, frame = b.partner(), b.links[1].frame
    quiet = partner.pace is not None and not partner.me.short and not partner.forced and partner.says is None
    if not (quiet and frame and b.now() - frame.time < 25 and b.is_ready() and partner.tells_carrying):
        calm(b, False)
        return
    b.wait(1.2)  # the transmit machine of the device has room again


def asks(what: str, change: Callable[[Info], Info], phase: float) -> Run:
    """An LACPDU that tells something of the device wrong. The tests lie at three phases of a second, so that a device which looks once a
    second, and so is prompt by chance, is not so in each of them."""

    def run(b: Bench) -> None:
        still_calm(b)
        b.wait((phase - b.now()) % 1.0)
        partner = b.partner()
        mark, partner.says = b.mark(), change
        sent = partner.send()
        seen = b.first(1, mark, lambda _: True, SOON)
        b.timed(f"an LACPDU that tells {what} wrong is answered", sent, seen, 0, PROMPT)
        partner.says = None
        partner.send()
        b.until(2, b.is_ready)

    return run


def add(number: str, what: str, change: Callable[[Info], Info], place: int) -> None:
    """A test of update_NTT."""
    why = f"update_NTT: an LACPDU whose partner differs from the device in {what} sets NTT; the device, asked for long timeouts and quiet else, answers."
    group.test(number, "6.4.9 (update_NTT)", f"NTT: another {what} of the device is answered", "carry, asked for long timeouts",
               f"tell another {what}", rule="an answer", tolerance="prompt: 0.5 s", takes=2, purpose=why)(asks(what, change, place % 3 / 3))  # fmt: skip


for _place, _field in enumerate(SIX):
    add(f"02{'abcdef'[_place]}", _field, lambda info, field=_field: other(info, field), _place)  # type: ignore[misc]
_BITS = {"LACP_Activity": State.ACTIVITY, "LACP_Timeout": State.TIMEOUT, "Synchronization": State.SYNCHRONIZATION}
for _place, (_what, _bit) in enumerate(_BITS.items()):
    add(f"03{'abc'[_place]}", _what, lambda info, bit=_bit: replace(info, state=info.state ^ bit), _place)  # type: ignore[misc]


@group.test("04", "6.4.9 (update_NTT), 6.4.16", "No NTT where all is right", "carry, asked for long timeouts",
            "send six right LACPDUs in 6 s", rule="at most one LACPDU (the periodic one)", takes=7.5)  # fmt: skip
def silent_if_right(b: Bench) -> None:
    """An LACPDU that changes nothing and tells the device right sets no NTT."""
    still_calm(b)
    mark = b.mark()
    b.wait(6)
    found = list(b.heard(1, mark))
    b.claim(len(found) <= 1, f"told right, it sends {len(found)} LACPDUs in 6 s; has to be at most 1", *found[:3], bears=SURE)


@group.test("07", "6.4.9 (update_NTT)", "No NTT for bits that update_NTT does not compare", "carry, asked for long timeouts",
            "for 6 s, each second tell another of Collecting, Distributing, Defaulted and Expired of the device wrong",
            rule="at most one LACPDU (the periodic one)", takes=7.5, causes=("TX-04",))  # fmt: skip
def silent_for_other_bits(b: Bench) -> None:
    """update_NTT compares the six parameters, LACP_Activity, LACP_Timeout and Synchronization. What differs in another bit asks for no answer."""
    still_calm(b)
    partner, mark = b.partner(), b.mark()
    for turn in range(6):
        bit = (State.COLLECTING, State.DISTRIBUTING, State.DEFAULTED, State.EXPIRED)[turn % 4]
        partner.says = lambda info, bit=bit: replace(info, state=info.state ^ bit)  # type: ignore[misc]
        partner.send()
        b.wait(0.95)
    partner.says = None
    found = list(b.heard(1, mark))
    text = f"told Collecting, Distributing, Defaulted and Expired wrong, it sends {len(found)} LACPDUs in 6 s; has to be at most 1"
    b.claim(len(found) <= 1, text, *found[:3], bears=SURE)
    partner.send()
    b.until(2, b.is_ready)


@group.test("08", "6.4.16, 6.4.9", "Prompt while data flows", "carry, asked for long timeouts, while the device's client sends (hook: data)",
            "tell another key of the device, three times at other phases of a second", rule="an answer each time", tolerance="prompt: 0.5 s", takes=7.5,
            hooks=("data",), causes=("TX-02c",))  # fmt: skip
def prompt_under_data(b: Bench) -> None:
    """LACPDUs are answered as fast as ever while data goes out: a device whose LACP waits behind its data loses links where they carry most."""
    still_calm(b)
    partner = b.partner()
    with b.undone(lambda: b.hook("data", "stop")):
        b.data_starts()
        b.wait(0.5)
        for phase in (0.1, 0.45, 0.8):
            b.wait(REST)
            b.wait((phase - b.now()) % 1.0)
            mark, partner.says = b.mark(), lambda info: other(info, "key")
            sent = partner.send()
            seen = b.first(1, mark, lambda _: True, SOON)
            b.timed("while data flows, an LACPDU that tells key wrong is answered", sent, seen, 0, PROMPT)
            partner.says = None
            partner.send()
            b.until(SOON, b.is_ready)
    b.hook("data", "stop")


@group.test("09", "6.4.16", "Three LACPDUs a second may be sent, and are", "carry, asked for long timeouts, and ask for nothing for 1.2 s",
            "tell another key of the device, then the right one and another port number, 0.2 s apart",
            rule="three answers", tolerance="prompt: 0.5 s", takes=4, causes=("TX-02a", "TX-02c", "TX-02e"))  # fmt: skip
def three_are_sent(b: Bench) -> None:
    """The limit is three in a second, not one: what a quiet device is asked for three times in half a second it tells three times, promptly."""
    still_calm(b)
    b.wait(REST)
    partner, start, asked = b.partner(), b.mark(), list[Frame]()
    for what in "key", "port", "priority":
        partner.says = lambda info, what=what: other(info, what)  # type: ignore[misc]
        asked.append(partner.send())
        b.wait(0.2)
    partner.says = None
    b.wait(max(0.0, asked[-1].time + PROMPT + b.slack - b.now()))
    found = [it for it in b.heard(1, start) if it.time <= asked[-1].time + PROMPT + b.slack]
    b.claim(len(found) >= 3, f"asked three times in 0.4 s, it sent {len(found)} LACPDUs in 1 s; has to be 3", *asked, *found)
    partner.send()
    b.until(SOON, b.is_ready)


def ask_thrice(b: Bench, *links: int) -> list[Frame]:
    """Tells another LACP_Timeout of the device three times on each link, 0.2 s apart: each asks for an answer, and changes nothing else."""
    for link in links:
        b.partner(link).says = lambda info: replace(info, state=info.state ^ State.TIMEOUT)
    asked = list[Frame]()
    for turn in range(3):
        b.wait(0.2 if turn else 0.0)
        asked += [b.partner(link).send() for link in links]
    for link in links:
        b.partner(link).says = None
    return asked


@group.test("10", "6.4.16, 6.4.9", "A change behind three LACPDUs is told", "carry, asked for long timeouts, and ask for nothing for 1.2 s",
            "tell another LACP_Timeout of the device three times, 0.2 s apart", "when three answers came, say Synchronization 0",
            rule="an LACPDU whose partner has Synchronization 0, as soon as the limit lets it out", tolerance="prompt: 0.5 s; the limit: 1.1 s", takes=4,
            causes=("TX-06", "TX-09", "TX-03b"))  # fmt: skip
def told_behind_the_limit(b: Bench) -> None:
    """NTT stays set while the limit holds an LACPDU back. No periodic LACPDU hides one that is lost there: the partner asked for long timeouts."""
    still_calm(b)
    b.wait(REST)
    start = b.mark()
    ask_thrice(b, 1)
    b.until(PROMPT + b.slack, lambda: len(list(b.heard(1, start))) >= 3)
    before = len(list(b.heard(1, start)))
    mark, sent = b.mark(), b.say(sync=False)
    seen = b.first(1, mark, lambda pdu: not pdu.partner.state & State.SYNCHRONIZATION, SOON)
    b.timed(f"behind {before} LACPDUs, the change is told", sent, seen, 0, PROMPT)
    b.partner().forced.clear()
    b.partner().send()
    b.until(SOON, b.is_ready)


@group.test("11", "6.4.16", "Each link has its own three LACPDUs a second", "carry on two links, asked for long timeouts, and ask for nothing for 1.2 s",
            "tell another LACP_Timeout of the device three times on each link, 0.2 s apart", rule="three answers on each link",
            tolerance="prompt: 0.5 s", links=2, takes=7, causes=("TX-03b", "TX-09"))  # fmt: skip
def three_on_each_link(b: Bench) -> None:
    """The limit is one of each port: a port does not wait behind the LACPDUs of another one."""
    b.up(1, 2)
    b.wait(REST)
    for link in 1, 2:
        b.partner(link).become(short=False)
        b.partner(link).send()
        b.partner(link).keep_pace(1)
    b.wait(PROMPT + REST)
    start = b.mark()
    end = ask_thrice(b, 1, 2)[-1].time + PROMPT + b.slack
    b.wait(max(0.0, end - b.now()))
    for link in 1, 2:
        found = [it for it in b.heard(link, start) if it.time <= end]
        b.claim(len(found) >= 3, f"asked three times in 0.4 s, it sent {len(found)} LACPDUs on link {link}; has to be 3", *found)
        b.partner(link).right()


@group.test("05", "6.4.16", "What waited is told as it is when it is sent", "send seven LACPDUs in 0.7 s, each of another port number of ours",
            "wait 1.5 s", rule="the last LACPDU of the device names the last of them; at most three come in 0.75 s", takes=2.5, causes=("TX-01",))  # fmt: skip
def newest(b: Bench) -> None:
    """If a transmission is delayed by the limit, the LACPDU has the values of the time at which it is sent."""
    b.begin(1, silent=True)
    mark, partner = b.mark(), b.partner()
    for port in range(103, 110):
        partner.become(port=PortId(0x80, port))
        last = partner.send()
        b.wait(0.11)
    b.wait(1.5)
    found = list(b.heard(1, mark))
    named = b.device().partner.port.number
    told = "in the end it names" if found else "no LACPDU came since; the last one named"
    b.claim(found and named == 109, f"{told} port {named}; has to be 109, which was sent last", last, b.frame())
    times = [it.time for it in found]
    b.claim(most_within(times, 0.75) <= 3, f"{most_within(times, 0.75)} LACPDUs within 0.75 s; has to be at most 3", *found[:4], bears=SURE)


@group.test("06", "6.4.16, 6.4.9", "An answer tells the change", "carry, asked for long timeouts", "say Synchronization 0",
            rule="an LACPDU promptly whose partner has Synchronization 0", tolerance="prompt: 0.5 s", takes=5)  # fmt: skip
def tells(b: Bench) -> None:
    """A change of the mux machine sets NTT, so that the partner learns of it without a periodic LACPDU."""
    calm(b, False)
    mark, sent = b.mark(), b.say(sync=False)
    seen = b.first(1, mark, lambda pdu: not pdu.partner.state & State.SYNCHRONIZATION, SOON)
    b.timed("the change is told", sent, seen, 0, PROMPT)
