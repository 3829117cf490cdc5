"""The bench: links with a partner at each, a log of frames, and what tests say and claim."""

from __future__ import annotations

import math
import random
from contextlib import contextmanager, suppress
from typing import Callable, Iterator, Mapping, Optional, Sequence, cast

from niwhopera import Lacpdu, Mac, MarkerKind, State

from .floods import Meters
from .model import Claim, Frame, NotHere, Result, Stop, Stopped, Stuck
from .partner import PLACES, Partner, slow
from .pdus import CARRIES, COUNT_AT, PAYLOAD, SLOW, end, is_data, is_individual, read, told, value
from .wires import UNKNOWN, Answer, Hook, Wire

# 6.4.4: each timer may be wrong by so much. What is due at once has to be seen so soon: the standard has no number for that, but its
# limit of three LACPDUs a second, so 1/3 s is right in any case, and a quiet port sends at once.
TIMERS, PROMPT = 0.25, 0.5
# So long a device may wait behind three LACPDUs (6.4.16: a second; the project's engine has 11 ticks), and so long a test that is prompt looks for
# its answer.
LIMIT = 1.1
SOON = PROMPT + LIMIT + 0.4
# So long a device sends nothing new before a test asks it for several LACPDUs in a row.
REST = LIMIT + 0.1
# An LACPDU that comes so long behind another one is the periodic one of a second, and so long a test waits for it (6.4.4: 0.75 to 1.25 s, twice).
PERIOD, BEHIND = 0.7, 2.5
# How long a device may be quiet if it was asked for long timeouts, or is on defaults (6.4.4: 30 s).
QUIET = 35.0
HOOK_SECONDS = 40.0
# So long a hook's data is waited for: on a busy device its sender takes seconds to begin.
DATA_BEGINS = 10.0
# What is told of a device that says nothing.
UNHEARD = "no LACPDU of the device"
# Words of the hook behind which the device has to begin anew, on a link or on all.
ENDING = ("down", "stop", "reset")
# What undoes which word.
UNDOES = {"up": "down", "start": "stop"}
# The first of the bench's systems: each one has another number in the three octets that are 0 here.
BASE = Mac("02cf00000001")
Holds = Callable[[Lacpdu], object]


class HookFailed(Stop):
    """The hook knows what it was asked for, and did not do it, or did not end: the test has no answer."""


class Link:
    """One link: its partner, and the last LACPDU of the device."""

    def __init__(self, bench: Bench, number: int, name: str) -> None:
        self.number, self.name = number, name
        self.frame: Optional[Frame] = None
        # The last frame that has the subtype of LACP, whether it can be read or not.
        self.spoke: Optional[Frame] = None
        # What has a packet number up to this one is of before the link was taken down, or the device ended.
        self.over = 0
        # Whether the device has told that it carries here, beside a partner of ours that it names.
        self.carried = False
        self.meters = Meters()
        self.partner = Partner(bench, number)

    def current(self, frame: Optional[Frame]) -> Optional[Frame]:
        """A frame, if it came since the link was taken down, or the device ended."""
        return frame if frame and frame.number > self.over else None

    @property
    def is_quiet(self) -> bool:
        """Whether the device has said something once, and nothing since the link was taken down, or the device ended."""
        return self.frame is not None and not self.current(self.frame)


class Bench:
    """One loop over the links, and the log of what came and went."""

    def __init__(self, wire: Wire, hook: Optional[Hook] = None, slack: float = 0.15, seed: int = 1, flaps: bool = False, base: Mac = BASE) -> None:
        self.wire, self.slack, self.flaps, self.base = wire, slack, flaps, base
        self._hook, self._seed, self._count = hook, seed, 0
        self.frames: list[Frame] = []
        # What was done to the device, and when: words of the hook.
        self.events: list[tuple[float, tuple[str, ...]]] = []
        # What of it was not undone, as a link that is down still.
        self.left: set[tuple[str, ...]] = set()
        # What the bench itself did wrong in a test: how late it was, and how many frames its links refused.
        self.late, self.refused = 0.0, 0
        # How late it was at most in all tests before.
        self.latest = 0.0
        self.links = {number: Link(self, number, name) for number, name in enumerate(wire.names, 1)}
        self.result: Optional[Result] = None
        # When a test has to end.
        self.ends = math.inf
        # Whether data of one aggregator comes on both links, and whether broadcasts go from one aggregator to another, once a test found that out.
        self.spreads: Optional[bool] = None
        self.floods: Optional[bool] = None
        # Whether a marker was answered, and when one went out last.
        self.answers, self.marked = False, -9.0
        # What flooded a link in a test before, so that not all of its frames were kept.
        self.flood = ""
        # Which of our six parameters the device tells wrong: tests go by the rest. What was found before the first test, it tells.
        self.mistold: set[str] = set()
        self.untold: list[str] = []
        # The tests whose frames those look at that look at all frames of the run.
        self.ran: set[str] = set()
        # The tests in which a stack in memory broke, and was started again.
        self.broke: list[str] = []
        # What the device claims of itself (--pics).
        self.claimed: Mapping[str, bool] = {}

    def close(self) -> None:
        """Gives back what the partners have, and the links."""
        for link in self.links.values():
            link.partner.close()
        self.wire.close()

    # Time and frames.

    def now(self) -> float:
        """Seconds since the start of the run."""
        return self.wire.now()

    def number(self) -> int:
        """A number that was not given before."""
        self._count += 1
        return self._count

    def new_mac(self) -> Mac:
        """The MAC address of a system that was not there before."""
        return Mac(self.base[:2] + self.number().to_bytes(3, "big") + self.base[5:])

    def is_ours(self, mac: Mac) -> bool:
        """Whether an address may be that of a system of the bench."""
        return mac[:2] == self.base[:2]

    def dice(self, test: str) -> random.Random:
        """Random numbers of a test, the same in each run with this seed."""
        return random.Random(f"{self._seed} {test}")

    def log(self, link: int, when: float, out: bool, octets: bytes) -> Frame:
        """Puts a frame into the log."""
        pdu, fault = read(octets)
        frame = Frame(len(self.frames) + 1, link, when, out, octets, pdu, fault)
        self.frames.append(frame)
        return frame

    def send(self, link: int, payload: bytes) -> Frame:
        """Sends a frame of Slow Protocols with this payload; answers it as the log has it."""
        return self.send_raw(link, slow(payload, self.wire.source(link)))

    def send_raw(self, link: int, octets: bytes) -> Frame:
        """Sends a frame; answers it as the log has it."""
        frame = self.log(link, self.now(), True, octets)
        self.links[link].meters.sent(frame.time)
        self.refused += not self.wire.send(link, octets)
        return frame

    def _take(self, link: int, when: float, octets: bytes) -> None:
        it = self.links[link]
        if not it.meters.takes(when, octets):
            return
        frame = self.log(link, when, False, octets)
        if is_lacp(octets):
            it.spoke = frame
        if frame.lacpdu:
            it.frame = frame
            it.carried |= frame.lacpdu.actor.state & CARRIES == CARRIES and it.partner.is_named_by(frame.lacpdu)
        it.partner.take(frame)

    def until(self, seconds: float, stop: Optional[Callable[[], object]] = None) -> bool:
        """Runs the links for so long, or until `stop`; answers whether that held."""
        limit = self.now() + seconds
        while True:
            now = self.now()
            self.late = max(self.late, self.pause())
            for link in self.links.values():
                link.partner.act(now)
            if stop and stop():
                return True
            if now >= limit:
                return False
            if now >= self.ends:
                raise Stop("the test took as long as it may: `lagconform --list --json` has its `most` seconds")
            planned = min([limit, *(it.partner.due() for it in self.links.values())])
            arrived = self.wire.wait(max(0.0, planned - self.now()))
            self.late = max(self.late, self.now() - planned)
            for it in arrived:
                self._take(*it)

    def wait(self, seconds: float) -> None:
        """Runs the links for so long."""
        self.until(seconds)

    def pause(self) -> float:
        """For how many seconds a partner has waited for its tick: as long nobody has run the links."""
        return max(self.now() - it.partner.next_tick for it in self.links.values())

    def resume(self) -> None:
        """Time goes on from now: what passed since the links were run is no lateness."""
        for link in self.links.values():
            link.partner.resume()

    # What was seen.

    def mark(self) -> int:
        """A place in the log, as a count of its frames: what comes from now on stands behind it."""
        return len(self.frames)

    def heard(self, link: int, mark: int, holds: Holds = lambda _: True) -> Iterator[Frame]:
        """The LACPDUs of the device on a link since a mark, as frames in their order: an iterator over what the log has, which waits for nothing."""
        for at in range(mark, len(self.frames)):
            frame = self.frames[at]
            if not frame.out and frame.link == link and frame.lacpdu and holds(frame.lacpdu):
                yield frame

    def first(self, link: int, mark: int, holds: Holds, limit: float) -> Optional[Frame]:
        """The first such LACPDU since a mark, as a frame, waited for; None where none came in `limit` seconds."""
        seen, found = mark, cast(Optional[Frame], None)

        def looks() -> bool:
            nonlocal seen, found
            begin, seen = seen, len(self.frames)
            found = next(self.heard(link, begin, holds), None)
            return found is not None

        self.until(limit, looks)
        return found

    def markers(self, link: int, mark: int, kind: MarkerKind = MarkerKind.RESPONSE) -> list[Frame]:
        """Marker PDUs of a kind of the device since a mark, as frames in their order."""
        return [it for it in self.frames[mark:] if not it.out and it.link == link and it.marker and it.marker.kind is kind]

    def data(self, mark: int, link: int) -> int:
        """How many flows of the device's client came on a link since a mark."""
        came = (it.octets for it in self.frames[mark:] if not it.out and it.link == link)
        return len({it[:12] + it[26:38] for it in came if is_data(it)})

    def flows(self, mark: int) -> dict[bytes, list[Frame]]:
        """The frames of each flow of the device's client since a mark, on all links, in the order of their times."""
        found: dict[bytes, list[Frame]] = {}
        for it in self.frames[mark:]:
            octets = it.octets
            if not it.out and is_data(octets) and any(octets[COUNT_AT : COUNT_AT + 4]):
                found.setdefault(octets[:12] + octets[26:38], []).append(it)
        return {key: sorted(those, key=lambda it: it.time) for key, those in found.items()}

    # What a test does.

    def partner(self, link: int = 1) -> Partner:
        """Our end of a link."""
        return self.links[link].partner

    def frame(self, link: int = 1) -> Frame:
        """The last LACPDU of the device on a link, as a frame; the test is inconclusive where none came. What came before the link was taken down, or
        the device ended, does not count."""
        it = self.links[link]
        frame, spoke = it.current(it.frame), it.current(it.spoke)
        if not frame:
            since = " since it was taken down, or the device ended" if it.is_quiet else ""
            silent = f"{UNHEARD} was heard on link {link}{since}"
            raise self.stuck(f"what the device sends on link {link} is no LACPDU: {spoke.fault}" if spoke else silent, link)
        return frame

    def stuck(self, why: str, *links: int) -> Stuck:
        """That no test can begin, by what the device does on these links; it is not to blame where the bench had it end."""
        return (Stopped if all(self.links[it].carried for it in links) and not self.left else Stuck)(why)

    def device(self, link: int = 1) -> Lacpdu:
        """The last LACPDU of the device on a link: `actor` is its end, and `partner` ours as it tells that. The test is inconclusive where none came."""
        pdu = self.frame(link).lacpdu
        assert pdu
        return pdu

    def bits(self, link: int = 1) -> State:
        """The state that the device told last."""
        return self.device(link).actor.state

    def carries(self, link: int = 1) -> bool:
        """Whether the device told last that it collects and distributes; it does not where it has said nothing since the link was taken down."""
        return not self.links[link].is_quiet and self.bits(link) & CARRIES == CARRIES

    def names_us(self, link: int = 1) -> bool:
        """Whether the device told our end last; it did not where it has said nothing since the link was taken down."""
        return not self.links[link].is_quiet and self.partner(link).is_named_by(self.device(link))

    def is_ready(self, link: int = 1) -> bool:
        """Whether it told last that it carries, beside our end."""
        return self.carries(link) and self.names_us(link)

    def begin(self, *links: int, same: bool = True, silent: bool = False) -> None:
        """New partners on these links; one system for all of them if `same`."""
        mac = self.new_mac()
        for number in links:
            self.partner(number).begin(mac if same else self.new_mac())
            if not silent:
                self.partner(number).speak()

    def up(self, *links: int, limit: float = 9) -> None:
        """New right partners, until the device carries on these links."""
        links = links or (1,)
        self.begin(*links)
        mark = self.mark()
        self.until(QUIET if all(self.links[it].frame for it in links) else 2, lambda: all(next(self.heard(it, mark), None) for it in links))
        heard = [it for it in links if next(self.heard(it, mark), None)]
        if not self.until(limit if heard else 0, lambda: len(heard) == len(links) and all(map(self.is_ready, links))):
            self.look_past(*links)
            left = {it: self.stands(it) if it in heard else f"link {it}: {UNHEARD} came" for it in links if it not in heard or not self.is_ready(it)}
            if left:
                silent = f"{UNHEARD} came in {QUIET:g} s beside a right partner"
                raise self.stuck(f"the device does not carry after {limit:g} s beside a right partner: {', '.join(left.values())}" if heard else silent, *left)
        self.until(1.5, lambda: all(self.partner(it).tells_carrying for it in links))

    def look_past(self, *links: int, mixed: bool = True) -> None:
        """Where the device names our system, and tells another of our parameters wrong: tests go on without that one; also where it is the one of
        another link, if `mixed`."""
        for link in links:
            told, own = self.device(link).partner, self.partner(link).me.info
            right = [own, *(it.partner.me.info for it in self.links.values() if not mixed)]
            wrong = {it for it in PLACES if value(told, it) not in [value(one, it) for one in right]} - self.mistold
            if told.system.mac == own.system.mac and wrong:
                self.mistold |= wrong
                self.note(f"the device tells our {', '.join(sorted(wrong))} wrong (FM-06): tests go by the other parameters from here on")

    def stands(self, link: int) -> str:
        """What the device told last on a link, where that is not what it should be."""
        pdu = self.device(link)
        if pdu.actor.system.mac in {it.partner.me.system.mac for it in self.links.values()}:
            return f"link {link}: our own LACPDUs come back: it is looped back, or joined to another link of the bench"
        if not is_individual(pdu.actor.system.mac):
            return f"link {link}: its system has to have an individual address (FM-05): {end(pdu.actor)}"
        if self.carries(link) and not self.names_us(link):
            return f"link {link}: it names another partner, {end(pdu.partner)}, and has to name {end(self.partner(link).me.info)}"
        alone = "" if pdu.actor.state & State.AGGREGATION else ": the device says that its links are individual: it aggregates none"
        return f"link {link}: {end(pdu.actor)}{alone}"

    def is_up(self, link: int = 1) -> bool:
        """Whether the link of the last test still carries for a right partner with short timeouts."""
        partner, frame = self.partner(link), self.links[link].current(self.links[link].frame)
        if not (frame and partner.is_right and partner.me.short and partner.me.active and partner.me.aggregatable):
            return False
        return self.now() - frame.time < 1.5 and self.is_ready(link) and partner.tells_carrying

    def still_up(self, link: int = 1) -> None:
        """The link of the last test if it is up still, or a new partner."""
        if not self.is_up(link):
            self.up(link)

    def behind(self, link: int = 1) -> None:
        """Waits until the device has sent its periodic LACPDU on a link whose partner asked for short timeouts, so that the next one is a whole period
        away: what it sends before that is prompt. One that sends none such is waited for no longer than BEHIND."""
        limit, seen = self.now() + BEHIND, self.links[link].frame
        while seen:
            last, seen = seen, self.first(link, seen.number, lambda _: True, max(0.0, limit - self.now()))
            if seen and seen.time - last.time >= PERIOD:
                return

    def say(self, link: int = 1, **bits: bool) -> Frame:
        """Forces bits of our state, by their names, and sends an LACPDU at once; answers its frame."""
        names = {
            "sync": State.SYNCHRONIZATION, "collecting": State.COLLECTING, "distributing": State.DISTRIBUTING,
            "expired": State.EXPIRED, "defaulted": State.DEFAULTED,
        }  # fmt: skip
        partner = self.partner(link)
        partner.forced.update({names[it]: on for it, on in bits.items()})
        return partner.send()

    def silence(self) -> None:
        """Says nothing on any link."""
        for link in self.links.values():
            link.partner.hush()

    def hook(self, *words: str) -> None:
        """Has the device do something; the test is skipped where there is no hook, or where it does not know these words, and inconclusive where the
        hook fails."""
        began, answer = self.now(), self.ask(*words)
        if answer.status:
            raise (NotHere if answer.status == UNKNOWN else HookFailed)(answer.refusal(words))
        self._did(began, words)

    def _did(self, began: float, words: tuple[str, ...]) -> None:
        """Notes what was done to the device, and what of it is to be undone."""
        self.events.append((began, words))
        if words[0] in UNDOES:
            self.left.discard((UNDOES[words[0]], *words[1:]))
        elif words[0] in UNDOES.values():
            self.left.add(words)
        if words[0] in ENDING:
            self.is_over(*(it for it in self.links if words[0] != "down" or str(it) in words[1:]))

    def is_over(self, *links: int) -> None:
        """What the device has told on these links until now says nothing of what it does from now on."""
        for it in self.wire.wait(0):
            self._take(*it)
        for link in links:
            self.links[link].over = len(self.frames)

    def ask(self, *words: str) -> Answer:
        """What the hook says to these words; the test is skipped where there is none, and inconclusive where it does not end."""
        if not self._hook:
            raise NotHere(f"wants a hook that knows: {' '.join(words)}")
        doing = self._hook.call(words)
        got: list[Answer] = []

        def ended() -> bool:
            answer = doing.answer()
            got.extend([answer] if answer else [])
            return bool(got)

        if not self.until(HOOK_SECONDS, ended):
            doing.stop()
            raise HookFailed(f"the hook did not end in {HOOK_SECONDS:g} s: {' '.join(words)}")
        return got[0]

    def data_starts(self) -> int:
        """Has the device's client send, and waits for its first frame, if one comes; a place in the log before it."""
        self.hook("data", "start")
        mark = self.mark()
        self.until(DATA_BEGINS, lambda: any(not it.out and is_data(it.octets) for it in self.frames[mark:]))
        return mark

    @contextmanager
    def undone(self, undo: Callable[[], None]) -> Iterator[None]:
        """Leaves the device as it was where what is inside ends early, as SIGTERM ends it."""
        try:
            yield
        except BaseException:
            with suppress(Exception):  # what ended it is told
                undo()
            raise

    def link_goes(self, link: int, up: bool) -> None:
        """Takes a link down or up: by the hook, or our own end of it."""
        if not self.flaps:
            self.hook("up" if up else "down", str(link))
            return
        began = self.now()
        self.wire.flap(link, up)
        self.resume()
        self._did(began, ("up" if up else "down", str(link)))

    # What a test claims.

    def claim(
        self, holds: object, text: str, *frames: Optional[Frame], bears: float = 0.0, late: Optional[float] = None, in_flood: bool = False,
        causes: Sequence[str] = (),
    ) -> bool:  # fmt: skip
        """Claims that something holds, as these frames show; answers whether it does. A bench that is up to `bears` seconds late, or loses frames,
        makes it no less true; nor, `in_flood`, does a flood. A fail of the tests `causes` explains why it does not hold."""
        assert self.result
        self.result.claims.append(Claim(bool(holds), text, tuple(it.number for it in frames if it), bears, late, in_flood, tuple(causes)))
        return bool(holds)

    def holds(self, holds: object, statement: str, *frames: Optional[Frame], bears: float = 0.0) -> bool:
        """Claims a statement, as these frames show; answers whether it holds, and denies it where it does not."""
        there = sorted((it for it in frames if it), key=lambda it: it.out)  # what the device sent shows it, if something does
        if not holds and there:
            return self.claim(False, f"not so: {statement}; packet {there[0].number}: {told(there[0].octets)}", *frames, bears=bears)
        return self.claim(holds, statement if holds else f"not so: {statement}", *frames, bears=bears)

    def note(self, text: str) -> None:
        """Tells something that is right either way."""
        (self.result.notes if self.result else self.untold).append(text)

    def timed(self, what: str, sent: Frame, seen: Optional[Frame], least: float, most: float, timer: bool = False, causes: Sequence[str] = ()) -> bool:
        """Claims that something was seen in time after a frame; answers whether it was. `timer`: the times are those of one timer of 6.4.4, and the
        LACPDU that tells of its expiry may come PROMPT later. `causes` as in `claim`."""
        due = most if timer else most - PROMPT
        least -= (TIMERS if timer else 0) + self.slack
        most += (TIMERS + PROMPT if timer else 0) + self.slack
        if seen:
            begin = seen.time - LIMIT - self.slack
            before = self.heard(sent.link, max(0, sent.number - 400))
            if sum(begin < it.time < seen.time for it in before) >= 3:  # the transmit machine had to wait
                most += LIMIT
        took = seen.time - sent.time if seen else None
        holds, late = took is not None and least <= took <= most, took - due if took is not None and took > most else None
        places = 2 if holds or took is None else apart(took, least, most)
        passed = f"after {took:.{places}f} s" if took is not None else "never"
        limits = f"{least:.{places}f} to {most:.{places}f} s" if least > 0 else f"at most {most:.{places}f} s"
        return self.claim(holds, f"{what}: {passed}; has to be {limits}", sent, seen, late=late, causes=causes)


def apart(seconds: float, *limits: float) -> int:
    """With how many digits behind the point a time that breaks its limits differs from each of them: 2, or more where they are close."""
    return next((places for places in range(2, 9) if f"{seconds:.{places}f}" not in [f"{it:.{places}f}" for it in limits]), 9)


def is_lacp(octets: bytes) -> bool:
    """Whether a frame has the subtype of LACP, whatever stands behind it."""
    return octets[12:14] == SLOW and octets[PAYLOAD : PAYLOAD + 1] == b"\1"


def most_within(times: Sequence[float], window: float) -> int:
    """How many of these ascending times lie within a window at most."""
    most, first = 0, 0
    for at, time in enumerate(times):
        while time - times[first] >= window:
            first += 1
        most = max(most, at - first + 1)
    return most
