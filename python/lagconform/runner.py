"""Runs tests, and keeps what comes of them."""

from __future__ import annotations

import math
import traceback
from itertools import takewhile
from typing import Callable, Iterable, Mapping, NamedTuple, Optional, Sequence

from niwhopera import State

from .bench import QUIET, SOON, UNHEARD, Bench, HookFailed, is_lacp
from .floods import FLOOD
from .matrix import WORST
from .model import ERROR, FAIL, INCONCLUSIVE, NOT_APPLICABLE, PASS, SKIPPED, SURE, WHOLE_RUN
from .model import Claim, DoesNotApply, Frame, NotHere, Result, Stop, Stopped, Stuck, Test
from .pdus import number_of
from .pics import ITEMS, lacking
from .refusals import Refused
from .wires import Broke, Gone

# So long a device is waited for at the start, and so long a test lasts at least that tells that none of its LACPDUs came.
MEETS, LISTENS = 35.0, 1.5


class NoDevice(Exception):
    """The device sent no LACPDU; the text says on which interfaces."""


def meet(b: Bench) -> None:
    """Waits until the device has sent something on each link that has the subtype of LACP: what is wrong in it, tests say."""
    b.begin(*b.links)
    before = Traffic(b)
    if b.until(MEETS, lambda: all(it.spoke for it in b.links.values())):
        learn(b)
        return
    missing = [it for it in b.links.values() if not it.spoke]
    names = ", ".join(it.name for it in missing)
    if flood := before.flood().text:
        raise Refused(f"no LACPDU came in {MEETS:g} s on {names}. {flood}")
    raise NoDevice(f"the device is silent: no LACPDU came in {MEETS:g} s on {names}. The usual causes: {b.wire.silence}")


def learn(b: Bench) -> None:
    """Finds out which of our parameters the device tells wrong, so that no test depends on one before it for that."""
    read = [number for number, it in b.links.items() if it.frame]
    if read and not b.until(SOON, lambda: all(map(b.names_us, read))):
        b.look_past(*read, mixed=False)  # IV-04 finds what is mixed


class Flood(NamedTuple):
    """Which link is flooded, and by what, and whether tests did not see all that they look at; no text where none is."""

    text: str = ""
    hides: bool = False


class Traffic:
    """What comes on the links of a bench from now on."""

    def __init__(self, b: Bench) -> None:
        self.b, self.begin = b, b.now()
        self.before = {number: b.wire.received(number) for number in b.links}
        for link in b.links.values():
            link.meters.spilled()

    def flood(self) -> Flood:
        """Which link is flooded, and by what."""
        seconds = max(1.0, self.b.now() - self.begin)
        for number, link in self.b.links.items():
            rate = (self.b.wire.received(number) - self.before[number]) / seconds
            spilled = link.meters.spilled()
            if spilled or rate >= FLOOD:
                told = "; ".join(filter(None, (f"{rate:.0f} frames a second came on average" if rate >= 1 else "", spilled)))
                text = f"link {number} ({link.name}) is flooded: {told}. The usual causes: a loop behind the device, or traffic of others on this port"
                return Flood(text, bool(spilled))
        return Flood()


def wake(b: Bench) -> None:
    """A device that was asked for long timeouts last, or that is on defaults, may be quiet for 30 s: it has to speak before a test begins."""
    link = b.links[1]
    told, frame = link.partner.told, link.frame
    long = told is not None and not told.actor.state & State.TIMEOUT
    if long or (frame and frame.lacpdu and frame.lacpdu.actor.state & State.DEFAULTED):
        b.begin(1)
        mark = b.mark()
        b.until(QUIET, lambda: next(b.heard(1, mark), None))


def prepare(b: Bench, test: Test) -> None:
    """Sees that a test applies, and brings its links into a known state."""
    if missing := lacking(test.needs, b.claimed):
        raise DoesNotApply(f"the device claims not to have {missing[0]}: {ITEMS[missing[0]]}")
    if test.links > len(b.links):
        raise NotHere(f"wants {test.links} links")
    frame = b.links[1].frame
    if test.links > 1 and "two-ports" in test.needs and frame and frame.lacpdu and not frame.lacpdu.actor.state & State.AGGREGATION:
        raise DoesNotApply("the device's ports are individual: they tell Aggregation 0 (PICS: two-ports)")
    for number, link in b.links.items():
        if number > test.links:
            link.partner.hush()
    # These go on where the test before left the link.
    if test.group not in ("IV", "TX"):
        wake(b)


def run_one(b: Bench, test: Test, claimed: Optional[Mapping[str, bool]] = None) -> Result:
    """Runs a test; answers its verdict."""
    result = Result(test, first=len(b.frames) + 1, begin=b.now())
    late = 0.0 if test.group == WHOLE_RUN else max(0.0, b.pause())  # the partners of the test before went on, and nobody ran them
    b.result, b.late, b.refused, b.claimed, b.ends = result, late, 0, claimed or {}, b.now() + test.most
    result.notes, b.untold = b.untold, []
    b.wire.drops()  # what was lost before is of no test
    traffic = Traffic(b)
    broke: Optional[Broke] = None
    try:
        prepare(b, test)
        result.first, result.begin = len(b.frames) + 1, b.now()
        test.run(b)
    except Stop as why:
        result.verdict, result.why = why.verdict, str(why)
        result.stuck, result.stopped = isinstance(why, Stuck), isinstance(why, Stopped)
        if why.verdict == INCONCLUSIVE and not isinstance(why, HookFailed):
            listen(b, result)
    except Broke as why:
        broke = why
        text, _, trace = str(why).partition("\n")
        last = [it for it in b.frames[result.first - 1 :] if it.out][-1:]
        result.claims.insert(0, Claim(False, f"{text}; has to go on", tuple(it.number for it in last), SURE))
        result.crashed = f"{text}, behind {shape(last[0]) if last else 'no frame'}"
        result.notes += [trace] if trace else []
    except Gone as why:
        result.verdict, result.why, result.gone = INCONCLUSIVE, str(why), str(why)
    except (OSError, MemoryError) as why:  # of this machine, its network, or what a test asks beside the device
        result.verdict, result.why = INCONCLUSIVE, raised(why)
    except (Exception, SystemExit) as why:
        result.verdict, result.why = ERROR, f"the test broke by {raised(why)}"
        result.notes.append(traceback.format_exc())
    b.ends = math.inf
    flood = traffic.flood()
    b.flood = flood.text if flood.hides else b.flood
    # What looks at all frames of the run lacks those that a flood hid in any test.
    judge(b, result, Flood(b.flood, True) if test.group == WHOLE_RUN and b.flood else flood)
    for link in b.links.values():
        if test.group != "TX":
            link.partner.right()
    if broke:
        result.gone = revive(b, test, broke)
        result.stopped = bool(result.gone)
    if test.group != WHOLE_RUN and result.verdict not in (SKIPPED, NOT_APPLICABLE):
        b.ran.add(test.id)
    b.result = None
    return result


def listen(b: Bench, result: Result) -> None:
    """Where a test that came to no answer heard no LACPDU of the device, tells so: nothing that the device told before is the reason."""
    if not is_silent(b, result):
        return
    result.unheard = result.stuck = True
    result.stopped = isinstance(b.stuck("", *own(b, result)), Stopped)
    told, why = f"{UNHEARD} came in {b.now() - result.begin:.1f} s", result.why
    result.why = told if why == UNHEARD else why if why.startswith(UNHEARD) else f"{told}: {why}"


def own(b: Bench, result: Result) -> list[int]:
    """The links of a test."""
    return [it for it in b.links if it <= result.test.links]


def is_silent(b: Bench, result: Result) -> bool:
    """Whether no LACPDU of the device came on the links of a test since it began, though it listened."""
    heard = any(not it.out and it.link in own(b, result) and is_lacp(it.octets) for it in b.frames[result.first - 1 :])
    return not heard and b.now() - result.begin >= LISTENS


def raised(why: BaseException) -> str:
    """An exception of a test, with the line of its file that brought it."""
    below = traceback.extract_tb(why.__traceback__)[1:]
    lines = [f"; line {it.lineno} of {it.filename}" for it in below if it.filename == below[0].filename]
    return f"{type(why).__name__}: {' '.join(str(why).split())}{lines[-1] if lines else ''}"


def shape(frame: Frame) -> str:
    """What a frame is: crashes behind one shape, told in the same words, have one cause."""
    return "an LACPDU" if frame.lacpdu else "a Marker PDU" if frame.marker else "a frame that is no PDU"


def revive(b: Bench, test: Test, broke: Broke) -> str:
    """Starts a stack that broke in a test again, for the tests behind it; why that can't be, if so."""
    b.silence()
    b.events.append((b.now(), ("stop",)))
    for link in b.links.values():
        link.over = len(b.frames)
    try:
        broke.again()
    except Gone as why:
        return f"{str(why).partition(chr(10))[0]}; the last time in {test.id}: {str(broke).partition(chr(10))[0]}"
    b.events.append((b.now(), ("start",)))
    b.resume()
    b.left.clear()
    b.broke.append(test.id)
    return ""


def judge(b: Bench, result: Result, flood: Flood = Flood()) -> None:
    """The verdict: a claim that does not hold is a fail, unless the test broke, or the bench itself or a flood is to blame."""
    failed = [it for it in result.claims if not it.holds]
    if result.test.group == WHOLE_RUN:
        result.notes.append(f"it looked at the frames of {number_of(len(b.ran), 'other test')} of this run")
    if failed and result.verdict != ERROR:
        result.verdict, result.why = FAIL, failed[0].text
    elif result.verdict == PASS and not result.claims:
        result.verdict, result.why = INCONCLUSIVE, "nothing was claimed"
    elif result.verdict == PASS and result.test.group == WHOLE_RUN and not b.ran:
        result.verdict, result.why = INCONCLUSIVE, "no other test ran, and so there were no frames to look at"
    b.latest = max(b.latest, b.late)
    result.last, result.end = len(b.frames), b.now()
    result.late = round(b.latest if result.test.group == WHOLE_RUN else b.late, 3)  # as JSON has it, so that --resume sees what was seen here
    if flood.text:
        result.stuck = result.stuck or flood.hides
        result.notes.append(flood.text)
    if result.stopped and excused(b, result, flood.text):
        result.stopped = False
    if result.verdict == FAIL:
        blame(b, result, failed, flood.text if flood.hides else "")
        result.why += f". Beside it, {flood.text}" if flood.text and (result.verdict == FAIL or not flood.hides) else ""
        silent = result.verdict == FAIL and not result.crashed and "no LACPDU" not in result.why and is_silent(b, result)
        result.why += ". No LACPDU of the device came in this test" if silent else ""
    elif result.verdict == INCONCLUSIVE and flood.text or result.verdict == PASS and flood.hides:
        result.verdict, result.why = INCONCLUSIVE, f"{flood.text}. Seen: {result.why or 'what came between was right'}"
    elif result.verdict == PASS and (told := dropped(b)):
        result.verdict, result.why = INCONCLUSIVE, f"{told}. Seen: what came between was right"


def blame(b: Bench, result: Result, failed: Sequence[Claim], flood: str) -> None:
    """Takes a fail back that the bench, its links or a flood may have made. One that no late bench and no lost frame makes stays."""
    excuse = excused(b, result, flood)
    sure = [] if result.gone else [it for it in failed if it.bears and it.bears >= result.late and (it.in_flood or not flood)]
    if sure and excuse:
        result.why = sure[0].text
        result.notes += [f"{excuse}; this fail does not come of that"] if excuse != flood else []
    elif excuse:
        result.verdict, result.why = INCONCLUSIVE, f"{excuse}. Seen: {result.why}"


def excused(b: Bench, result: Result, flood: str) -> str:
    """What the bench or its links did in a test, so that nothing is the device's fault; nothing where they were as they should be."""
    if result.gone or flood:
        return result.gone or flood
    if result.late > b.slack:
        return f"this machine is too busy for a verdict: the bench was {result.late:.2f} s late, more than --slack {b.slack:g}"
    if told := dropped(b):
        return told
    flaps = any(when >= result.begin and words[0] in ("down", "up") for when, words in b.events)
    return f"the link refused {b.refused} frames" if b.refused and not flaps else ""


def dropped(b: Bench) -> str:
    """That this machine lost frames that came, since that was asked last; nothing where it lost none."""
    drops = b.wire.drops()
    return f"this machine is too busy for a verdict: it dropped {number_of(drops, 'frame')} that came" if drops else ""


class CameToNothing(Exception):
    """Tests in turn came to nothing for one reason; the text says which."""


class StoppedForGood(Exception):
    """The device ends the run: it carried, and carries no more, or a stack in memory broke too often; the text says which."""


# After so many tests in turn that can't begin, or in a flood, a run ends: each of them takes 9 s and more.
IN_TURN = 5


def run_all(
    b: Bench, tests: Iterable[Test], say: Callable[[Result], None], claimed: Optional[Mapping[str, bool]] = None, goes_on: bool = False, repeat: int = 1
) -> list[Result]:  # fmt: skip
    """Runs tests in order; `say` gets each result. Where an interface is gone, no other test is run; nor, unless it `goes_on`, behind IN_TURN that
    came to nothing, but for those that look at all frames of the run. That tests came to nothing is raised in the end, also where it went on."""
    results: list[Result] = []
    ends: Optional[Exception] = None
    for test in tests:
        if ends and not goes_on and test.group != WHOLE_RUN:
            continue
        results.append(run_times(b, test, claimed, repeat))
        say(results[-1])
        if results[-1].gone:
            raise (StoppedForGood if results[-1].stopped else Gone)(results[-1].gone)
        last = results[-IN_TURN:]
        if not ends and len(last) == IN_TURN and all(it.stuck for it in last):
            ends = nothing_goes(b, last, goes_on)
    if ends := ends or falls_silent(results):
        raise ends
    return results


def falls_silent(results: Sequence[Result]) -> Optional[CameToNothing]:
    """That the run ended while no LACPDU of the device came, if so: fewer than IN_TURN tests say nothing of why."""
    asked = [it for it in results if it.test.group != WHOLE_RUN and it.verdict not in (SKIPPED, NOT_APPLICABLE)]
    last = [*takewhile(lambda it: it.unheard, reversed(asked))]
    if not last:
        return None
    tests = f"the last {len(last)} tests, {last[-1].test.id} to {last[0].test.id}" if len(last) > 1 else f"the last test, {last[0].test.id}"
    return CameToNothing(f"{tests}, came to nothing: {last[0].why}")


def nothing_goes(b: Bench, last: Sequence[Result], goes_on: bool) -> Exception:
    """Why these tests in turn came to nothing: by the device, where it carried before, on links that are there still."""
    others = "the run went on (--keep-going)" if goes_on else "others would not go better (--keep-going runs them)"
    text = f"{IN_TURN} tests in turn came to nothing, {last[0].test.id} to {last[-1].test.id}, and {others}: {last[-1].why}"
    if dead := b.wire.without_carrier():
        return CameToNothing(f"{text}. There is no carrier on {', '.join(dead)}")
    return (StoppedForGood if all(it.stopped for it in last) else CameToNothing)(text)


def run_times(b: Bench, test: Test, claimed: Optional[Mapping[str, bool]], repeat: int) -> Result:
    """Runs a test so often; the result is the first of those with the worst verdict, over the frames of all."""
    found: list[Result] = []
    while len(found) < repeat and not (found and found[-1].gone):
        found.append(run_one(b, test, claimed))
    result = min(found, key=lambda it: WORST.index(it.verdict))
    result.gone, result.stopped, result.unheard = found[-1].gone, found[-1].stopped, found[-1].unheard
    if len(found) > 1:
        result.times = {verdict: count for verdict in WORST if (count := sum(it.verdict == verdict for it in found))}
        result.notes.append(f"of {len(found)} runs: {', '.join(f'{count} {verdict}' for verdict, count in result.times.items())}")
        if result.why:
            result.why += f" (in {result.times[result.verdict]} of {len(found)} runs)"
        result.first, result.begin, result.last, result.end = found[0].first, found[0].begin, found[-1].last, found[-1].end
        result.late = max(it.late for it in found)
    return result


def ordered(tests: Iterable[Test]) -> list[Test]:
    """Tests of one link, those of two, and what looks at all frames."""
    return sorted(tests, key=lambda it: (it.group == WHOLE_RUN, it.links))
