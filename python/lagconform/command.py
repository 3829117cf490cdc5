"""The command `lagconform`."""

from __future__ import annotations

import argparse
import gc
import os
import signal
import sys
import time
import traceback
from dataclasses import dataclass, replace
from typing import Callable, Optional, Sequence

from niwhopera import __version__
from niwhopera._library import functions, library_text

from . import capture, files, junit, known, matrix, own, page, pics, report
from .bench import BASE, Bench, HookFailed
from .edition import edition
from .files import are_same, read_text, tell, undisturbed, written
from .groups import GROUPS, TESTS
from .listing import as_markdown, as_text
from .memory import World, loaded
from .model import CAVEAT, ERROR, FAIL, INCONCLUSIVE, PASS, Result, Test
from .options import MEMORY_LINKS, SEED, check_words, matches, reader, selected
from .pdus import number_of
from .refusals import MOST_LINKS, Refused, check_interfaces
from .report import Run
from .resume import check, conditions, earlier, kept, taken
from .runner import CameToNothing, NoDevice, StoppedForGood, meet, ordered, run_all
from .shadow import Shadow, compare
from .sockets import Command, PacketWire
from .wires import UNKNOWN, Gone

# The statuses of a shell that cannot run a command.
NO_COMMAND = {126: "may not run it", 127: "does not find it"}
# The status of a run that the device fails, of one that says nothing of it, of one beside a device that never spoke, and of one that a signal ended.
FAILS, NO_VERDICT, SILENT, INTERRUPTED = 1, 2, 3, 130
# What a report has the first system of the bench by.
SYSTEM = "the bench's first system"
# What reports say while a run goes on, and so behind SIGKILL; its JSON gets the verdicts so far, not again before so many seconds have passed.
UNENDED, KEEPS = "the run did not come to its end", 1.0


class Progress:
    """What the terminal shows while tests run: each result, and the time that is left."""

    def __init__(self, tests: Sequence[Test], repeat: int = 1, waits: bool = True) -> None:
        self.left, self.repeat, self.waits, self.results = list(tests), repeat, waits, list[Result]()
        self.terminal = sys.stderr.isatty()

    def show(self) -> None:
        """The test that runs, and how long the rest takes."""
        if self.terminal and self.left:
            seconds = int(sum(it.takes for it in self.left) * self.repeat)
            told = f"{self.left[0].id}, {len(self.left)} tests left" + (f", {seconds // 60}:{seconds % 60:02d}" if self.waits else "")
            print(f"\r\033[K{told}", end="", file=sys.stderr, flush=True)

    def add(self, it: Result) -> None:
        """A result."""
        if self.terminal:
            print("\r\033[K", end="", file=sys.stderr, flush=True)
        self.results.append(it)
        if self.left:
            self.left.pop(0)
        print(report.line(it), flush=True)
        self.show()


def titles() -> dict[str, str]:
    """The titles of the groups."""
    return {it.name: it.title for it in GROUPS}


def moment(seconds: float) -> str:
    """A time since 1970, as reports have it."""
    return time.strftime("%Y-%m-%dT%H:%M:%SZ", time.gmtime(seconds))


def about(given: argparse.Namespace, b: Bench, results: Sequence[Result]) -> dict[str, str]:
    """What the run was."""
    begun = moment(b.wire.started)
    late = max((it.late for it in results), default=0.0)
    told = {"device": given.device, **edition(), **report.about_device(b), "begun": begun, "slack": f"{given.slack:g} s, beside the 0.25 s of a timer (6.4.4)"}
    told[SYSTEM] = str(b.base)
    told.update({"the bench was late": f"{late:.3f} s at most", "seed": str(given.seed), "rules": CAVEAT})
    told.update({"the stack broke": f"and was started again {number_of(len(b.broke), 'time')}, in {', '.join(b.broke)}"} if b.broke else {})
    told.update({"times": "seconds of the clock of the stack: nobody waited for them"} if given.memory else {})
    return {**told, "capture": os.path.basename(given.pcap)} if given.pcap else told


def write_all(given: argparse.Namespace, run: Run) -> bool:
    """Writes the files that were asked for, each of them if another one can't be; answers whether all stand there."""
    b = run.bench
    comments = report.comments(run.results)
    files: list[tuple[Optional[str], Callable[[], bytes]]] = [
        (given.json, lambda: report.as_json(run, TESTS).encode()),
        (given.junit, lambda: junit.as_junit(run).encode()),
        (given.tap, lambda: junit.as_tap(run).encode("utf-8", "replace")),
        (given.matrix, lambda: matrix.as_markdown(run.results, TESTS).encode()),
        (given.report, lambda: page.as_html(run, titles(), TESTS).encode("utf-8", "replace")),
        (given.pcap, lambda: capture.octets(b.wire.started, b.wire.names, b.frames, comments)),
    ]
    for it in run.results if given.captures else ():
        path, own = os.path.join(given.captures, f"{it.test.id}.pcapng"), b.frames[max(0, it.first - 1) : it.last]
        files.append((path, lambda own=own: capture.octets(b.wire.started, b.wire.names, own, comments)))  # type: ignore[misc]
    return all([written(path, make) for path, make in files if path])


def write_nothing(given: argparse.Namespace, why: str) -> None:
    """Has the reports say that no test ran: what stands there of a run before would pass for this one. A file that --resume reads stays, and so do
    captures. Before the run, what is no regular file does: a pipe gets the report alone."""
    told = {"device": given.device, **edition(), "begun": moment(time.time()), "incomplete": why}
    reports: list[tuple[Optional[str], Callable[[], bytes]]] = [
        (given.json, lambda: report.json_of_nothing(told).encode()),
        (given.junit, lambda: junit.junit_of_nothing(given.device, why).encode()),
        (given.tap, lambda: junit.tap_of_nothing(why).encode("utf-8", "replace")),
        (given.matrix, lambda: matrix.of_nothing(why).encode("utf-8", "replace")),
        (given.report, lambda: page.of_nothing(given.device, why).encode("utf-8", "replace")),
    ]
    for path, make in reports:
        if not path or not os.path.isdir(os.path.dirname(os.path.realpath(path))) or os.path.isdir(path):
            continue
        if given.resume and are_same(path, given.resume):
            if why != UNENDED:
                tell(f"lagconform: {path} stays as it was: --resume names it", to=sys.stderr)
        elif why != UNENDED or os.path.isfile(path) or not os.path.exists(path):
            written(path, make)


def stand(given: argparse.Namespace) -> Bench:
    """The bench at its links, with a device that speaks."""
    if given.memory:
        world = World(loaded(given.memory), given.links or MEMORY_LINKS, time.time())
        b = Bench(world, world, given.slack, given.seed, base=given.system or BASE)
    else:
        check_interfaces(given.interfaces)
        try:
            wire = PacketWire(given.interfaces)
        except PermissionError as why:
            raise Refused("packet sockets want CAP_NET_RAW: run it as root, or with that capability") from why
        b = Bench(wire, Command(given.hook) if given.hook else None, given.slack, given.seed, given.flap, given.system or BASE)
    try:
        if given.hook:
            prepare_device(given, b)
        meet(b)
    except BaseException:
        b.close()
        raise
    return b


def prepare_device(given: argparse.Namespace, b: Bench) -> None:
    """Has the hook bring the device into its state; a hook need not know `reset`."""
    for words in [["reset"], *(["set", *it.split("=", 1)] for it in given.set)]:
        try:
            answer = b.ask(*words)
        except HookFailed as why:
            raise Refused(f"--hook {given.hook}: {why}") from why
        if answer.status in NO_COMMAND:
            raise Refused(f"--hook {given.hook}: the shell {NO_COMMAND[answer.status]}: {answer.said.strip()[-200:]}")
        if answer.status and (words[0] == "set" or answer.status != UNKNOWN):
            raise Refused(f"--hook {given.hook}: {answer.refusal(words)}")


@dataclass
class Plan:
    """What is to run: the tests, with those that an earlier run has, what the device claims of itself, the reasons of known fails, what the verdicts
    depend on, and the results of the earlier run."""

    tests: Sequence[Test]
    claimed: dict[str, bool]
    reasons: dict[str, str]
    conditions: dict[str, object]
    before: Sequence[Result] = ()


def run_tests(given: argparse.Namespace, b: Bench, plan: Plan) -> int:
    """Runs the tests that no earlier run has, and reports all, whatever ends the run; the status."""
    left = [it for it in plan.tests if it not in [one.test for one in plan.before]]
    progress, status, ended, kept = Progress(left, given.repeat, not given.memory), 0, "", time.monotonic()
    known.mark(plan.before, plan.reasons)

    def say(it: Result) -> None:
        nonlocal kept
        known.mark([it], plan.reasons)
        progress.add(it)
        if given.json and os.path.isfile(given.json) and time.monotonic() >= kept + KEEPS:
            written(given.json, lambda: report.as_json(so_far(given, b, plan, progress.results, UNENDED), TESTS).encode())
            kept = time.monotonic()

    try:
        print(beginning(given, left, len(b.links)), *taken_over(given, plan.before), sep="\n", flush=True)
        progress.show()
        run_all(b, left, say, plan.claimed, given.keep_going, given.repeat)
    except KeyboardInterrupt:
        status, ended = INTERRUPTED, "interrupted"
    except CameToNothing as why:
        status, ended = 0, str(why)
    except StoppedForGood as why:
        status, ended = FAILS, str(why)
    except Gone as why:
        status, ended = NO_VERDICT, str(why)
    except Exception as why:  # what was run is worth its reports
        status, ended = NO_VERDICT, f"the run ended early: {type(why).__name__}: {why}"
    shadow = compared(b) if given.shadow else None
    with undisturbed():
        if ended:
            tell(f"\nlagconform: {ended}; the reports have what was run", to=sys.stderr)
        return finish(given, replace(so_far(given, b, plan, progress.results, ended), shadow=shadow), status, bool(ended))


def so_far(given: argparse.Namespace, b: Bench, plan: Plan, ran: Sequence[Result], ended: str) -> Run:
    """The run with these results beside those of the earlier one, and what ended it, if something did."""
    results = sorted([*plan.before, *ran], key=lambda it: plan.tests.index(it.test))
    told = {**about(given, b, results), **({"incomplete": f"{ended}; {len(results)} of {len(plan.tests)} tests ran"} if ended else {})}
    return Run(b, told, plan.conditions, results, strict=given.strict)


def beginning(given: argparse.Namespace, tests: Sequence[Test], links: int) -> str:
    """How many tests run, and how long; in memory no time passes that anybody waits for."""
    minutes = max(1, round(sum(it.takes for it in tests) * given.repeat / 60))
    times = f", each {given.repeat} times" if given.repeat > 1 else ""
    return f"{number_of(len(tests), 'test')} on {number_of(links, 'link')}{times}" + ("" if given.memory or not tests else f", some {minutes} min")


def taken_over(given: argparse.Namespace, before: Sequence[Result]) -> list[str]:
    """The fails of an earlier run, as lines."""
    return [f"{report.line(it)}\n{'':23}of the run in {given.resume}" for it in before if it.verdict == FAIL]


def compared(b: Bench) -> Optional[Shadow]:
    """What a system would have sent in the device's place; nothing where that can't be told."""
    try:
        return compare(b)
    except (Exception, KeyboardInterrupt) as why:
        tell(f"lagconform: --shadow: {type(why).__name__}: {why}", to=sys.stderr)
        return None


def finish(given: argparse.Namespace, run: Run, status: int, ended: bool) -> int:
    """Writes and prints the reports; the status: of what ended the run, or of its tests. A test that failed is a verdict on the device, also where
    something else ended the run."""
    stand_there = write_all(given, run)
    gone = known.no_longer(run.results)
    tell(*(f"known fail {name} did not fail" for name in gone), *report.closing(run))
    if not status and not any(it.verdict in (PASS, FAIL) for it in run.results):
        tell("lagconform: no test came to pass or fail", to=sys.stderr)
        status = NO_VERDICT
    if broke := [it.test.id for it in run.results if it.verdict == ERROR]:
        tell(f"lagconform: {', '.join(broke)} broke by a fault of the test, which says nothing of the device: mend it", to=sys.stderr)
    if status == FAILS:
        tell(f"lagconform: the device {'stopped in' if given.keep_going else 'ended'} the run, which is a fail of the device", to=sys.stderr)
    if status == INTERRUPTED:
        return status
    fails = status == FAILS or bool(known.new_fails(run.results))
    if run.strict and status != NO_VERDICT:
        fails = fails or bool(gone) or any(it.verdict in (ERROR, INCONCLUSIVE) or it.passed_late(run.bench.slack) for it in run.results)
    return FAILS if fails and stand_there else NO_VERDICT if status or broke or ended or not stand_there else 0


def interrupt(*_: object) -> None:
    """SIGTERM ends a run as SIGINT does."""
    raise KeyboardInterrupt


def planned(given: argparse.Namespace) -> Plan:
    """What the words of the command line ask for."""
    check_words(given)
    links = given.links or MEMORY_LINKS if given.memory else max(1, len(given.interfaces))
    tests = selected(given.only, given.long or bool(given.memory), links, given.left_out)
    claimed = pics.parsed(read_text("--pics", given.pics)) if given.pics else {}
    reasons = known.parsed(read_text("--known", given.known), (it.id for it in TESTS)) if given.known else {}
    before = earlier(given.resume, read_text("--resume", given.resume, files.MOST_OF_A_RUN)) if given.resume else None
    if given.seed is None:
        given.seed = before.conditions.get("seed", SEED) if before else SEED  # random frames are those that the run had
    if not before:
        return Plan(tests, claimed, reasons, conditions(given, claimed))
    given.system = given.system or before.base  # the bench goes on with the system that it had
    there = taken(before, tests, given.slack) + kept(before, [it for it in TESTS if it not in tests and not matches(it, given.left_out)])
    whole = [*tests, *(it.test for it in there)]
    plan = Plan(ordered(it for it in TESTS if it in whole), claimed, reasons, conditions(given, claimed), there)
    check(before, plan.conditions)
    return plan


def listed(given: argparse.Namespace) -> int:
    """Prints or writes the tests; the status."""
    tests = sorted(selected(given.only, True, MOST_LINKS, given.left_out), key=TESTS.index)
    if given.json:
        return 0 if written(given.json, lambda: report.json_of_list(tests).encode()) else 2
    tell(as_markdown(tests, titles()) if given.markdown else as_text(tests, titles(), given.repeat))
    return 0


def main(words: Optional[Sequence[str]] = None) -> int:
    """Runs the command; answers its status."""
    given = reader().parse_args(words)
    if given.version:
        print(f"lagconform {__version__}", library_text(), sep="\n")
        return 0
    try:
        signal.signal(signal.SIGTERM, interrupt)
        signal.pthread_sigmask(signal.SIG_UNBLOCK, files.ENDS)  # one that came before is heard here
        for path in given.tests:
            own.load(path)
        if given.list:
            return listed(given)
        plan = planned(given)
        gc.disable()  # no pauses
        functions()  # without the library no stack is to blame
        write_nothing(given, UNENDED)
        b = stand(given)
    except (Refused, NoDevice, pics.BadPics, known.BadKnown, Gone, ImportError, OSError) as why:
        file = given.pics if isinstance(why, pics.BadPics) else given.known if isinstance(why, known.BadKnown) else None
        told = f"{file}: {why}" if file else str(why)
        print(f"lagconform: {told}", file=sys.stderr)
        write_nothing(given, told)
        return SILENT if isinstance(why, NoDevice) else 2
    except KeyboardInterrupt:
        tell("\nlagconform: interrupted before the first test", to=sys.stderr)
        write_nothing(given, "interrupted before the first test")
        return INTERRUPTED
    except Exception as why:  # status 1 would tell of a device that fails
        traceback.print_exc()
        write_nothing(given, f"the bench has a fault: {type(why).__name__}: {why}")
        return 2
    try:
        return run_tests(given, b, plan)
    finally:
        b.close()
