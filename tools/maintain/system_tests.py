"""Parts of a tool as items of pytest, which chooses, times and repeats them, and says JUnit.

A tool gives its parts by their names, and what makes ready what they share. Words that it does not know are names of parts, and options of pytest, as -k, -x,
--lf, --durations and --junitxml. A part fails by a check that fails, and by an exception; `Skipped` skips it, and `Missing` ends the tool with status 2.
One that fails while its processes waited too long for a processor, or other machines had one, is inconclusive: a line says so, nothing is counted, and the
part runs once more.
"""

from __future__ import annotations

import argparse
import multiprocessing
import os
import signal
import sys
import time
import traceback
from concurrent.futures import Future, ProcessPoolExecutor
from pathlib import Path
from typing import Any, Callable, Iterable, Iterator, Mapping, NamedTuple, NoReturn, Sequence, TypeVar

from checking import Failed, Skipped, check, counted, failures
from lateness import LATE, LATE_SHARE, watched
from repository import TOP, Missing, hear_signals, read_text, run, tally, with_pytest


def again() -> NoReturn:
    """Runs the tool by a Python that has pytest."""
    found = with_pytest()
    os.execv(found, [found, *sys.argv])


try:
    import pytest
except ImportError:
    run(again)

STOPPING = signal.SIGINT, signal.SIGTERM
T = TypeVar("T")


# What a tool leaves.
LOGS = os.path.join(TOP, "out", os.path.basename(sys.argv[0]))


class Told(NamedTuple):
    """How a part ended: how many checks passed, what those say that failed, why it was skipped, and what it answers."""

    passed: int
    failed: list[str]
    skipped: str
    answer: Any


def stop(number: int, _: object) -> NoReturn:
    """Ends this process by its `finally`, in which it ends what it started. No second signal comes between."""
    for it in STOPPING:
        signal.signal(it, signal.SIG_IGN)
    sys.exit(128 + number)


def reads(told: str | None, parts: Iterable[str]) -> argparse.ArgumentParser:
    """What reads the options of a tool; signals end the tool from now on."""
    hear_signals()
    for it in STOPPING:
        signal.signal(it, stop)
    raw = argparse.RawDescriptionHelpFormatter
    reader = argparse.ArgumentParser(description=told, formatter_class=raw, allow_abbrev=False, usage="%(prog)s [OPTION..] [PART..], with options of pytest")
    reader.add_argument("--list", action="version", version="\n".join(parts), help="print the names of the parts")
    return reader


def attempt(name: str, part: Callable[[T], object], shared: T) -> Told:
    """Runs a part, and once more where it failed while its processes waited too long for a processor, or other machines had one."""
    began = time.monotonic()
    with watched() as waited:
        told = attempt_once(name, part, shared)
        late = waited()
    if not told.failed or late < max(LATE, (time.monotonic() - began) * LATE_SHARE):
        return told
    counted["passed"] -= told.passed
    counted["failed"] -= len(told.failed)
    del failures[-len(told.failed) :]
    print(f"inconclusive: {name}: {told.failed[0].splitlines()[0]}: this failed while its processes waited {late:.1f} s for a processor; once more", flush=True)
    return attempt_once(name, part, shared)


def attempt_once(name: str, part: Callable[[T], object], shared: T) -> Told:
    """Runs a part. What no check foresees is a failure of this part alone."""
    passed, failed, skipped, answer = counted["passed"], len(failures), "", None
    print(f"{name}:", flush=True)
    try:
        answer = part(shared)
    except Skipped as why:
        skipped = str(why)
        print(f"skipped: {name}: {why}", flush=True)
    except Failed as why:
        check(False, *why.args)
    except Missing:
        raise
    except Exception:
        check(False, f"{name} runs to its end", traceback.format_exc())
    return Told(counted["passed"] - passed, failures[failed:], skipped, answer)


def log_of(name: str) -> str:
    return os.path.join(LOGS, name.replace("/", "-"))


# What runs parts, for them and for the processes that are forked from this one.
RUNNING: list[Running] = []


def beside(name: str) -> Told:
    """Runs a part in a process of its own. One that was stopped starts no other part."""
    if signal.getsignal(signal.SIGTERM) == signal.SIG_IGN:
        sys.exit(1)
    with open(log_of(name), "w", encoding="utf-8") as out:
        for number in 1, 2:
            os.dup2(out.fileno(), number)
    try:
        return attempt(name, RUNNING[0].parts[name], RUNNING[0].shared)
    finally:
        sys.stdout.flush()


class Part(pytest.Item):
    def runtest(self) -> None:
        told = RUNNING[0].told(self.name)
        if told.failed:
            pytest.fail("\n".join(told.failed), pytrace=False)
        if told.skipped:
            pytest.skip(told.skipped)


class Parts(pytest.File):
    def collect(self) -> Iterator[Part]:
        for name in RUNNING[0].parts:
            made: Part = Part.from_parent(self, name=name)
            yield made


class Running:
    """The parts of a tool, while pytest runs them. Of several jobs each part runs in a process of its own, but for those that want the machine alone."""

    def __init__(self, parts: Mapping[str, Callable[[Any], object]], prepare: Callable[[list[str]], Any], chosen: Callable[[list[str]], Sequence[str]], jobs: int,
                 alone: Sequence[str]) -> None:
        self.parts, self.prepare, self.chosen, self.jobs, self.alone = parts, prepare, chosen, jobs, alone
        self.shared: Any = None
        self.ended: BaseException | None = None
        self.pool: ProcessPoolExecutor | None = None
        self.waits: dict[str, Future[Told]] = {}
        self.answers: dict[str, Any] = {}

    def pytest_configure(self, config: pytest.Config) -> None:
        tool, *names = config.args
        chosen = self.chosen(names) or list(self.parts)
        unknown = [it for it in chosen if it not in self.parts]
        if unknown:
            raise pytest.UsageError(f"there is no part {unknown[0]}: --list prints them")
        config.args = [f"{tool}::{name}" for name in chosen]

    def pytest_collect_file(self, file_path: Path, parent: pytest.Collector) -> Parts:
        made: Parts = Parts.from_parent(parent, path=file_path)
        return made

    def pytest_runtestloop(self, session: pytest.Session) -> None:
        if session.items and not session.config.option.collectonly:
            self.ending(lambda: self.start(session.items))

    def pytest_report_teststatus(self, report: pytest.TestReport) -> tuple[str, str, str]:
        """What a part prints says how it ended."""
        return report.outcome if report.when == "call" or report.outcome != "passed" else "", "", ""

    def ending(self, done: Callable[[], T]) -> T:
        """Does something; what ends the tool ends pytest first."""
        try:
            return done()
        except (Exception, SystemExit) as why:
            self.ended = why
            pytest.exit(str(why))

    def start(self, items: list[pytest.Item]) -> None:
        self.shared = self.prepare([it.name for it in items])
        if self.jobs > 1:
            items.sort(key=lambda it: it.name in self.alone)
            os.makedirs(LOGS, exist_ok=True)
            sys.stdout.flush()
            self.pool = ProcessPoolExecutor(self.jobs, multiprocessing.get_context("fork"))
            self.waits = {it.name: self.pool.submit(beside, it.name) for it in items if it.name not in self.alone}

    def told(self, name: str) -> Told:
        if name in self.waits:
            told = self.ending(self.waits[name].result)
            print(read_text(log_of(name)), end="", flush=True)
            counted["passed"] += told.passed
            counted["failed"] += len(told.failed)
        else:
            told = self.ending(lambda: attempt(name, self.parts[name], self.shared))
        self.answers[name] = told.answer
        return told

    def end(self) -> None:
        """No part goes on behind the tool."""
        if self.pool:
            for child in [] if all(it.done() for it in self.waits.values()) else multiprocessing.active_children():
                child.terminate()
            self.pool.shutdown(cancel_futures=True)


def run_parts(parts: Mapping[str, Callable[[T], object]], prepare: Callable[[list[str]], T], words: Sequence[str], *, chosen: Callable[[list[str]], Sequence[str]] = list,
              jobs: int = 1, alone: Sequence[str] = (), after: Callable[[dict[str, Any]], None] | None = None) -> int:
    """Runs the parts that words name, or all, with what `prepare` makes of their names; prints what `after` makes of their answers, and the last line. Answers
    the status."""
    running = Running(parts, prepare, chosen, jobs, alone)
    RUNNING[:] = [running]
    own = ["-q", "-s", "-rN", "--tb=no", "--noconftest", "-c", os.devnull, f"--rootdir={TOP}", "-o", f"cache_dir={LOGS}/pytest"]
    try:
        status = pytest.main([*own, os.path.realpath(sys.argv[0]), *words], plugins=[running])
    finally:
        running.end()
    if isinstance(running.ended, Failed):
        check(False, *running.ended.args)
    elif isinstance(running.ended, Skipped):
        raise Missing(str(running.ended)) from running.ended
    elif running.ended:
        raise running.ended
    if status == pytest.ExitCode.USAGE_ERROR:
        return 2
    if after:
        after(running.answers)
    return max(tally(counted["passed"], counted["failed"]), int(status != pytest.ExitCode.OK))
