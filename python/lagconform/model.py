"""What a test is, and what comes of it."""

from __future__ import annotations

from dataclasses import dataclass, field
from typing import TYPE_CHECKING, Callable, Optional, Sequence

from niwhopera import Lacpdu, Marker, Pdu

if TYPE_CHECKING:
    from .bench import Bench

# An error is a fault of the test itself.
PASS, FAIL, ERROR, INCONCLUSIVE, SKIPPED, NOT_APPLICABLE = "pass", "fail", "error", "inconclusive", "skipped", "not applicable"
VERDICTS = (PASS, FAIL, ERROR, INCONCLUSIVE, SKIPPED, NOT_APPLICABLE)
# What carries the rule of a test: docs/PROFILE.md; two devices that nobody of this project wrote, which do so; or memory of the standard.
PROFILE, DEVICES, MEMORY = "PROFILE", "two devices", "memory"
# What a fail of a stack that crashed or hangs goes by, which wants no rule.
CRASH = "crash"
# The group of tests that look at all frames of the run.
WHOLE_RUN = "IV"
# What stands with each report.
CAVEAT = "Nobody compared the rules of the tests with the text of the standard."
# A test that takes more seconds is long, and runs with --long alone.
LONG = 25
# So many seconds a test may wait beside those that it takes; then it ends.
SPARE = 90


@dataclass(frozen=True)
class Frame:
    """A frame of a run: its packet number in the capture, its link, seconds since the start, and whether the bench sent it. `fault` says
    why a payload of Slow Protocols is no PDU."""

    number: int
    link: int
    time: float
    out: bool
    octets: bytes
    pdu: Optional[Pdu]
    fault: str = ""

    @property
    def lacpdu(self) -> Optional[Lacpdu]:
        """Its LACPDU, if it is one."""
        return self.pdu if isinstance(self.pdu, Lacpdu) else None

    @property
    def marker(self) -> Optional[Marker]:
        """Its Marker PDU, if it is one."""
        return self.pdu if isinstance(self.pdu, Marker) else None


@dataclass(frozen=True)
class Claim:
    """One thing that was looked at, and the packets that show it. A machine that is up to `bears` seconds late, or loses frames, does not make
    it false. `late` is by how many seconds something came too late. A flood does not make it false either, if `in_flood`. `causes` are tests whose fail
    explains it, where it does not hold, beside those of its test."""

    holds: bool
    text: str
    packets: tuple[int, ...]
    bears: float = 0.0
    late: Optional[float] = None
    in_flood: bool = False
    causes: tuple[str, ...] = ()


# So late a machine may be where its lateness makes nothing false, as four LACPDUs in a second, whose times are the kernel's. One that stands still
# for longer may hold a device up that runs on it, too.
SURE = 1.0


Run = Callable[["Bench"], None]


@dataclass(frozen=True)
class Test:
    """A test. `basis` says what carries its rule; `needs` are items of a PICS, `hooks` words of the hook, and `causes` tests whose fail
    explains a fail of this one."""

    id: str
    clause: str
    title: str
    purpose: str
    steps: tuple[str, ...]
    rule: str
    tolerance: str
    links: int
    takes: float
    basis: str
    needs: tuple[str, ...]
    hooks: tuple[str, ...]
    causes: tuple[str, ...]
    run: Run

    @property
    def group(self) -> str:
        """The two letters of its group."""
        return self.id.partition("-")[0]

    @property
    def is_long(self) -> bool:
        """Whether it runs with --long alone."""
        return self.takes > LONG

    @property
    def most(self) -> float:
        """After so many seconds it ends."""
        return self.takes + SPARE


@dataclass
class Result:
    """What came of a test: packets `first` to `last`, seconds `begin` to `end`, and how late the bench was at most. `gone` says which
    interface is no longer there, or why a stack is not started again, `known` why a fail is known, `obsolete` why one was known of a test that passes,
    `stuck` that no test can go on like this, `unheard` that no LACPDU of the device came, `stopped` that this is the device's doing, which went on
    before, and `crashed` how a stack in memory broke, and behind which kind of frame. `times` counts the verdicts of a test that ran several times."""

    test: Test
    verdict: str = PASS
    why: str = ""
    claims: list[Claim] = field(default_factory=list)
    notes: list[str] = field(default_factory=list)
    first: int = 0
    last: int = 0
    begin: float = 0
    end: float = 0
    late: float = 0
    known: str = ""
    obsolete: str = ""
    gone: str = ""
    stuck: bool = False
    unheard: bool = False
    stopped: bool = False
    crashed: str = ""
    times: dict[str, int] = field(default_factory=dict)

    @property
    def basis(self) -> str:
        """What carries the verdict: the rule of the test, or that the stack broke."""
        return CRASH if self.crashed else self.test.basis

    def passed_late(self, slack: float) -> bool:
        """Whether it passed while the bench was later than that, which may have hidden a fault."""
        return self.verdict == PASS and self.late > slack

    @property
    def packets(self) -> dict[int, bool]:
        """The packets that claims name, and whether each of those claims holds."""
        named: dict[int, bool] = {}
        for claim in self.claims:
            for number in claim.packets:
                named[number] = named.get(number, True) and claim.holds
        return named


class Stop(Exception):
    """A test ends here, without an answer."""

    verdict = INCONCLUSIVE


class Stuck(Stop):
    """The device does not come to where any test begins."""


class Stopped(Stuck):
    """The device does not come to where any test begins, on a link on which it carried before in this run."""


class NotHere(Stop):
    """The test wants what the bench was not given, or an answer to a marker, which the device does not give."""

    verdict = SKIPPED


class DoesNotApply(Stop):
    """The device is one to which the rule does not apply."""

    verdict = NOT_APPLICABLE


class Group:
    """The tests of one file, in order. What is given here holds for each test that says nothing else."""

    def __init__(self, name: str, title: str, basis: str = PROFILE, needs: Sequence[str] = ()) -> None:
        self.name, self.title, self.basis, self.needs = name, title, basis, tuple(needs)
        self.tests: list[Test] = []

    def test(
        self, number: str, clause: str, title: str, *steps: str, rule: str, tolerance: str = "", links: int = 1, takes: float = 6,
        basis: str = "", needs: Sequence[str] = (), hooks: Sequence[str] = (), causes: Sequence[str] = (), purpose: str = "",
    ) -> Callable[[Run], Run]:  # fmt: skip
        """Puts a function among the tests. It makes claims, or raises `Stop`, and answers nothing; its docstring is the purpose, if none is given."""

        def add(run: Run) -> Run:
            text = purpose or " ".join((run.__doc__ or "").split())
            wants = (*self.needs, *needs)
            name = f"{self.name}-{number}"
            self.tests.append(
                Test(name, clause, title, text, steps, rule, tolerance, links, takes, basis or self.basis, wants, tuple(hooks), tuple(causes), run)
            )
            return run

        return add
