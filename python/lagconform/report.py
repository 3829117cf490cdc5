"""What comes of a run, as lines and JSON."""

from __future__ import annotations

import json
from dataclasses import dataclass
from typing import Mapping, Optional, Sequence

from . import causes, matrix
from .bench import Bench
from .edition import edition
from .model import CAVEAT, CRASH, FAIL, PROFILE, VERDICTS, Result, Test
from .pdus import end, mac
from .shadow import Shadow


# The number of the form of JSON. It grows where a key that CONFORM.md names goes, or gets another meaning; keys may come beside them.
FORMAT = 1


@dataclass
class Run:
    """A run to report: the bench with its frames, what it was, what it was run with, and the results."""

    bench: Bench
    about: dict[str, str]
    conditions: Mapping[str, object]
    results: list[Result]
    shadow: Optional[Shadow] = None
    # Whether a test without an answer counts as a fail.
    strict: bool = False


def why(it: Result) -> str:
    """The last line of the reason of a verdict."""
    return it.why.strip().splitlines()[-1] if it.why.strip() else ""


def lateness(it: Result, slack: float) -> str:
    """How late the bench was in a test that passed so; nothing where it was in time, or the test did not pass."""
    return f"the bench was up to {it.late:.2f} s late, more than --slack {slack:g}, which may have hidden a fault" if it.passed_late(slack) else ""


def line(it: Result) -> str:
    """A result as one line; behind it why, and of a fail which packets show it."""
    known = f" (known: {it.known})" if it.known else ""
    rule = f"{it.test.clause}, by {it.basis}: " if it.verdict == FAIL else ""
    shown = ", ".join(str(number) for number, holds in it.packets.items() if it.verdict == FAIL and not holds)
    more = [*([f"{rule}{why(it)}"] if it.why else []), *([f"packets {shown}"] if shown else [])]
    return "\n".join([f"{it.verdict:15}{it.test.id:7} {it.test.title}{known}", *(f"{'':23}{text}" for text in more)])


def counts(results: Sequence[Result]) -> dict[str, int]:
    """How many tests have each verdict."""
    return {verdict: sum(it.verdict == verdict for it in results) for verdict in VERDICTS}


def summary(results: Sequence[Result]) -> str:
    """The counts as a line, without the verdicts that no test has but pass and fail; how many fails are known stands behind theirs, and how many
    PROFILE does not carry, and how many are crashes, which go by no rule."""
    fails = [it for it in results if it.verdict == FAIL]
    kinds = {"known": sum(bool(it.known) for it in fails), f"by {CRASH}": sum(bool(it.crashed) for it in fails)}
    kinds[f"not by {PROFILE}"] = sum(it.basis not in (PROFILE, CRASH) for it in fails)
    listed = ", ".join(f"{count} {kind}" for kind, count in kinds.items() if count)
    told = {FAIL: f" ({listed})"} if listed else {}
    return ", ".join(f"{count} {name}{told.get(name, '')}" for name, count in counts(results).items() if count or name in VERDICTS[:2])


def about_device(b: Bench) -> dict[str, str]:
    """What the frames tell of the device."""
    told_of = {}
    for number, link in b.links.items():
        frame = link.frame
        text = f"{end(frame.lacpdu.actor)}; source {mac(frame.octets[6:12])}" if frame and frame.lacpdu else "no LACPDU"
        told_of[f"link {number}"] = f"{link.name}: {text}"
    return told_of


def about_test(test: Test) -> dict[str, object]:
    """A test for JSON."""
    return {
        "id": test.id, "clause": test.clause, "basis": test.basis, "title": test.title, "purpose": test.purpose, "steps": test.steps,
        "rule": test.rule, "tolerance": test.tolerance, "links": test.links, "takes": test.takes, "most": test.most, "needs": test.needs, "hooks": test.hooks,
        "causes": test.causes,
    }  # fmt: skip


def record(b: Bench, it: Result) -> dict[str, object]:
    """A result for JSON."""
    frames = {}
    for number in sorted(it.packets):
        frame = b.frames[number - 1]
        sender = "bench" if frame.out else "device"
        frames[number] = {"seconds": round(frame.time, 6), "link": frame.link, "from": sender, "octets": frame.octets.hex()}
    return {
        **about_test(it.test), "basis": it.basis, "verdict": it.verdict, "why": it.why, "known": it.known, "notes": it.notes, "times": it.times,
        "crashed": it.crashed, "seconds": [round(it.begin, 3), round(it.end, 3)], "late": round(it.late, 3), "packets": [it.first, it.last],
        "claims": [{"holds": it.holds, "text": it.text, "packets": it.packets, **({"causes": it.causes} if it.causes else {})} for it in it.claims],
        "frames": frames,
    }  # fmt: skip


def as_json(run: Run, tests: Sequence[Test]) -> str:
    """The whole run as JSON, of all tests that there are."""
    grouped = {it.name: [one.test.id for one in it.explains] for it in causes.grouped(run.results)}
    rows = {
        clause: {"verdict": verdict, "told": matrix.told(verdict, own, left), "tests": [it.test.id for it in own], "not run": left}
        for clause, verdict, own in matrix.rows(run.results)
        for left in [matrix.not_run(clause, own, tests)]
    }
    whole: dict[str, object] = {"format": FORMAT, "run": run.conditions, "about": run.about, "counts": counts(run.results), "causes": grouped, "clauses": rows}
    if run.shadow:
        differences = [{"packet": it.frame.number, "what": it.what} for it in run.shadow.differences]
        whole["shadow"] = {"compared": run.shadow.compared, "differences": differences}
    return json.dumps({**whole, "tests": [record(run.bench, it) for it in run.results]}, indent=1) + "\n"


def json_of_list(tests: Sequence[Test]) -> str:
    """JSON of the tests that there are."""
    return json.dumps({"format": FORMAT, "about": edition(), "tests": [*map(about_test, tests)]}, indent=1) + "\n"


def json_of_nothing(about: Mapping[str, str]) -> str:
    """JSON of a run in which no test ran; `about` has why."""
    return json.dumps({"format": FORMAT, "about": about, "counts": counts([]), "causes": {}, "clauses": {}, "tests": []}, indent=1) + "\n"


def comments(results: Sequence[Result]) -> dict[int, str]:
    """What stands at packets of the capture: where a test begins, and each packet that shows a fail."""
    texts: dict[int, list[str]] = {}
    for it in results:
        if it.last >= it.first:
            texts.setdefault(it.first, []).append(f"{it.test.id} {it.test.title}: {it.verdict}")
        for claim in it.claims:
            if not claim.holds:
                for number in claim.packets:
                    texts.setdefault(number, []).append(f"{it.test.id} fails: {claim.text}")
    return {number: "; ".join(dict.fromkeys(those)) for number, those in texts.items()}


def closing(run: Run) -> list[str]:
    """The lines behind the last test."""
    out = [f"cause: {it}" for it in causes.told(run.results)]
    if run.shadow:
        out.append(f"shadow: {run.shadow.text}")
        for it in run.shadow.differences[:5]:
            out.append(f"shadow: packet {it.frame.number}: {it.what}")
    if late := [it for it in run.results if it.passed_late(run.bench.slack)]:
        told = f"the bench was up to {max(it.late for it in late):.2f} s late, more than --slack {run.bench.slack:g}, in what passed"
        out.append(f"late: {told}: {', '.join(it.test.id for it in late)}{'; by --strict that is no answer' if run.strict else ''}")
    return [*out, f"{summary(run.results)}. {CAVEAT}"]
