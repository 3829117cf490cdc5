"""What comes of a run for machines that collect tests: JUnit's XML, and TAP."""

from __future__ import annotations

import json
import re
import time
from html import escape
from typing import Iterable, Mapping, Sequence
from xml.sax.saxutils import quoteattr

from .causes import explained
from .model import CAVEAT, ERROR, FAIL, INCONCLUSIVE, PASS, Result
from .pdus import told
from .report import Run, lateness

# What a run is to JUnit that did not come to its end, and the counts of a suite of that alone.
EARLY = "the run ended early"
ONE = 'tests="1" failures="0" errors="1" skipped="0" time="0.000"'
# What no document of XML 1.0 may have.
UNWANTED = re.compile("[^\t\n\r\x20-\ud7ff\ue000-\ufffd\U00010000-\U0010ffff]")


def tag(run: Run, it: Result) -> str:
    """What a result is to JUnit. A known fail is skipped; so is what came to no answer, unless the run is strict: then it is an error, as it makes
    the status 1, and so are a known fail that passes, and what passed while the bench was late. A test that broke is an error in any run."""
    if it.verdict == PASS:
        return "error" if run.strict and (it.obsolete or it.passed_late(run.bench.slack)) else ""
    if it.verdict == FAIL and not it.known:
        return "failure"
    return "error" if it.verdict == ERROR or it.verdict == INCONCLUSIVE and run.strict else "skipped"


def message(run: Run, it: Result) -> str:
    """Why a result is as it is."""
    if it.obsolete:
        return f"a known fail that passes: {it.obsolete}"
    if late := lateness(it, run.bench.slack):
        return f"{it.verdict}: {late}"
    return f"known: {it.known}: {it.why}" if it.known else f"{it.verdict}: {it.why}" if it.verdict != FAIL else it.why


def words(run: Run, it: Result) -> list[str]:
    """What was looked at in a test, with what the packets say that show it."""
    late = lateness(it, run.bench.slack)
    said = [f"{it.test.title}: {it.test.clause}; rule by {it.test.basis}: {it.test.rule}", *([late] if late else []), *it.notes]
    for claim in it.claims:
        said.append(f"{'holds' if claim.holds else 'FAILS'}: {claim.text}")
        if not claim.holds:
            for number in claim.packets:
                frame = run.bench.frames[number - 1]
                said.append(f"  packet {number}, {frame.time:.3f} s, link {frame.link}, {'bench' if frame.out else 'device'}: {told(frame.octets)}")
    return said


def properties(told_of: Mapping[str, str]) -> str:
    """What a test or the run was, as JUnit has it."""
    return "".join(["<properties>", *(f"<property name={quoteattr(key)} value={quoteattr(value)}/>" for key, value in told_of.items()), "</properties>"])


def case(run: Run, it: Result, cause: str) -> str:
    """A result as a case of JUnit, with what explains its fail, if so. Its name is the number of its test, which stays where a title gets other words."""
    out = f'<testcase classname={quoteattr(it.test.group)} name={quoteattr(it.test.id)} time="{it.end - it.begin:.3f}">'
    late = lateness(it, run.bench.slack)
    out += properties({"title": it.test.title, "clause": it.test.clause, **({"causes": cause} if cause else {}), **({"late": late} if late else {})})
    kind, text = tag(run, it), message(run, it)
    body = escape("\n".join(words(run, it)))
    if kind == "skipped":
        out += f"<skipped message={quoteattr(text)}/>"
    elif kind:
        out += f"<{kind} type={quoteattr(f'{it.verdict} by {it.basis}')} message={quoteattr(text)}>{body}</{kind}>"
    return f"{out}<system-out>{body}</system-out></testcase>"


def suite(run: Run, kind: str, name: str, results: Sequence[Result], more: int = 0) -> str:
    """The first tag of a suite, with so many errors more than those of its tests."""
    tags = [tag(run, it) for it in results]
    failed, wrong, skipped = (tags.count(it) for it in ("failure", "error", "skipped"))
    begin = run.bench.wire.started + (results[0].begin if results else 0.0)
    when = time.strftime("%Y-%m-%dT%H:%M:%S", time.gmtime(begin))
    seconds = sum(it.end - it.begin for it in results)
    counts = f'tests="{len(results) + more}" failures="{failed}" errors="{wrong + more}" skipped="{skipped}" time="{seconds:.3f}"'
    return f'<{kind} name={quoteattr(name)} {counts}{f" timestamp={quoteattr(when)}" if kind == "testsuite" else ""}>'


BEGINS = '<?xml version="1.0" encoding="utf-8"?>'


def early(why: str) -> list[str]:
    """A suite with an error: the run ended early, or never began."""
    error = f"<error type={quoteattr(EARLY)} message={quoteattr(why)}/>"
    return [f'<testsuite name="run" {ONE}>', f'<testcase classname="run" name={quoteattr(EARLY)} time="0.000">{error}</testcase>', "</testsuite>"]


def as_junit(run: Run) -> str:
    """The whole run as JUnit's XML. One that ended early has an error beside what was run."""
    why, by_test = run.about.get("incomplete", ""), explained(run.results)
    out = [BEGINS, suite(run, "testsuites", run.about.get("device", "device"), run.results, 1 if why else 0)]
    for group in dict.fromkeys(it.test.group for it in run.results):
        own = [it for it in run.results if it.test.group == group]
        cases = [case(run, it, by_test.get(it.test.id, "")) for it in own]
        out += [suite(run, "testsuite", group, own), properties(run.about), *cases, "</testsuite>"]
    return UNWANTED.sub("\ufffd", "\n".join([*out, *(early(why) if why else []), "</testsuites>"]) + "\n")


def junit_of_nothing(device: str, why: str) -> str:
    """JUnit's XML of a run that never began."""
    return UNWANTED.sub("\ufffd", "\n".join([BEGINS, f"<testsuites name={quoteattr(device)} {ONE}>", *early(why), "</testsuites>"]) + "\n")


def plain(text: str) -> str:
    """A text in one line, without the signs that mean something in TAP."""
    return " ".join(text.replace("#", "no.").split())


def item(text: str) -> str:
    """A text as an item of a list of YAML. Perl's reader of TAP takes one that begins with a word and a colon for a map, though it is quoted."""
    return "    - " + re.sub(r'^("\S+\s*):', r"\1\\x3a", json.dumps(text))


def point(run: Run, number: int, it: Result, cause: str) -> Iterable[str]:
    """A result as a test point of TAP. Behind it stand as YAML its clause, what explains its fail, if so, how late the bench was in what passed, if so,
    and what failed."""
    kind, late = tag(run, it), lateness(it, run.bench.slack)
    name = f"{number} - {plain(f'{it.test.id} {it.test.title}')}"
    if it.known:
        yield f"not ok {name} # TODO {plain(it.known)}"
    elif kind == "skipped":
        yield f"ok {name} # SKIP {plain(f'{it.verdict}: {it.why}')}"
    else:
        yield f"{'not ok' if kind else 'ok'} {name}"
    yield from ["  ---", f"  clause: {json.dumps(it.test.clause)}", *(["  causes:", item(cause)] if cause else [])]
    yield from [f"  late: {json.dumps(late)}"] if late else []
    if kind in ("failure", "error"):
        told_why = message(run, it) if it.verdict == PASS else it.why
        yield from [f"  message: {json.dumps(told_why)}", f"  severity: {it.verdict}", f"  basis: {it.basis}", "  data:"]
        yield from map(item, words(run, it))
    yield "  ..."


def bail_out(why: str) -> str:
    """That a run ended early, as TAP has it; a reader of TAP counts it as failed."""
    return f"Bail out! {plain(why)}"


def as_tap(run: Run) -> str:
    """The whole run as TAP, version 14."""
    why, by_test = run.about.get("incomplete", ""), explained(run.results)
    points = [line for number, it in enumerate(run.results, 1) for line in point(run, number, it, by_test.get(it.test.id, ""))]
    return "\n".join(["TAP version 14", f"1..{len(run.results)}", *points, f"# {CAVEAT}", *([bail_out(why)] if why else [])]) + "\n"


def tap_of_nothing(why: str) -> str:
    """TAP of a run that never began."""
    return f"TAP version 14\n{bail_out(why)}\n"
