"""What comes of a run as one page of HTML, with a time diagram of each test: what was expected beside what was seen."""

from __future__ import annotations

from html import escape
from typing import Iterable, Sequence, Union

from . import causes, matrix
from .bench import Bench
from .model import CAVEAT, ERROR, FAIL, INCONCLUSIVE, VERDICTS, Frame, Result, Test
from .pdus import SLOW, end, told
from .refusals import MOST_LINKS
from .report import Run, lateness, summary, why

# A picture has at most so many arrows; what stands within so many places of a packet that is named stays.
MOST, NEAR, MORE = 60, 3, 40
# Pixels: of the lifelines, where texts of a link stand, and for a second.
LINES = {link: 490 + 330 * link for link in range(MOST_LINKS + 1)}
WIDTHS = {links: 1000 + 330 * links for links in range(1, MOST_LINKS + 1)}
# Colours of the light form and of the dark one.
LIGHT = "--ink:#222;--paper:#fff;--rule:#ccc;--pass:#24723a;--fail:#a11;--open:#8a4b00;--grey:#666;--lacpdu:#2b5c8a;--other:#b06000;--bad:#c00"
DARK = "--ink:#ddd;--paper:#181a1b;--rule:#444;--pass:#6fcf8a;--fail:#ff8a80;--open:#ffb74d;--grey:#999;--lacpdu:#8ab8e6;--other:#e0a050;--bad:#ff6b6b"
STYLE = (
    f":root{{{LIGHT};color-scheme:light dark}}@media (prefers-color-scheme:dark){{:root{{{DARK}}}}}"
    """body{font:15px/1.45 sans-serif;max-width:1340px;margin:1em auto;padding:0 1em;color:var(--ink);background:var(--paper)}a{color:var(--lacpdu)}
table{border-collapse:collapse}td,th{border:1px solid var(--rule);padding:2px 8px;text-align:left;vertical-align:top;overflow-wrap:anywhere}
.wide{overflow-x:auto}.v{font-weight:bold;white-space:nowrap}code,pre{font-size:12px;white-space:pre-wrap;word-break:break-all}
.pass>.v,.pass .v{color:var(--pass)}.fail>.v,.fail .v,.error .v,.no{color:var(--fail)}.inconclusive .v{color:var(--open)}.skipped .v,.not .v{color:var(--grey)}
summary h3{display:inline;font-size:1em}details.t{border-top:1px solid var(--rule);padding:.4em 0}svg{min-width:900px;max-width:100%;height:auto}
svg text{fill:var(--ink)}svg .grey{fill:var(--grey)}svg .line{stroke:var(--lacpdu)}
.a{stroke:var(--ink)}.a.bad{stroke:var(--bad)}.a.lacpdu{stroke:var(--lacpdu)}.a.other{stroke:var(--other)}
text.a{stroke:none}text.a.bad{fill:var(--bad)}text.a.lacpdu{fill:var(--lacpdu)}text.a.other{fill:var(--other)}
label{margin-right:1em;white-space:nowrap}"""
    + "".join(f"#only-{it.split()[0]}:checked~.tests .t:not(.{it.split()[0]}){{display:none}}" for it in VERDICTS)
)
TIP = (
    '<svg width="0" height="0" style="position:absolute;min-width:0"><defs><marker id="tip" viewBox="0 0 10 10" refX="9" refY="5" markerWidth="6" '
    'markerHeight="6" orient="auto"><path d="M0 0 L10 5 L0 10 z" fill="context-stroke"/></marker></defs></svg>'
)


def chosen(b: Bench, it: Result) -> list[Union[Frame, int]]:
    """The frames that are drawn, and how many are left out between them."""
    named = it.packets
    shown = [f for f in b.frames[it.first - 1 : it.last] if f.link <= it.test.links and (f.octets[12:14] == SLOW or f.number in named or f.out)]
    if len(shown) <= MOST:
        return list(shown)
    keep: set[int] = set()
    for place, frame in enumerate(shown):
        if frame.number in named or place < NEAR or place >= len(shown) - NEAR:
            keep.update(range(place - NEAR, place + NEAR + 1))
    drawn: list[Union[Frame, int]] = []
    for place, frame in enumerate(shown):
        if place in keep and len(drawn) < MOST + MORE:
            drawn.append(frame)
        elif drawn and isinstance(drawn[-1], int):
            drawn[-1] += 1
        else:
            drawn.append(1)
    return drawn


def kind(frame: Frame, named: dict[int, bool]) -> str:
    """The class of an arrow: one where a claim does not hold, or holds, or of another frame."""
    if frame.number in named:
        return "a" if named[frame.number] else "a bad"
    return "a lacpdu" if frame.lacpdu else "a other"


def arrow(frame: Frame, it: Result, y: float, links: int) -> list[str]:
    """A frame as an arrow with its text."""
    ink, heavy = kind(frame, it.packets), ' stroke-width="2.2"' if frame.number in it.packets else ""
    first, last = (LINES[0], LINES[frame.link]) if frame.out else (LINES[frame.link], LINES[0])
    text = f"{frame.number}  {frame.time - it.begin:.3f}  {f'link {frame.link}: ' if links > 1 else ''}{told(frame.octets)}"
    x, anchor = (LINES[0] - 8, "end") if frame.out else (LINES[links] + 8, "start")
    return [
        f'<path class="{ink}" d="M{first} {y:.0f} L{last} {y + 5:.0f}"{heavy} marker-end="url(#tip)"/>',
        f'<text class="{ink}" x="{x}" y="{y + 4:.0f}" text-anchor="{anchor}">{escape(text)}</text>',
    ]


def picture(b: Bench, it: Result) -> str:
    """Lifelines of the bench and of the links of the device, an arrow a frame, time downwards."""
    links, y, last, parts = it.test.links, 46.0, it.begin, []
    for frame in chosen(b, it):
        if isinstance(frame, int):
            y += 18
            parts.append(f'<text class="grey" x="{LINES[0]}" y="{y}" text-anchor="middle">&#8942; {frame} more frames</text>')
            continue
        y += min(max((frame.time - last) * 30, 15), 60)
        last = frame.time
        parts += arrow(frame, it, y, links)
    y += 24
    names = {0: "lagconform", **{link: f"device, link {link}" for link in range(1, links + 1)}}
    for number in range(links + 1):
        parts.append(f'<path class="line" d="M{LINES[number]} 36 V{y:.0f}" stroke-width="2"/>')
        parts.append(f'<text x="{LINES[number]}" y="24" text-anchor="middle">{names[number]}</text>')
    size = f'viewBox="0 0 {WIDTHS[links]} {y + 10:.0f}" width="{WIDTHS[links]}"'
    style = 'font-family="sans-serif" font-size="11" fill="none" stroke-width="1.2"'
    return f'<svg xmlns="http://www.w3.org/2000/svg" {size} {style}>{"".join(parts)}</svg>'


def verdict(it: Result) -> str:
    """A verdict in its colour."""
    return f'<span class="v">{it.verdict}{" (known)" if it.known else ""}</span>'


def short(it: Result) -> str:
    """The class of a verdict."""
    return it.verdict.split()[0]


def rows(pairs: Iterable[tuple[str, str]]) -> str:
    """A table of two columns, without rows that say nothing."""
    return "<table>" + "".join(f"<tr><th>{escape(key)}</th><td>{escape(value)}</td></tr>" for key, value in pairs if value) + "</table>"


def section(b: Bench, it: Result) -> Iterable[str]:
    """A test, what was expected of it, and what was seen; folded, but for a fail."""
    test = it.test
    yield f'<details class="t {short(it)}" id="{test.id}"{" open" if it.verdict == FAIL else ""}>'
    yield f"<summary><h3>{test.id} {escape(test.title)}: {verdict(it)}</h3></summary>"
    if it.why or it.passed_late(b.slack):
        yield f'<p class="no">{escape(it.why or lateness(it, b.slack))}</p>'
    span = f"{it.first} to {it.last}, at {it.begin:.1f} to {it.end:.1f} s" if it.last else ""
    basis = f"{test.clause}; the rule is carried by {test.basis}"
    expected = [("clause", basis), ("steps", "; ".join(test.steps)), ("expected", test.rule), ("tolerance", test.tolerance), ("known", it.known)]
    yield f"<p>{escape(test.purpose)}</p>" + rows([*expected, ("packets", span)]) + "<ul>"
    for claim in it.claims:
        shown = ", ".join(map(str, claim.packets)) or "-"
        sign = "&#10003;" if claim.holds else "&#10007;"
        yield f'<li{"" if claim.holds else " class=no"}>seen: {sign} {escape(claim.text)} <small>(packets {shown})</small></li>'
    yield "".join(f"<li>{escape(note)}</li>" for note in it.notes) + "</ul>"
    if it.last:
        yield f'<details{" open" if it.verdict == FAIL else ""}><summary>time diagram</summary><div class="wide">{picture(b, it)}</div></details>'
    if it.packets:
        yield "<details><summary>octets of the packets that are named</summary><pre>" + "".join(octets(b, it)) + "</pre></details>"
    yield "</details>"


def octets(b: Bench, it: Result) -> Iterable[str]:
    """The packets that claims name."""
    for number in sorted(it.packets):
        frame = b.frames[number - 1]
        sender = "bench" if frame.out else "device"
        yield f"{number}  {frame.time:.6f}  link {frame.link}  {sender}  {escape(told(frame.octets))}\n{frame.octets[:130].hex(' ')}\n"
        if frame.lacpdu:
            yield f"    actor   {end(frame.lacpdu.actor)}\n    partner {end(frame.lacpdu.partner)}\n"


def link_to(it: Result) -> str:
    """A test by its name, which leads to it."""
    return f'<a href="#{it.test.id}">{it.test.id}</a>'


def by_its_kind(it: Result) -> str:
    """A fail by its name, with what carries its rule."""
    return f"{link_to(it)} (by {escape(it.basis)})"


def fails(results: Sequence[Result]) -> str:
    """What failed, by its causes."""
    out = []
    for cause in causes.grouped(results):
        first = f"{by_its_kind(cause.root)} {escape(cause.root.test.title)}: {escape(why(cause.root))}" if cause.root else escape(cause.text)
        more = f"<br>explains {', '.join(map(by_its_kind, cause.explains))}" if cause.explains else ""
        out.append(f'<li class="fail">{first}{more}</li>')
    return f"<h2>Fails</h2><ol>{''.join(out)}</ol>" if out else ""


def unanswered(results: Sequence[Result]) -> str:
    """What came to no answer."""
    out = [f"<li>{link_to(it)} {escape(it.test.title)}: {escape(why(it))}</li>" for it in results if it.verdict in (ERROR, INCONCLUSIVE)]
    return f"<h2>Without an answer</h2><ul>{''.join(out)}</ul>" if out else ""


def late(results: Sequence[Result], slack: float) -> str:
    """What passed while the bench was late."""
    out = [f"<li>{link_to(it)} {escape(it.test.title)}: {escape(lateness(it, slack))}</li>" for it in results if it.passed_late(slack)]
    return f"<h2>Passed while the bench was late</h2><ul>{''.join(out)}</ul>" if out else ""


def clauses(results: Sequence[Result], tests: Sequence[Test]) -> str:
    """The matrix of clauses, of all tests that there are."""
    out = ["<tr><th>clause</th><th>verdict</th><th>tests</th></tr>"]
    for clause, worst, own in matrix.rows(results):
        left = matrix.not_run(clause, own, tests)
        listed, said = ", ".join([*map(link_to, own), *(f"{it} (not run)" for it in left)]), matrix.told(worst, own, left)
        out.append(f'<tr class="{worst.split()[0]}"><td>{escape(clause)}</td><td><span class="v">{said}</span></td><td>{listed}</td></tr>')
    return f"<h2>Clauses</h2><table>{''.join(out)}</table>"


def filters(results: Sequence[Result]) -> str:
    """Buttons that leave the tests of one verdict."""
    there = [it for it in VERDICTS if any(one.verdict == it for one in results)]
    buttons = ["all", *there]
    return "".join(
        f'<input type="radio" name="only" id="only-{it.split()[0]}"{" checked" if it == "all" else ""}><label for="only-{it.split()[0]}">{it}</label>'
        for it in buttons
    )


def beginning(device: str, said: str) -> list[str]:
    """The first lines of a page: the device, and what came of it in all."""
    head = '<meta charset="utf-8"><meta name="viewport" content="width=device-width, initial-scale=1">'
    first = f'<!DOCTYPE html><html lang="en">{head}<title>{escape(device)}: LACP and Marker protocol</title><style>{STYLE}</style>'
    return [first, TIP, f"<h1>{escape(device)}</h1><p><b>{escape(said)}</b></p>"]


def of_nothing(device: str, why: str) -> str:
    """The page of a run in which no test ran."""
    return "\n".join([*beginning(device, f"No test has a result: {why}"), "</html>"]) + "\n"


def as_html(run: Run, titles: dict[str, str], tests: Sequence[Test]) -> str:
    """The whole run as a page, which begins with what failed; `titles` has those of the groups, and `tests` are all that there are."""
    out = [*beginning(run.about.get("device", "device"), summary(run.results)), fails(run.results), unanswered(run.results), late(run.results, run.bench.slack)]
    out.append(rows(run.about.items()))
    if run.shadow:
        differences = "".join(f"<li>packet {it.frame.number}: {escape(it.what)}</li>" for it in run.shadow.differences[:100])
        out.append(f"<h2>Shadow</h2><p>{escape(run.shadow.text)}. A difference is no fail: the standard may leave it open.</p><ul>{differences}</ul>")
    out += ["<h2>Tests</h2>", filters(run.results), '<div class="tests">']
    for group in dict.fromkeys(it.test.group for it in run.results):
        out.append(f"<h2>{group}: {escape(titles.get(group, group))}</h2>")
        for it in run.results:
            if it.test.group == group:
                out += section(run.bench, it)
    return "\n".join([*out, "</div>", clauses(run.results, tests), f"<p>{CAVEAT}</p>", "</html>"]) + "\n"
