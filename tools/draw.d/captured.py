"""Reads the records of `lagtool --json capture`, by the fields that docs/COMMAND.md has, and picks one link of them."""

from __future__ import annotations

import json
from typing import Literal, NamedTuple, TypedDict, Union

from report import Unread

# Of each kind of record, the fields that are drawn.
FIELDS: dict[str, list[str]] = {
    "frame": ["packet", "seconds", "interface", "source", "kind"],
    "link": [],
    "end": ["interface", "source", "port"],
    "finding": ["rule", "name", "end", "packet"],
    "counts": ["packets", "slow", "ends", "findings"],
}


class Party(TypedDict):
    """One end of a link, as an LACPDU names it."""

    system: str
    port: str
    state: int


class Placed(TypedDict):
    """What comes from a place, or is one."""

    interface: int
    source: str


class Frame(Placed):
    """What the records of all frames have. The seconds are null where the capture has no time."""

    record: Literal["frame"]
    packet: int
    seconds: float | None


class Lacpdu(Frame):
    """The record of an LACPDU."""

    kind: Literal["lacpdu"]
    actor: Party
    partner: Party


class Marker(Frame):
    """The record of a marker or of the response to one."""

    kind: Literal["marker", "marker-response"]
    id: int


class Refused(Frame):
    """The record of a frame whose payload is neither, and why."""

    kind: Literal["refused"]
    fault: str


class Sender(Placed):
    """The record of an end that sent LACPDUs."""

    record: Literal["end"]
    port: int


class Finding(TypedDict):
    """The record of what is found of an end, at the first packet that shows it."""

    record: Literal["finding"]
    rule: int
    name: str
    end: Placed
    packet: int


class Counts(TypedDict):
    """The last record: how many packets, frames, ends and findings there are."""

    record: Literal["counts"]
    packets: int
    slow: int
    ends: int
    findings: int


Captured = Union[Lacpdu, Marker, Refused]
Record = Union[Captured, Sender, Finding, Counts]


class Place(NamedTuple):
    """Where frames come from: an interface of the capture and a source address."""

    interface: int
    source: str


class Link(NamedTuple):
    """One link of a capture: its two ends, of which the second may not be heard; its frames and findings; and the counts."""

    ends: tuple[Place, Place | None]
    frames: list[Captured]
    findings: list[Finding]
    counts: Counts
    left_out: int


def place_of(record: Placed) -> Place:
    return Place(record["interface"], record["source"])


def records_in(text: str) -> tuple[list[Record], Counts]:
    """Each line as a record; and the last one, which has the counts."""
    records: list[Record] = []
    for number, line in enumerate(text.splitlines(), 1):
        try:
            record = json.loads(line)
            missing = [it for it in FIELDS[record["record"]] if it not in record]
        except (ValueError, KeyError, TypeError):
            raise Unread(f"line {number} is no record of a capture") from None
        if missing:
            raise Unread(f"line {number} has no {missing[0]}")
        records.append(record)
    last = records[-1] if records else None
    if not last or last["record"] != "counts":
        raise Unread("the last line is no record of the counts")
    return records, last


def named(info: Party) -> tuple[str, str]:
    """System and port of one end, as an LACPDU names them."""
    return info["system"], info["port"]


def partner_of(place: Place, frames: list[Captured]) -> Place | None:
    """Where the end is that a place's LACPDUs name, or that names this place; the first on the same interface."""
    lacpdus = [it for it in frames if it["kind"] == "lacpdu"]
    own = [it for it in lacpdus if place_of(it) == place]
    actors, partners = {named(it["actor"]) for it in own}, {named(it["partner"]) for it in own}
    for it in lacpdus:
        there = place_of(it)
        if there != place and there.interface == place.interface:
            if named(it["actor"]) in partners or named(it["partner"]) in actors:
                return there
    return None


def link_in(text: str, source: str | None) -> Link:
    """The link of this source address; without one, that of the first frame."""
    records, counts = records_in(text)
    frames = [it for it in records if it["record"] == "frame"]
    places = [place_of(it) for it in frames if source in (None, it["source"])]
    if not places:
        raise Unread("no frame is to be drawn")
    ends = (places[0], partner_of(places[0], frames))
    of_link = [it for it in frames if place_of(it) in ends]
    findings = [it for it in records if it["record"] == "finding" and place_of(it["end"]) in ends]
    return Link(ends, of_link, findings, counts, len(frames) - len(of_link))
