"""What tools/script does: rounds, waits and repeats of a shorter script become the entries of a script."""

import re
import tomllib
from collections.abc import Iterator
from typing import Any

from playing import Play

MOST_ROUNDS = 1000
# How often each end of a cable is asked in a round: an LACPDU goes before a marker.
ASKED = 2
ROUND = re.compile(r"round ([0-9]+)")
UNTIL = re.compile(r"until ([0-9]+) same(?: ([0-9]+))?")
TICK = re.compile(r"tick ([12]) ([0-9]+)")
REPLY = re.compile(r"[0-9]+ .* -> (.*)")
AGREEMENT = re.compile(r"cable ([0-9]+) agreement (.*)")
# A MAC address of a table: twelve hexadecimal digits in pairs joined by `:` or `-`, in fours joined by `.`, or alone.
ADDRESS = re.compile(r"""(?<![\w-])(mac\s*=\s*)(["'])((?:[0-9a-fA-F]{2}([:-])(?:[0-9a-fA-F]{2}\4){4}|[0-9a-fA-F]{4}\.[0-9a-fA-F]{4}\.[0-9a-fA-F]{2}|[0-9a-fA-F]{10})[0-9a-fA-F]{2})\2""")
# The replies of events that did nothing.
IDLE = ("nothing", "empty")


class Refused(Exception):
    """Why a text is no shorter script."""


class Longer:
    """A shorter script: the text before its events, the events so far, and its tables."""

    def __init__(self, text: str, play: Play) -> None:
        self.play = play
        try:
            table = tomllib.loads(text)
        except tomllib.TOMLDecodeError as why:
            raise Refused(str(why)) from None
        self.wanted = table.get("events", [])
        if not isinstance(self.wanted, list):
            raise Refused("events is no array")
        self.ends = [self.ends_of(place, cable) for place, cable in enumerate(table.get("cable", []), 1)]
        begin = re.search(r"^\[\[?[a-z]", text, re.M)
        if not begin:
            raise Refused("it has no table of a system")
        self.head = "".join(line for line in text.splitlines(keepends=True)[:2] if line.startswith("#"))
        self.tables = ADDRESS.sub(with_hyphens, text[begin.start():])
        self.events: list[str] = []

    @staticmethod
    def ends_of(place: int, cable: Any) -> tuple[int, int]:
        match cable:
            case {"ends": [int(one), int(two)]}:
                return one, two
        raise Refused(f"cable {place}: ends")

    def script(self) -> str:
        """The whole script; the events are those of the shorter one, in their order."""
        for place, entry in enumerate(self.wanted, 1):
            self.add(entry, f"event {place}")
        return self.written(self.events)

    def written(self, events: list[str]) -> str:
        lines = "".join(f'    "{event}",\n' for event in joined(events))
        return f"{self.head}\nevents = [\n{lines}]\n\n{self.tables}"

    def add(self, entry: Any, place: str) -> None:
        """Adds what one entry stands for."""
        match entry:
            case str() if found := ROUND.fullmatch(entry):
                for _ in range(int(found[1])):
                    self.round()
            case str() if found := UNTIL.fullmatch(entry):
                self.until(int(found[1]), int(found[2] or MOST_ROUNDS), place)
            case str():
                self.events.append(entry)
            case {"times": int(times), "events": list(inner), **rest} if not rest:
                for _ in range(times):
                    for inside, each in enumerate(inner, 1):
                        self.add(each, f"{place}, event {inside}")
            case _:
                raise Refused(f"{place}: neither a text nor a table of times and events")

    def report(self, events: list[str]) -> list[str]:
        """The lines of the report of these events."""
        text = f"events = [{', '.join(chr(34) + it + chr(34) for it in events)}]\n{self.tables}"
        played = self.play(text)
        if played.status:
            raise Refused(played.said.strip().rpartition("\n")[2].removeprefix("lagtool: "))
        return played.printed.splitlines()

    def acting(self, more: list[str]) -> list[str]:
        """Those of more events, played behind the others, that do something."""
        lines = self.report([*self.events, *more])[len(self.events):len(self.events) + len(more)]
        replies = [found[1] if (found := REPLY.fullmatch(line)) else "" for line in lines]
        return [event for event, reply in zip(more, replies) if reply not in IDLE]

    def round(self) -> None:
        """One healthy round."""
        asked = [f"emit {system} {ends[system - 1]}" for ends in self.ends for system in (1, 2) for _ in range(ASKED)]
        self.events += self.acting(["tick 1 1", "tick 2 1", *asked])
        passes = [f"deliver {cable} {system}" for cable in range(1, len(self.ends) + 1) for system in (1, 2)]
        while passes and (arrived := self.acting(passes)):
            self.events += arrived

    def until(self, cable: int, most: int, place: str) -> None:
        """Healthy rounds until a cable agrees."""
        for _ in range(most + 1):
            found = {it[1]: it[2] for line in self.report(self.events) if (it := AGREEMENT.fullmatch(line))}
            if str(cable) not in found:
                raise Refused(f"{place}: there is no cable {cable}")
            if found[str(cable)] == "same":
                return
            self.round()
        raise Refused(f"{place}: cable {cable} does not agree within {most} rounds")


def with_hyphens(found: re.Match[str]) -> str:
    """The MAC address of a table as a script has it."""
    digits = re.sub("[^0-9a-fA-F]", "", found[3])
    return f"{found[1]}{found[2]}{'-'.join(re.findall('..', digits))}{found[2]}"


def joined(events: list[str]) -> Iterator[str]:
    """The events, where ticks of both systems in turn are one entry of each."""
    ticks = {"1": 0, "2": 0}
    for event in [*events, ""]:
        if found := TICK.fullmatch(event):
            ticks[found[1]] += int(found[2])
            continue
        yield from (f"tick {system} {count}" for system, count in ticks.items() if count)
        ticks = {"1": 0, "2": 0}
        if event:
            yield event
