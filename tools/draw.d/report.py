"""Reads a report of `lagtool replay`, by the lines that docs/COMMAND.md has."""

from __future__ import annotations

import re

S, N = "(?P<system>[12])", r"(?:0|[1-9]\d*)"
CABLE, PORT = f"(?P<cable>{N})", f"(?P<port>{N})"
KEPT = "(?P<kept>sent|lost)"
DELIVERED = f"took|responded (?:sent|lost)|released {N}|up {N}|dropped|disabled|ignored|empty"
# Of each entry, its words behind the first, and its replies beside the refusals.
ENTRIES = {
    "tick": (f"{S} {N}", "ticked"),
    "emit": (f"{S} {PORT}", f"lacpdu (?P<lacpdu>[0-9a-f]{{2}}) {KEPT}|marker (?P<marker>{N}) {KEPT.replace('kept', 'kept_too')}|nothing"),
    "deliver": (f"{CABLE} {S}", DELIVERED),
    "lose": (f"{CABLE} {S}", "lost|empty"),
    "repeat": (f"{CABLE} {S}", f"{DELIVERED}|not control"),
    "cut": (CABLE, "cut"),
    "join": (CABLE, "joined"),
    "sense": (f"{CABLE} {S}", "up|down"),
    "restart": (S, "restarted"),
    "configure": (f"{S} {N} {N} {N} (?:aggregatable|individual)", "configured|unchanged"),
    "offer": (f"{S} (?P<agg>{N}) (?P<hex>(?:[0-9a-f]{{2}})*)", f"port {PORT} serial (?P<serial>{N}) {KEPT}"),
    "move": (f"{S} {N} {N} {N}", "moved"),
    "force": (f"{S} {N} {N}", "forced"),
}
# A refusal has the number and the name of a fault: docs/COMMAND.md lists them.
REFUSED = rf"refused {N} [a-z]+(?:-[a-z]+)*"
LINES = {word: re.compile(rf"({N}) {word} (?P<rest>{rest}) -> (?P<reply>{reply}|{REFUSED})") for word, (rest, reply) in ENTRIES.items()}
AGREEMENT = re.compile(f"cable ({N}) agreement (?:same|differ|changed|not-both|defaults)")
FLOW = re.compile(rf"flow ([12])/({N})/({N}) sent {N} collected (?:none|{N}(?: {N})*)(?: forced)?")


class Unread(Exception):
    """What is no report, and why."""


def number(text: str | None) -> int | None:
    """The number that a part is, if there is such a part."""
    return None if text is None else int(text)


class Entry:
    """An entry: its number, its first word and the others, its reply, and the parts of these that it has, else None. One of a cable
    alone has the system 0."""

    def __init__(self, word: str, found: re.Match[str]) -> None:
        parts: dict[str, str | None] = {"port": None, "cable": None, "system": None, "lacpdu": None, "marker": None, "kept": None, "serial": None}
        parts.update(found.groupdict())
        self.number, self.word, self.rest, self.reply = int(found.group(1)), word, found["rest"], found["reply"]
        self.system = int(parts["system"] or 0)
        self.cable, self.port, self.agg = number(parts["cable"]), number(parts["port"]), number(parts.get("agg"))
        self.lacpdu, self.marker, self.serial = parts["lacpdu"], parts["marker"], parts["serial"]
        self.kept, self.octets = parts["kept"] or parts.get("kept_too"), bytes.fromhex(parts.get("hex") or "")


class Report:
    """The entries of a report, its lines behind them, and the conversations that these name."""

    def __init__(self) -> None:
        self.entries: list[Entry] = []
        self.ends: list[str] = []
        self.flows: set[tuple[int, int, int]] = set()
        self.cables = 0

    def add(self, line: str) -> bool:
        """Takes the next line; answers whether it can stand there."""
        word = line.split(" ")[1] if " " in line else ""
        entry = LINES[word].fullmatch(line) if word in LINES else None
        cable, flow = AGREEMENT.fullmatch(line), FLOW.fullmatch(line)
        if entry and not self.ends and int(entry.group(1)) == len(self.entries) + 1:
            self.entries.append(Entry(word, entry))
            return True
        if cable and not self.flows and int(cable.group(1)) == self.cables + 1:
            self.cables += 1
        elif flow:
            system, aggregator, conversation = map(int, flow.groups())
            self.flows.add((system, aggregator, conversation))
        else:
            return False
        self.ends.append(line)
        return True

    def conversation(self, entry: Entry) -> int:
        """The number of the conversation of a frame that was sent, of 4096 or of 256, as a flow names it."""
        target, source = entry.octets[4:6], entry.octets[10:12]
        number = (int.from_bytes(target, "big") ^ int.from_bytes(source, "big")) & 0xFFF
        return number if (entry.system, entry.agg, number) in self.flows else number & 0xFF


def read(text: str) -> Report:
    """The report that a text is."""
    report = Report()
    lines = text.split("\n")
    if lines[-1] == "":
        lines.pop()
    if not lines:
        raise Unread("the input is empty, and no report")
    for number, line in enumerate(lines, 1):
        if not report.add(line):
            raise Unread(f"line {number} can't stand there in a report: {line[:80]}")
    return report
