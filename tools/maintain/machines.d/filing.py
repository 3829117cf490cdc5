"""Archives of files that a kernel unpacks as it starts (cpio, "newc")."""

from __future__ import annotations

import os
from typing import Iterable, NamedTuple


FILE, LINK = 0o100000, 0o120777


class Entry(NamedTuple):
    """A file by its path without a slash before it; a link, whose octets say where it leads; or a folder, which has no octets."""

    path: str
    octets: bytes | None
    mode: int = FILE | 0o644


def folders_of(entries: list[Entry]) -> list[Entry]:
    """The folders that the entries stand in, outermost first, but for those that are entries themselves."""
    there = {it.path for it in entries}
    found: dict[str, None] = {}
    for entry in entries:
        parts = os.path.dirname(entry.path).split("/")
        found.update((path, None) for path in ("/".join(parts[:n]) for n in range(1, len(parts) + 1)) if path and path not in there)
    return [Entry(path, None) for path in sorted(found)]


def record(number: int, entry: Entry) -> bytes:
    """One entry: its header, its name and its octets, each filled up to a multiple of four."""
    octets, name = entry.octets or b"", entry.path.encode() + b"\0"
    mode = 0o040755 if entry.octets is None else entry.mode
    fields = [number, mode, 0, 0, 1, 0, len(octets), 0, 0, 0, 0, len(name), 0]
    begins = b"070701" + b"".join(b"%08X" % it for it in fields) + name
    return begins + b"\0" * (-len(begins) % 4) + octets + b"\0" * (-len(octets) % 4)


def archive(entries: Iterable[Entry]) -> bytes:
    """The archive of these entries, and of the folders that they stand in."""
    given = list(entries)
    made = b"".join(record(number, it) for number, it in enumerate([*folders_of(given), *given], 1)) + record(0, Entry("TRAILER!!!", b"", 0))
    return made + b"\0" * (-len(made) % 512)
