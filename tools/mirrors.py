"""From where this machine has packages of Debian, as its own apt is configured: its mirror is what its owner chose."""

from __future__ import annotations

import re
import subprocess
from typing import NamedTuple

from repository import Missing, read_text, want

# The lists of apt that are looked at: those of packages of Debian.
MAIN = "Created-By: Packages", "Component: main", "Origin: Debian"


class Place(NamedTuple):
    """A place that has packages of Debian, the file of the keys that sign them, or "" for those that apt trusts anyway, and a release that it has."""

    uri: str
    keys: str
    release: str

    def line(self, kind: str, release: str, *options: str) -> str:
        """A line of sources.list for another release."""
        said = " ".join([*options, *([f"signed-by={self.keys}"] if self.keys else [])])
        return f"{kind}{f' [{said}]' if said else ''} {self.uri} {release} main\n"


def keys_of(entry: str) -> str:
    """The keys by which an entry of apt's sources is signed, as FILE:NUMBER names it; "" for those that apt trusts anyway."""
    path, _, number = entry.rpartition(":")
    try:
        text = read_text(path)
    except OSError:
        return ""
    if path.endswith(".sources"):
        parts, pattern = re.split(r"\n(?:[ \t]*\n)+", text.strip()), r"^Signed-By:[ \t]*(\S+)$"
    else:
        parts, pattern = text.splitlines(), r"signed-by=([^\] ,]+)"
    found = re.search(pattern, parts[int(number) - 1] if number.isdigit() and 0 < int(number) <= len(parts) else "", re.M | re.I)
    return found.group(1) if found else ""


def places() -> list[Place]:
    """The places, as apt has them; there is one at least."""
    want("apt-get")
    words = ["apt-get", "indextargets", "--format", "$(REPO_URI) $(CODENAME) $(SOURCESENTRY)", *MAIN]
    told = subprocess.run(words, stdin=subprocess.DEVNULL, capture_output=True, text=True)
    rows = [line.split() for line in told.stdout.splitlines() if len(line.split()) == 3]
    if not rows:
        raise Missing("apt names no place that has packages of Debian: see its sources.list(5)")
    return [Place(uri, keys_of(entry), release) for uri, release, entry in rows]


def main_place() -> Place:
    """The first of them that is not of security updates, which has all releases."""
    every = places()
    return next((it for it in every if "security" not in it.uri and not it.release.endswith("-security")), every[0])
