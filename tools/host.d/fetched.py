"""Sources and packages of Debian, fetched by apt from where this machine has its packages, into a cache folder. Nothing is installed."""

from __future__ import annotations

import glob
import os
import shutil
import subprocess
from typing import Iterable, NamedTuple

import mirrors
from repository import Missing, say, want

# The releases whose sources are looked through, beside those of the machine's own packages.
RELEASES = "stable", "testing", "unstable"


def newest_first(versions: Iterable[str]) -> list[str]:
    """Versions of a package, as dpkg compares them."""
    found = list(versions)
    for at in range(len(found)):
        for other in range(at + 1, len(found)):
            if not subprocess.run(["dpkg", "--compare-versions", found[at], "lt", found[other]]).returncode:
                found[at], found[other] = found[other], found[at]
    return found


class Source(NamedTuple):
    """The sources of a version: the archive of its authors, and the description of Debian's whole source package, or "" if some of it is not to be had."""

    name: str
    version: str
    original: str
    described: str


class Sources:
    """What apt finds, with lists and archives of our own."""

    def __init__(self, cache: str, may_fetch: bool) -> None:
        self.cache, self.may_fetch, self.known = cache, may_fetch, False
        # What apt told of the places whose lists it did not take.
        self.refused: list[str] = []
        for folder in "apt/lists/partial", "apt/sources.list.d", "apt/archives/partial", "sources":
            os.makedirs(f"{cache}/{folder}", exist_ok=True)

    def apt(self, name: str, *words: str, sources: bool = True, cwd: str | None = None) -> subprocess.CompletedProcess[str]:
        """One of apt's commands; over the lists of sources, or over those of the packages of the machine."""
        own = {"Dir::State::Lists": "lists", "Dir::Etc::SourceParts": "sources.list.d", "Dir::Cache": "."} if sources else {}
        options = [f"{key}={self.cache}/apt/{place}" for key, place in own.items()] + ["APT::Sandbox::User=root"]
        options += ["Dir::Etc::SourceList=/dev/null"] if sources else []
        want(name)
        return subprocess.run([name, *(word for it in options for word in ("-o", it)), *words], stdin=subprocess.DEVNULL, capture_output=True, text=True, cwd=cwd)

    def learn(self) -> None:
        """Fetches the lists of sources, once a run: of each place from which the machine has packages of Debian."""
        if self.known or not self.may_fetch:
            return
        lines = dict.fromkeys(place.line("deb-src", release) for place in mirrors.places() for release in (place.release, *RELEASES))
        with open(f"{self.cache}/apt/sources.list.d/all.list", "w", encoding="utf-8") as it:
            it.writelines(lines)
        # A place that has no such release fails alone.
        told = self.apt("apt-get", "update").stderr
        self.refused = [line for line in told.splitlines() if line.startswith("E: ")]
        self.known = True

    def versions(self, name: str) -> list[str]:
        """The versions of a source package that are listed, the newest first."""
        self.learn()
        told = self.apt("apt-cache", "showsrc", "--only-source", name).stdout.splitlines()
        return newest_first(dict.fromkeys(line.split()[1] for line in told if line.startswith("Version: ")))

    def files(self, name: str, version: str) -> Source:
        """Fetches what there is of a version; apt compares the sums."""
        place = f"{self.cache}/sources/{name}_{version}"
        os.makedirs(place, exist_ok=True)
        told = self.apt("apt-get", "source", "--download-only", f"{name}={version}", cwd=place) if self.may_fetch else None
        described = glob.glob(f"{place}/*.dsc")
        original = [it for it in glob.glob(f"{place}/*.orig.tar.*") if not it.endswith(".asc")]
        whole = told is None or told.returncode == 0
        packaging = glob.glob(f"{place}/*.debian.tar.*")
        return Source(name, version, original[0] if original else "", described[0] if whole and described and packaging else "")

    def of(self, name: str, version: str | None, wants_packaging: bool) -> Source:
        """The newest version that is there as it is wanted."""
        missing = []
        known = [os.path.basename(it).split("_", 1)[1] for it in glob.glob(f"{self.cache}/sources/{name}_*")]
        for it in [version] if version else (self.versions(name) if self.may_fetch else newest_first(known)):
            source = self.files(name, it)
            if source.original and (source.described or not wants_packaging):
                say(f"{name} {it}: " + ("with Debian's packaging" if wants_packaging else "the archive of its authors, without patches of a package"))
                return source
            missing.append(it)
        listed = f" (listed: {', '.join(missing)})" if missing else ""
        raise Missing("\n  ".join([f"apt has no whole sources of {name}{listed}", *self.refused]))

    def package(self, name: str) -> str:
        """The file of the machine's own version of a package, fetched; "" where apt has none."""
        place = f"{self.cache}/packages"
        os.makedirs(place, exist_ok=True)
        if self.may_fetch:
            for old in glob.glob(f"{place}/{name}_*.deb"):
                os.remove(old)
            self.apt("apt-get", "download", name, sources=False, cwd=place)
        found = glob.glob(f"{place}/{name}_*.deb")
        return found[0] if found else ""

    def candidate(self, name: str) -> str:
        """The version of a package that this machine would install from its sources, as it is without ours."""
        told = self.apt("apt-cache", "madison", name, sources=False).stdout.splitlines()
        return told[0].split("|")[1].strip() if told else ""


def unpacked(source: Source, folder: str, with_packaging: bool) -> str:
    """A fresh tree of the sources."""
    shutil.rmtree(folder, ignore_errors=True)
    # dpkg-source puts a copy of the archive beside the tree.
    os.makedirs(os.path.dirname(folder), exist_ok=True)
    if with_packaging:
        words = ["dpkg-source", "--no-check", "-x", source.described, folder]
    else:
        os.makedirs(folder)
        words = ["tar", "-x", "-f", source.original, "-C", folder, "--strip-components=1"]
    want(words[0])
    ended = subprocess.run(words, stdin=subprocess.DEVNULL, capture_output=True, text=True)
    if ended.returncode:
        raise Missing(f"{source.name} is not unpacked: {ended.stderr.strip()[-400:]}")
    return folder
