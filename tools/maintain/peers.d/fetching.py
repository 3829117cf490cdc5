"""Packages of Debian, fetched into a cache folder and unpacked there; nothing is installed."""

from __future__ import annotations

import contextlib
import fcntl
import glob
import os
import shutil
import subprocess
from typing import Iterator, Sequence

from checking import Skipped, command


class Packages:
    """What is unpacked, and the commands and versions in it. What the machine has is taken first."""

    def __init__(self, cache: str, may_fetch: bool, sources: str = "") -> None:
        self.cache, self.may_fetch, self.known = os.path.abspath(cache), may_fetch, False
        self.root = os.path.join(self.cache, "root")
        self.sources = sources  # the lines of a sources.list; those of the machine, where there are none

    @contextlib.contextmanager
    def kept_out(self) -> Iterator[None]:
        """Keeps every other run out of the cache folder meanwhile."""
        with open(f"{self.cache}/lock", "w", encoding="utf-8") as lock:
            fcntl.flock(lock, fcntl.LOCK_EX)
            yield

    def apt(self, name: str, *words: str) -> subprocess.CompletedProcess[str]:
        """One of apt's commands, over lists and archives of our own and the installed packages of the machine, and its sources if none are given."""
        state = [f"Dir::State::Lists={self.cache}/lists", f"Dir::Cache={self.cache}/packages", "Debug::NoLocking=1"]
        state += ["APT::Sandbox::User=root", "APT::Install-Recommends=0"]
        if self.sources:
            state += [f"Dir::Etc::SourceList={self.cache}/sources.list", "Dir::Etc::SourceParts=-"]
        return command(name, *(word for it in state for word in ("-o", it)), *words, cwd=f"{self.cache}/packages/archives")

    def learn(self) -> None:
        """Fetches the lists of packages, once a run."""
        if self.known:
            return
        if not self.may_fetch or not shutil.which("apt-get") or not shutil.which("dpkg-deb"):
            why = "no apt-get in PATH" if self.may_fetch else "nothing is fetched"
            raise Skipped(f"not installed, and {why}")
        for folder in "lists/partial", "packages/archives/partial", "root":
            os.makedirs(f"{self.cache}/{folder}", exist_ok=True)
        with self.kept_out():
            with open(f"{self.cache}/sources.list", "w", encoding="utf-8") as it:
                it.write(self.sources)
            told = self.apt("apt-get", "update")
        if told.returncode:
            raise Skipped(f"apt-get update: {told.stderr.strip()[-200:]}")
        self.known = True

    def names(self, head: str) -> list[str]:
        """The packages whose names begin so."""
        self.learn()
        return sorted(self.apt("apt-cache", "pkgnames", head).stdout.split())

    def needs(self, name: str) -> list[str]:
        """The packages that one needs itself, of those that there are."""
        self.learn()
        lines = self.apt("apt-cache", "depends", "--important", name).stdout.splitlines()
        return [line.split()[-1] for line in lines if line.strip().startswith("Depends:") and "<" not in line]

    def fetch(self, *names: str, alone: Sequence[str] = ()) -> None:
        """Fetches and unpacks packages with what they need, and some alone; what is unpacked already is not fetched again."""
        done = os.path.join(self.cache, f"{'-'.join(names)[:80]}.done")
        if not os.path.exists(done):
            self.learn()
            with self.kept_out():
                self.fetch_new(names, alone, done)

    def fetch_new(self, names: Sequence[str], alone: Sequence[str], done: str) -> None:
        """Fetches and unpacks them, where no other run did so meanwhile; no archive is unpacked twice, as its programs may run."""
        if os.path.exists(done):
            return
        for words in ["install", "--yes", "--download-only", *names], ["download", *alone]:
            told = self.apt("apt-get", *words) if len(words) > 1 else None
            if told and told.returncode:
                raise Skipped(f"apt-get {' '.join(words)[:60]}: {told.stderr.strip()[-200:]}")
        for archive in glob.glob(f"{self.cache}/packages/archives/*.deb"):
            if os.path.exists(f"{archive}.unpacked"):
                continue
            told = subprocess.run(["dpkg-deb", "-x", archive, self.root], capture_output=True, text=True)
            if told.returncode:
                raise Skipped(f"{os.path.basename(archive)} cannot be unpacked: {told.stderr.strip()[-200:]}")
            open(f"{archive}.unpacked", "w", encoding="utf-8").close()
        open(done, "w", encoding="utf-8").close()

    def path(self, name: str) -> str | None:
        """The file of a command, of the machine or unpacked, once no other run unpacks any."""
        found = shutil.which(name) or shutil.which(name, path="/usr/lib/openvswitch-switch")
        if found or not os.path.isdir(self.root):
            return found
        with self.kept_out():
            return shutil.which(name, path=":".join(f"{self.root}/{it}" for it in ("usr/sbin", "usr/bin", "sbin", "bin", "usr/lib/openvswitch-switch")))

    def program(self, name: str) -> str:
        """The file of a command that has to be here."""
        path = self.path(name)
        if not path:
            raise Skipped(f"no command {name}")
        return path

    def environment(self) -> dict[str, str]:
        """What the unpacked commands are run with, so that they find their libraries."""
        libraries = glob.glob(f"{self.root}/usr/lib/*-linux-gnu*") + glob.glob(f"{self.root}/lib/*-linux-gnu*")
        return {**os.environ, "LD_LIBRARY_PATH": ":".join(libraries)}
