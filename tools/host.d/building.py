"""How a host is built and packed: what both have in common."""

from __future__ import annotations

import glob
import hashlib
import os
import pathlib
import re
import shutil
import subprocess
from typing import Callable, NamedTuple

from fetched import Source, Sources
from library import HEADER, PORTABLE, PORTABLE_SHOWS, archive, one_object, portable, proved
from repository import TOP, Missing, read_bytes, read_text, say, want, write_text

HOSTS = os.path.join(TOP, "hosts")
SHARED = os.path.join(HOSTS, "shared")


class Order(NamedTuple):
    """What packages are made of: the sources, the archives to link, the folder to build in, jobs, the folder of the packages, and their version."""

    source: Source
    archives: list[str]
    folder: str
    jobs: int
    out: str
    version: str


class Host(NamedTuple):
    """A host: its source package, whether it is built with Debian's packaging, and what is done."""

    source: str
    wants_packaging: bool
    # The packages that a build wants, as Build-Depends has them.
    wants: Callable[[Source], str]
    # Builds it, with these archives or as it is, in this folder, with so many jobs; answers the folder of the build.
    build: Callable[[Source, list[str], str, int], str]
    # Makes the packages.
    pack: Callable[[Sources, Order], list[str]]
    # The packages that it takes the place of, with their versions.
    before: Callable[[Sources], dict[str, str]]
    # The version of the sources to take; None: the newest one.
    version: Callable[[Sources], str | None] = lambda _: None


def archives(folder: str) -> list[str]:
    """The library to link a host with: that of LAG_FOLDER, or one made in this folder, of LIBRARY, of c/lag.c, or of the proved crate."""
    if "LAG_FOLDER" in os.environ:
        return [os.path.abspath(os.path.join(os.environ["LAG_FOLDER"], "liblag.a"))]
    of_c = os.path.exists(PORTABLE) and "LIBRARY" not in os.environ
    folder = os.path.join(folder, "portable" if of_c else "proved")
    made = os.path.join(folder, "liblag.a")
    # The command is called once for each host, and for each way to build it.
    if of_c and os.path.exists(made) and os.path.getmtime(made) > max(os.path.getmtime(it) for it in (PORTABLE, HEADER)):
        return [made]
    os.makedirs(folder, exist_ok=True)
    return [archive(folder, portable(folder) if of_c else one_object(folder, proved(folder)))]


def library_of(archive: str) -> str:
    """Which of the two libraries an archive has: that of c/lag.c shows a name that says so."""
    translated = PORTABLE_SHOWS.encode() in read_bytes(archive)
    return "liblag of c/lag.c (C, translated from the proved sources; the translation is tested)" if translated else "the native liblag (compiled by rattle from the proved sources)"


def need(packages: str) -> None:
    """Stops the tool where packages are missing that a build wants, in the form of Build-Depends: one line installs all of them."""
    lacking = f"build-essential, {packages}"
    if shutil.which("dpkg-checkbuilddeps"):
        told = subprocess.run(["dpkg-checkbuilddeps", "-d", packages, os.devnull], capture_output=True, text=True, env={**os.environ, "LC_ALL": "C"})
        lacking = told.stderr.strip().split("dependencies: ")[-1] if told.returncode else ""
    names = re.sub(r" *(\([^)]*\)|\[[^]]*\]|<[^>]*>|:native|\|[^,]*)|,", " ", lacking).split()
    if names:
        raise Missing(f"the build lacks packages:\n    apt install --no-install-recommends {' '.join(names)}")


def done(words: list[str], cwd: str, log: str, **environment: str) -> None:
    """Runs a step of a build; its output stands in a file."""
    if not words[0].startswith("."):
        want(words[0])
    with open(log, "a", encoding="utf-8") as out:
        print("$", *words, file=out, flush=True)
        ended = subprocess.run(words, cwd=cwd, stdin=subprocess.DEVNULL, stdout=out, stderr=subprocess.STDOUT, env={**os.environ, **environment})
    if ended.returncode:
        with open(log, encoding="utf-8", errors="replace") as told:
            last = told.read().splitlines()[-8:]
        raise Missing("\n  ".join([f"{' '.join(words)[:120]} failed; all of it: {log}", *last]))


def begins(log: str) -> None:
    """Says where the words of a build stand, which takes minutes; those of an earlier one go."""
    if os.path.exists(log):
        os.remove(log)
    say(f"builds for some minutes; what that prints is in {log}")


def exchange(ours: str, theirs: str) -> None:
    """Puts a file of ours in the place of one of the host, with the headers that it includes beside it."""
    if not os.path.exists(theirs):
        raise Missing(f"the sources have no {theirs}")
    shutil.copy(ours, theirs)
    for header in [*glob.glob(f"{os.path.dirname(ours)}/*.h"), *glob.glob(f"{SHARED}/*.h"), HEADER]:
        shutil.copy(header, os.path.dirname(theirs))


def stamp(name: str, source: Source, linked: list[str], version: str = "") -> str:
    """What a build is made of, in a word: the sources, the archives, our files, the tool, and the words of the environment; of packages, which have the page of
    the host, with their version."""
    of = hashlib.sha256(repr([source.version, version, *(os.environ.get(it) for it in ("CFLAGS", "CC"))]).encode())
    places = *(f"{HOSTS}/{name}/*.{it}" for it in ("c", "h", "patch", *(["md"] if version else []))), f"{HOSTS}/{name}/tests/*.at", f"{HOSTS}/{name}/tests/*.sed", f"{SHARED}/*.h", *(f"{os.path.dirname(__file__)}/{it}.py" for it in ("building", "fetched", name)), HEADER, *linked
    for path in sorted(it for place in places for it in glob.glob(place) if os.path.isfile(it)):
        of.update(path.encode() + read_bytes(path))
    return of.hexdigest()


def is_built(folder: str, word: str) -> bool:
    """Whether a folder has a whole build of this stamp."""
    try:
        return read_text(f"{folder}.stamp") == word and os.path.isdir(folder)
    except OSError:
        return False


def once(folder: str, word: str, make: Callable[[], object]) -> None:
    """Makes a folder, if it is not of this stamp already. What is stopped meanwhile has no stamp."""
    if is_built(folder, word):
        return
    pathlib.Path(f"{folder}.stamp").unlink(missing_ok=True)
    make()
    write_text(f"{folder}.stamp", word)


def need_file(pattern: str) -> str:
    """The one file of this pattern."""
    found = glob.glob(pattern)
    if len(found) != 1:
        raise Missing(f"there is no {pattern}")
    return found[0]


def architecture() -> str:
    return subprocess.run(["dpkg", "--print-architecture"], capture_output=True, text=True).stdout.strip()


def control_of(tree: str, order: Order, package: str, says: str) -> None:
    """Gives a package its version, and says what it has; stops the tool where it is of other sources."""
    path = f"{tree}/DEBIAN/control"
    control = read_text(path)
    packed = re.search(r"^Version: (.*)$", control, re.M)
    if not packed or re.sub(r"\+b\d+$", "", packed.group(1).split("+niw")[0]) != order.source.version:
        raise Missing(f"the {package} that apt has is not of the sources {order.source.version}: --version names others")
    control = re.sub(r"^Version: .*$", f"Version: {order.version}", control, flags=re.M)
    write_text(path, control.rstrip("\n") + f"\n .\n {says}\n")


def repacked(sources: Sources, order: Order, package: str, says: str, log: str, change: Callable[[str], None]) -> str:
    """A package of this machine with what is changed in its tree, and another version; answers its file."""
    given = sources.package(package)
    if not given:
        raise Missing(f"apt has no package {package}, of which all else is taken")
    tree = f"{order.folder}.package"
    shutil.rmtree(tree, ignore_errors=True)
    done(["dpkg-deb", "-R", given, tree], "/", log)
    control_of(tree, order, package, says)
    change(tree)
    files = sorted(os.path.relpath(os.path.join(at, name), tree) for at, _, names in os.walk(tree) for name in names if not os.path.islink(os.path.join(at, name)))
    sums = subprocess.run(["md5sum", "--", *(it for it in files if not it.startswith("DEBIAN/"))], cwd=tree, capture_output=True, text=True)
    write_text(f"{tree}/DEBIAN/md5sums", sums.stdout)
    made = f"{order.out}/{package}_{order.version.split(':')[-1]}_{architecture()}.deb"
    done(["dpkg-deb", "--root-owner-group", "-b", tree, made], "/", log)
    return made


def before(names: tuple[str, ...]) -> Callable[[Sources], dict[str, str]]:
    """What the machine would install of these packages without ours."""
    return lambda sources: {name: version for name in names if (version := sources.candidate(name))}
