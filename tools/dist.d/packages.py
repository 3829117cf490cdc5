"""Makes the packages of Debian: the files of each stand below `debian`, and debhelper does the rest."""

from __future__ import annotations

import email.utils
import os
import shutil

from building import File, Parts, version
from library import printed
from packing import date
from processors import Processor
from repository import say, write_bytes, write_text

# What debhelper reads: the package files of this folder, and what is installed.
KEPT = os.path.join(os.path.dirname(os.path.abspath(__file__)), "debian")
# What the packages are made by, with the package of Debian that has it.
WANTED = {"dh": "debhelper", "dh_python3": "dh-python", "dpkg-gensymbols": "dpkg-dev"}
# Where parts stand that Debian has in another place than the archive; LIBRARIES is where those of the processor are.
PLACES = {
    "share/doc/niwhopera/": "usr/share/doc/niwhopera-tools/",
    "lib/python3/": "usr/lib/python3/dist-packages/",
    "lib/systemd/": "lib/systemd/",
    "lib/sysusers.d/": "usr/lib/sysusers.d/",
    "lib/liblag.": "usr/LIBRARIES/liblag.",
    "lib/pkgconfig/": "usr/LIBRARIES/pkgconfig/",
}
# The package that has optional files of the daemon, and where they stand.
OPTIONAL = ("lib/systemd/system/lagd@.service", "usr/share/doc/lagd/examples")
# The users that the unit of the daemon runs as.
USERS = "usr/lib/sysusers.d/lagd.conf"


def is_possible() -> bool:
    """Whether what makes packages is here; a line says what is not."""
    missing = sorted({package for command, package in WANTED.items() if not shutil.which(command)})
    if missing:
        say(f"no packages: install {' '.join(missing)}")
    return not missing


def place(path: str, processor: Processor) -> str:
    """Where a file of the archive stands in Debian."""
    for begins, there in PLACES.items():
        if path.startswith(begins):
            return there.replace("LIBRARIES", processor.libraries) + path[len(begins) :]
    return f"usr/{path}"


def lay(part: File, tree: str, processor: Processor) -> None:
    """Writes a file to install into the tree."""
    path = os.path.join(tree, place(part.path, processor))
    os.makedirs(os.path.dirname(path), exist_ok=True)
    if part.link:
        os.symlink(part.link, path)
        return
    write_bytes(path, part.octets)
    os.chmod(path, 0o755 if part.is_program else 0o644)


def changelog(more: str) -> str:
    """The changelog of the packages: the version, with the date of the commit."""
    when = email.utils.formatdate(date(), usegmt=True).replace("GMT", "+0000")
    what = "  * What changed: CHANGELOG.md in /usr/share/doc/niwhopera-tools."
    return f"niwhopera ({version()}{more}) unstable; urgency=medium\n\n{what}\n\n -- The founders of Niwhopera <founders@niwhopera.invalid>  {when}\n"


def tree_of(parts: Parts, folder: str, more: str) -> str:
    """The folder that debhelper works in."""
    top = os.path.join(folder, "niwhopera")
    files, stage = os.path.join(top, "debian"), os.path.join(top, "stage")
    shutil.copytree(KEPT, files)
    stands = {it.path for it in parts.instead}
    for part in [*(it for it in parts.archive if it.path not in stands), *parts.instead]:
        lay(part, stage, parts.processor)
    write_text(os.path.join(files, "changelog"), changelog(more))
    users = os.path.join(stage, USERS)
    if os.path.exists(users):
        # debhelper installs it, and makes the users when the package is installed.
        shutil.move(users, os.path.join(files, "lagd.sysusers"))
    there = [path for path in OPTIONAL if os.path.exists(os.path.join(stage, path))]
    with open(os.path.join(files, "lagd.install"), "a", encoding="utf-8") as it:
        it.write("".join(f"{path}\n" for path in there))
    return top


def environment(processor: Processor) -> dict[str, str]:
    """What debhelper is to know: the date, which is the same in each run, and the processor."""
    given = {"SOURCE_DATE_EPOCH": str(date()), "DEB_BUILD_OPTIONS": "nocheck noautodbgsym", "DEB_RULES_REQUIRES_ROOT": "no", "LC_ALL": "C.UTF-8"}
    told = printed("dpkg-architecture", f"--host-arch={processor.name}")
    return {**os.environ, **dict(line.split("=", 1) for line in told.splitlines()), **given}


def made(parts: Parts, out: str, folder: str, more: str = "") -> list[str]:
    """Makes the packages, with `more` behind their version; answers their files, none where what makes them is not here. Those that have
    nothing of a processor are made with the ones of amd64."""
    if not is_possible():
        return []
    top = tree_of(parts, folder, more)
    printed("debian/rules", "binary-arch" if parts.processor.prefix else "binary", cwd=top, env=environment(parts.processor))
    os.makedirs(out, exist_ok=True)
    made = sorted(it for it in os.listdir(folder) if it.endswith(".deb"))
    return [shutil.copy(os.path.join(folder, it), os.path.join(out, it)) for it in made]
