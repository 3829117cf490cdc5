"""The bonding driver of Linux with the library in the place of its LACP: the module of one kernel, and a package that builds it for each kernel (DKMS)."""

from __future__ import annotations

import glob
import hashlib
import os
import re
import shutil
import subprocess
from typing import NamedTuple

from building import HOSTS, SHARED, begins, done, once
from fetched import Sources
from library import HEADER, PORTABLE
from repository import TOP, Missing, read_bytes, read_text, say, write_text

NAME, PACKAGE = "bonding", "niw-bonding-dkms"
FOLDER = os.path.join(HOSTS, NAME)
SCRIPTS = "postinst", "prerm", "postrm", "for-kernel", "hook"


class Kernel(NamedTuple):
    """A kernel, the folder that its modules are built with, its sources (a tree or an archive), and more words for make."""

    release: str
    build: str
    sources: str
    words: tuple[str, ...] = ()


def packed_in(sources: Sources, folder: str, name: str, seen: set[str]) -> None:
    """Unpacks a package of headers, and those that it needs of its own kernel."""
    file = sources.package(name)
    if not file:
        raise Missing(f"apt has no {name}: --kernel names a kernel of which it has the headers, or install them")
    subprocess.run(["dpkg-deb", "-x", file, folder], check=True)
    needs = subprocess.run(["dpkg-deb", "-f", file, "Depends"], capture_output=True, text=True, check=True).stdout
    for it in re.findall(r"\b(linux-(?:headers|kbuild)-[^ ,]+)", needs):
        if it not in seen:
            seen.add(it)
            packed_in(sources, folder, it, seen)


def headers(sources: Sources, release: str) -> str:
    """The folder that modules of a kernel are built with: that of this machine, or of the headers that apt has."""
    installed = f"/lib/modules/{release}/build"
    if os.path.isdir(f"{installed}/include"):
        return installed
    folder = f"{sources.cache}/headers/{release}"
    build = f"{folder}/usr/src/linux-headers-{release}"
    if not os.path.isdir(build):
        for it in folder, f"{folder}.part":
            shutil.rmtree(it, ignore_errors=True)
        os.makedirs(f"{folder}.part")
        packed_in(sources, f"{folder}.part", f"linux-headers-{release}", set())
        os.rename(f"{folder}.part", folder)
        makefile = read_text(f"{build}/Makefile")
        write_text(f"{build}/Makefile", makefile.replace("include /usr/src/", f"include {folder}/usr/src/"))
    return build


def version_of(build: str) -> str:
    """The version of the kernel that headers are of."""
    text = read_text(f"{build}/include/generated/uapi/linux/version.h")
    return ".".join(re.findall(r"^#define LINUX_VERSION_(?:MAJOR|PATCHLEVEL|SUBLEVEL) (\d+)$", text, re.M))


def archive_of(sources: Sources, series: str) -> str:
    """The archive of the sources of a series, installed or fetched."""
    name = f"linux-source-{series}"
    installed = f"/usr/src/{name}.tar.xz"
    if os.path.exists(installed):
        return installed
    file = sources.package(name)
    if not file:
        raise Missing(f"apt has no {name}, of which the driver's other files are taken")
    folder = f"{sources.cache}/{os.path.basename(file).removesuffix('.deb')}"
    made = f"{folder}/usr/src/{name}.tar.xz"
    if not os.path.exists(made):
        for it in folder, f"{folder}.part":
            shutil.rmtree(it, ignore_errors=True)
        os.makedirs(f"{folder}.part")
        subprocess.run(["dpkg-deb", "-x", file, f"{folder}.part"], check=True)
        os.rename(f"{folder}.part", folder)
    return made


def kernel_of(sources: Sources, release: str) -> Kernel:
    """A kernel of Debian."""
    build = headers(sources, release)
    return Kernel(release, build, archive_of(sources, ".".join(version_of(build).split(".")[:2])))


def files() -> list[str]:
    """What the module is made of, but the driver's other files."""
    ours = [it for name in ("*.c", "*.h", "Makefile", "prepare", "compat/*") for it in sorted(glob.glob(f"{FOLDER}/{name}"))]
    return [*ours, PORTABLE, HEADER, f"{SHARED}/lag_end.h"]


def lay(folder: str) -> None:
    """Lays what the module is made of into a folder."""
    shutil.rmtree(folder, ignore_errors=True)
    for it in files():
        place = os.path.relpath(it, FOLDER) if it.startswith(f"{FOLDER}/") else os.path.basename(it) if it == PORTABLE else f"lag/{os.path.basename(it)}"
        os.makedirs(os.path.dirname(f"{folder}/{place}"), exist_ok=True)
        shutil.copy(it, f"{folder}/{place}")


def module(kernel: Kernel, folder: str, own: bool, jobs: int) -> str:
    """Builds the module in a folder, with the library or as it is; answers its file."""
    log = f"{folder}.log"
    lay(folder)
    begins(log)
    done([f"{folder}/prepare", kernel.build], folder, log, NIW_BONDING_SOURCE=kernel.sources)
    if own:
        as_it_is(kernel, folder, log)
    done(["make", f"-j{jobs}", "-C", kernel.build, f"M={folder}", *kernel.words, "CONFIG_DEBUG_INFO_BTF_MODULES=", "modules"], folder, log)
    return f"{folder}/bonding.ko"


def as_it_is(kernel: Kernel, folder: str, log: str) -> None:
    """Puts the kernel's own LACP into its place again."""
    if os.path.isdir(kernel.sources):
        shutil.copy(f"{kernel.sources}/drivers/net/bonding/bond_3ad.c", folder)
    else:
        done(["tar", "-x", "-f", kernel.sources, "-C", folder, "--strip-components=4", "--wildcards", "*/drivers/net/bonding/bond_3ad.c"], folder, log)
    shutil.rmtree(f"{folder}/include")
    objects = " ".join(f"bond_{it}.o" for it in ("main", "3ad", "alb", "sysfs", "sysfs_slave", "debugfs", "netlink", "options"))
    write_text(f"{folder}/Makefile", f"obj-m := bonding.o\nbonding-y := {objects}\nbonding-$(CONFIG_PROC_FS) += bond_procfs.o\n")


def stamp(*words: str) -> str:
    """What is made of our files, in a word."""
    of = hashlib.sha256(repr(words).encode())
    for path in [*files(), *sorted(glob.glob(f"{FOLDER}/package/*")), os.path.abspath(__file__), f"{FOLDER}/README.md"]:
        of.update(path.encode() + (read_bytes(path) if os.path.isfile(path) else b""))
    return of.hexdigest()


def package(folder: str, out: str) -> str:
    """Makes the package, which has no file of the kernel."""
    version = read_text(f"{TOP}/VERSION").strip()
    given = {name: read_text(f"{FOLDER}/package/{name}").replace("@VERSION@", version) for name in os.listdir(f"{FOLDER}/package")}
    source = f"usr/src/niw-bonding-{version}"
    places = {"control": "DEBIAN/control", "triggers": "DEBIAN/triggers", "dkms.conf": f"{source}/dkms.conf", "for-kernel": "usr/lib/niw-bonding/for-kernel", "hook": "etc/kernel/postinst.d/niw-bonding",
              **{it: f"DEBIAN/{it}" for it in ("postinst", "prerm", "postrm")}}  # fmt: skip
    shutil.rmtree(folder, ignore_errors=True)
    lay(f"{folder}/{source}")
    for name, place in [*places.items(), ("hook", "etc/kernel/header_postinst.d/niw-bonding")]:
        os.makedirs(os.path.dirname(f"{folder}/{place}"), exist_ok=True)
        write_text(f"{folder}/{place}", given[name])
        os.chmod(f"{folder}/{place}", 0o755 if name in SCRIPTS else 0o644)
    os.makedirs(f"{folder}/usr/share/doc/{PACKAGE}")
    shutil.copy(f"{FOLDER}/README.md", f"{folder}/usr/share/doc/{PACKAGE}")
    write_text(f"{folder}/DEBIAN/conffiles", "".join(f"/etc/kernel/{it}.d/niw-bonding\n" for it in ("postinst", "header_postinst")))
    os.makedirs(out, exist_ok=True)
    made = f"{out}/{PACKAGE}_{version}_all.deb"
    done(["dpkg-deb", "--root-owner-group", "-b", folder, made], "/", f"{folder}.log")
    return made


def make(sources: Sources, release: str, own: bool, only_module: bool, out: str, jobs: int) -> None:
    """What the tool does: the module of a kernel, and the package."""
    folder = f"{sources.cache}/{'own' if own else 'built'}/{NAME}-{release}"
    kernel = kernel_of(sources, release)
    once(folder, stamp(kernel.build, kernel.sources, version_of(kernel.build)), lambda: module(kernel, folder, own, jobs))
    if own or only_module:
        print(folder)
        return
    say(f"the module of Linux {release}: {folder}/bonding.ko")
    made = os.path.relpath(package(f"{sources.cache}/packed/{NAME}", out))
    needed = f"linux-source-{'.'.join(version_of(kernel.build).split('.')[:2])} linux-headers-{release}"
    print(f"Made {made}\nTo install:  apt install ./{made} {needed}\n             modprobe -r bonding; modprobe bonding     # takes all bonds away; or boot\n"
          f"To go back:  apt purge {PACKAGE}\n             modprobe -r bonding; modprobe bonding")  # fmt: skip
