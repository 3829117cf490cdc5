"""Builds what is installed, and says where each file goes."""

from __future__ import annotations

import os
import re
import shutil
import subprocess
from functools import partial
from typing import NamedTuple

import completion
import documents
import library
import manual
from library import printed
from processors import AMD64, Processor, compile_crate, want_tools
from repository import CRATES, RT, TOOLS, TOP, Missing, make_program, read_bytes, read_text, say, verdict, want


class File(NamedTuple):
    """A file to install: its path below the prefix, its octets, and whether it is a program; or, as a link, what it points to."""

    path: str
    octets: bytes
    is_program: bool = False
    link: str | None = None


class Parts(NamedTuple):
    """What is installed: the files of the archive, those that stand in a package of Debian in their place, and for which processor."""

    archive: list[File]
    instead: list[File]
    processor: Processor


DAEMON = os.path.join(TOP, "lagd")
# Where examples of its configuration are installed.
EXAMPLES = "share/doc/lagd/examples"
# The folder in which the daemon is built for a package, whose name gdb and valgrind would show.
BUILD = os.path.join(TOP, "out", "dist")
# What the programs are for, as the man pages say it.
PROGRAMS = {
    "lagtool": (1, "decode, answer and check slow protocols frames, and replay scripts of two systems"),
    "lagd": (8, "daemon of link aggregation (LACP) for Linux"),
}
# The programs of tools/ that are installed, with the name that they have there, and the modules beside them.
SCRIPTS = {
    "lagframes": ("frames", ["frames.d/captures.py"], "write the slow protocols frames of a capture as lines"),
    "lagdraw": ("draw", ["draw.d/captured.py", "draw.d/report.py"], "draw the report of lagtool replay, or a link of a capture, as a picture"),
}
# The subagent of snmpd, which is built for the processor of this machine alone; and what it is built with, by its package of Debian.
SUBAGENT = "tell SNMP managers of the bundles of lagd"
SUBAGENT_LIBRARIES = {"netsnmp-agent": "libsnmp-dev", "jansson": "libjansson-dev"}
CONFORM = "test the LACP and the Marker protocol of any device at the end of its cable"
# Where the scripts stand.
SHARE = "share/niwhopera-tools"


def version() -> str:
    """The version of the file VERSION."""
    return read_text(os.path.join(TOP, "VERSION")).strip()


def program(name: str, processor: Processor) -> str:
    """A program that is proved and built; what is not yet is proved first. PROGRAMS names a folder that has it already."""
    given = os.environ.get("PROGRAMS")
    if given:
        return os.path.join(given, name)
    say(f"building {name}; what is not yet proved is proved first")
    if processor.prefix:
        return linked(name, processor)
    make_program()
    return os.path.join(CRATES, name, "out", name)


def linked(name: str, processor: Processor) -> str:
    """A program of another processor: what rattle compiles, linked with the C of dist.d/runtime."""
    made = os.path.join(BUILD, name)
    compile_crate(name, f"{made}.o", processor.words)
    parts = [library.runtime_part(it, BUILD, processor) for it in ("memory", "process")]
    printed(processor.compiler, "-pie", "-s", "-Wl,-z,relro,-z,now,-z,noexecstack", "-o", made, f"{made}.o", *parts)
    return made


def daemon(folder: str, lag: str, processor: Processor = AMD64) -> str:
    """The daemon, linked with a library of this path, by its own Makefile in a copy of its folder."""
    shutil.rmtree(folder, ignore_errors=True)
    shutil.copytree(DAEMON, folder, ignore=shutil.ignore_patterns("out"))
    flags = f"-O2 -fPIE -fstack-protector-strong -D_FORTIFY_SOURCE=2 -ffile-prefix-map={folder}=lagd -ffile-prefix-map={TOP}=."
    words = [f"CRATE={CRATES}/lagffi", f"LIBRARY={lag}", "RUNTIME=", f"CFLAGS={flags}", "LDFLAGS=-pie -Wl,-z,relro,-z,now"]
    printed("make", "-s", "-C", folder, f"CC={processor.compiler}", *words, env={**os.environ, **processor.finds})
    return os.path.join(folder, "out", "lagd")


def subagent(folder: str) -> str:
    """The subagent of snmpd, by its own Makefile in a copy of the folder of the daemon, some of whose files it has."""
    lacks = [package for name, package in SUBAGENT_LIBRARIES.items() if subprocess.run(["pkg-config", "--exists", name]).returncode]
    if lacks:
        raise Missing(f"lagd-snmp wants more (Debian: apt install {' '.join(lacks)})")
    shutil.rmtree(folder, ignore_errors=True)
    shutil.copytree(DAEMON, folder, ignore=shutil.ignore_patterns("out"))
    flags = f"-O2 -fPIE -fstack-protector-strong -D_FORTIFY_SOURCE=2 -ffile-prefix-map={folder}=lagd -ffile-prefix-map={TOP}=."
    words = [f"CRATE={CRATES}/lagffi", f"CFLAGS={flags}", "LDFLAGS=-pie -Wl,-z,relro,-z,now"]
    printed("make", "-s", "-C", os.path.join(folder, "snmp"), f"CC={AMD64.compiler}", *words)
    return os.path.join(folder, "snmp", "out", "lagd-snmp")


def of_subagent() -> list[File]:
    """The subagent, and its man page of what it says of itself."""
    made = subagent(os.path.join(BUILD, "snmp"))
    check_versions({"sbin/lagd-snmp": made}, AMD64)
    page = manual.of_help("lagd-snmp", 8, SUBAGENT, version(), printed(made, "--help"))
    return [File("sbin/lagd-snmp", read(made), True), File("share/man/man8/lagd-snmp.8", page.encode())]


def of_build() -> str:
    """What the file BUILD says: the commit, the toolchain, and the last line of the test command for its crates, as tools/test left it."""
    commit = printed("git", "rev-parse", "HEAD", cwd=TOP).strip()
    changed = printed("git", "status", "--porcelain", cwd=TOP).strip()
    said = verdict() or "tools/test did not run on just these sources"
    return f"version {version()}\ncommit {commit}{' and changes' if changed else ''}\n{printed(RT, 'version').strip()}\n{said}\n"


def pkg_config(prefix: str, libraries: str) -> str:
    """The file by which pkg-config tells how a program is built with the library."""
    return (
        f"prefix={prefix}\nincludedir=${{prefix}}/include\nlibdir=${{prefix}}/{libraries}\n\n"
        f"Name: lag\nDescription: One end of link aggregation (LACP and the Marker protocol)\nVersion: {version()}\n"
        "Cflags: -I${includedir}\nLibs: -L${libdir} -llag\n"
    )


def read(path: str) -> bytes:
    """The octets of a file of the repository."""
    return read_bytes(os.path.join(TOP, path))


def texts(*paths: str) -> dict[str, str]:
    """The files below these paths that the repository keeps, with their texts."""
    kept = printed("git", "ls-files", "--", *paths, cwd=TOP).split("\n")
    return {it: os.path.join(TOP, it) for it in kept if it}


def scripts() -> list[File]:
    """The scripts of tools/ that are installed: with the interpreter of the system, and under names of their own."""
    found = [File(f"{SHARE}/repository.py", read("tools/repository.py"))]
    for name, (file, modules, _) in SCRIPTS.items():
        text = read(f"tools/{file}").replace(b"#!/usr/bin/env python3", b"#!/usr/bin/python3", 1)
        found.append(File(f"{SHARE}/{file}", documents.renamed(text.decode()).encode(), True))
        found.append(File(f"bin/{name}", b"", link=f"../{SHARE}/{file}"))
        found += [File(f"{SHARE}/{it}", read(f"tools/{it}")) for it in modules]
    return found


def module() -> list[File]:
    """The Python modules, and the program that starts the second one."""
    found = [File(f"lib/python3/{it.removeprefix('python/')}", read(it)) for it in texts("python/niwhopera", "python/lagconform")]
    started = read("tools/lagconform").replace(b"#!/usr/bin/env python3", b"#!/usr/bin/python3", 1)
    return [*found, File("bin/lagconform", started, True)]


def units() -> list[File]:
    """What systemd reads of the daemon, and examples of its configuration, as far as the daemon's folder has them."""
    places = {".service": "lib/systemd/system", ".sysusers": "lib/sysusers.d"}
    places.update(dict.fromkeys((".conf", ".network", ".interfaces", ".nmconnection", ".rules", ".yaml"), EXAMPLES))
    found = []
    for path in texts("lagd"):
        name, ending = os.path.splitext(os.path.basename(path))
        place = EXAMPLES if path.startswith("lagd/boot/") else places.get(ending)
        if place:
            found.append(File(f"{place}/{name}{'.conf' if ending == '.sysusers' else ending}", read(path)))
    return found


def manuals(ask: dict[str, str]) -> dict[str, str]:
    """A man page of each program, from what it says of itself."""
    pages = {}
    for name, (section, purpose) in PROGRAMS.items():
        pages[f"share/man/man{section}/{name}.{section}"] = manual.of_help(name, section, purpose, version(), ask[name])
    for name, (file, _, purpose) in SCRIPTS.items():
        told = documents.renamed(printed(os.path.join(TOOLS, file), "--help", env={**os.environ, "COLUMNS": "120"}))
        pages[f"share/man/man1/{name}.1"] = manual.of_help(name, 1, purpose, version(), told.replace(f"usage: {file}", f"usage: {name}"))
    told = printed(os.path.join(TOOLS, "lagconform"), "--help", env={**os.environ, "COLUMNS": "120"})
    pages["share/man/man1/lagconform.1"] = manual.of_help("lagconform", 1, CONFORM, version(), told)
    return pages


def parts(processor: Processor = AMD64) -> Parts:
    """Each file to install."""
    want(RT, processor.compiler, processor.tool("ar"), processor.tool("ld"), processor.tool("objcopy"), "git", "make")
    want_tools(processor)
    shutil.rmtree(BUILD, ignore_errors=True)
    os.makedirs(BUILD)
    say("building the C library; what is not yet proved is proved first")
    lag = library.one_object(BUILD, library.proved(BUILD, processor), processor)
    shared, archive = library.shared(BUILD, lag, processor), library.archive(BUILD, lag)
    alone, loading = (daemon(os.path.join(BUILD, name), it, processor) for name, it in (("alone", archive), ("loading", shared)))
    programs = {"bin/lagtool": program("lagtool", processor), "sbin/lagd": alone}
    check_versions(programs, processor)
    ask = {os.path.basename(to): printed(*processor.runs, file, "--help") for to, file in programs.items()}
    found = [File(to, read(file), True) for to, file in programs.items()]
    found += [File("include/lag.h", read(library.HEADER)), File("lib/liblag.a", read(archive))]
    found += [File(f"lib/{library.SONAME}", read(shared)), File("lib/liblag.so", b"", link=library.SONAME)]
    found += [File("share/liblag/lag.c", read(library.PORTABLE)), File("share/liblag/lag.h", read(library.HEADER))]
    made = {"lib/pkgconfig/lag.pc": pkg_config("${pcfiledir}/../..", "lib"), "share/doc/niwhopera/BUILD": of_build(), **manuals(ask)}
    for to, file in programs.items():
        name = os.path.basename(to)
        made[f"share/bash-completion/completions/{name}"] = completion.text(name, partial(printed, *processor.runs, file))
    made.update(documents.installed(texts("README.md", "CHANGELOG.md", "docs", "examples")))
    found += [File(to, text.encode()) for to, text in made.items()]
    found += [] if processor.prefix else of_subagent()
    found += [*scripts(), *module(), *units(), *pictures(), File("share/doc/niwhopera/try.html", b"", link="docs/try.html")]
    instead = [File("sbin/lagd", read(loading), True), File("lib/pkgconfig/lag.pc", pkg_config("/usr", processor.libraries).encode())]
    return Parts(sorted(found), instead, processor)


def pictures() -> list[File]:
    """The documents that are no texts of lines: pictures and captures."""
    paths = texts("docs", "examples")
    return [File(f"share/doc/niwhopera/{it}", read(it)) for it in paths if not documents.is_text(it)]


def check_versions(programs: dict[str, str], processor: Processor) -> None:
    """Each program says the version of the file VERSION."""
    for to, file in programs.items():
        told = printed(*processor.runs, file, "--version").strip()
        if not re.search(rf"\b{re.escape(version())}$", told):
            raise Missing(f"{to} --version says {told!r}, and VERSION has {version()}")
