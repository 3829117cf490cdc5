"""The processors of Linux that the library, the daemon and the programs are built for, and how a proved crate is compiled for one."""

from __future__ import annotations

import importlib.machinery
import importlib.util
import os
import platform
import shutil
import subprocess
from typing import Any, NamedTuple, Sequence

from repository import CC, CRATES, RT, TOP, Missing, has_passed, kit, stood_at_verdict, want, write_text


class Processor(NamedTuple):
    """A processor: its name in Debian, that of its machine, what the names of its compiler and linker begin with, and its words for rt."""

    name: str
    machine: str
    prefix: str
    words: tuple[str, ...]

    @property
    def libraries(self) -> str:
        """Where Debian has libraries of this processor, below /usr."""
        return f"lib/{self.machine}-linux-gnu"

    @property
    def is_here(self) -> bool:
        """Whether this machine is of this processor."""
        return platform.machine() == self.machine

    @property
    def runs(self) -> list[str]:
        """What stands before the words of a program, so that it runs here."""
        return [] if self.is_here else [f"qemu-{self.machine}"]

    @property
    def compiler(self) -> str:
        """Its C compiler."""
        return f"{self.prefix}gcc" if self.prefix else CC

    @property
    def finds(self) -> dict[str, str]:
        """What tells pkg-config where the libraries of this processor are."""
        return {"PKG_CONFIG_LIBDIR": f"/usr/{self.libraries}/pkgconfig:/usr/share/pkgconfig"} if self.prefix else {}

    def tool(self, name: str) -> str:
        """The name of ld, objcopy or another tool."""
        return f"{self.prefix}{name}"


# Without this word `rt lib` compiles for x86-64-v2.
FOR_EACH_X86 = "--cpu=x86-64"
AMD64 = Processor("amd64", "x86_64", "", (FOR_EACH_X86,))
ARM64 = Processor("arm64", "aarch64", "aarch64-linux-gnu-", ("--target", "aarch64-unknown-linux-gnu"))
PROCESSORS = {it.name: it for it in (AMD64, ARM64)}
# Other processors, on which c/lag.c is tried: what their compiler begins with in Debian, and their emulator.
EMULATED = {
    "arm of 32 bits": ("arm-linux-gnueabi", "arm"),
    "i386": ("i686-linux-gnu", "i386"),
    "arm64": ("aarch64-linux-gnu", "aarch64"),
    "riscv64": ("riscv64-linux-gnu", "riscv64"),
    "s390x, big-endian": ("s390x-linux-gnu", "s390x"),
    "powerpc of 32 bits, big-endian": ("powerpc-linux-gnu", "ppc"),
}
# What an arm64 build wants besides, with its package of Debian.
CROSS = {"aarch64-linux-gnu-gcc": "gcc-aarch64-linux-gnu", "qemu-aarch64": "qemu-user"}
LIBRARIES = {
    "inih": "libinih-dev:arm64",
    "libmnl": "libmnl-dev:arm64",
    "libcap-ng": "libcap-ng-dev:arm64",
    "libbpf": "libbpf-dev:arm64",
    "libsystemd": "libsystemd-dev:arm64",
}


def emulator(name: str) -> str | None:
    """The command that runs programs of a processor, if it is here."""
    return shutil.which(f"qemu-{name}") or shutil.which(f"qemu-{name}-static")


def want_tools(processor: Processor) -> None:
    """Stops the tool where what another processor is built and tried with is not here."""
    if not processor.prefix:
        return
    want("pkg-config")
    lacks = [package for name, package in CROSS.items() if not shutil.which(name)]
    given = {**os.environ, **processor.finds}
    lacks += [package for name, package in LIBRARIES.items() if subprocess.run(["pkg-config", "--exists", name], env=given).returncode]
    if lacks:
        raise Missing(f"{processor.name} wants more (Debian: dpkg --add-architecture arm64; apt install {' '.join(lacks)})")


def done(words: Sequence[str], program: str | None = None, cwd: str | None = None) -> None:
    """Runs a command; stops the tool where it fails."""
    ended = subprocess.run(words, executable=program, stdin=subprocess.DEVNULL, capture_output=True, text=True, cwd=cwd)
    if ended.returncode:
        raise Missing(f"{words[0]} failed: {(ended.stderr or ended.stdout).strip()[-800:]}")


def rtlib() -> Any:
    """The module of rt that knows with which words rattle is called."""
    path = os.path.join(os.path.dirname(os.path.realpath(shutil.which(RT) or RT)), "rtlib.py")
    loader = importlib.machinery.SourceFileLoader("rtlib", path)
    spec = importlib.util.spec_from_loader("rtlib", loader)
    if spec is None:
        raise Missing(f"{path} is no module")
    module = importlib.util.module_from_spec(spec)
    loader.exec_module(module)
    return module


def take_libraries() -> None:
    """Has every command of rt take the libraries that the test command made of these sources, where that passed: it leaves them without the stamp by
    which they are known to be of these sources. One with a stamp, or made since, is of another command, which may have made it of other ones."""
    if not has_passed():
        return
    for crate in rtlib().crates_below(CRATES):
        stamp = os.path.join(os.path.dirname(crate.rlib), "stamp")
        if stood_at_verdict(crate.rlib) and crate.folder.startswith(CRATES) and not os.path.exists(stamp):
            write_text(stamp, crate.stamp())


def compile_crate(name: str, made: str, words: Sequence[str], toolchain: str | None = None) -> None:
    """Proves a crate, and compiles it: a static library into an archive, a program into an object."""
    want(RT)
    folder, jobs, rt = os.path.join(CRATES, name), ["--jobs", os.environ.get("RT_JOBS", "2")], rtlib()
    take_libraries()
    done([RT, "check", *jobs], cwd=folder)
    called = [*rt.Crate(folder, TOP, {}).words([*words, *jobs]), *rt.KEPT, "--backend", "llvm"]
    tools = ["--toolchain", toolchain or os.path.join(kit(), "toolchain")]
    done([os.path.join(kit(), "bin", "rattle"), "build", *called, *tools, "-o", made], cwd=folder)
