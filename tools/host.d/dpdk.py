"""DPDK: mode 4 of its bonded device, of which one file is exchanged. The package librte-net-bond23 of this machine is packed again with the new shared object.

It is built from Debian's sources, of the version of that package, and of its drivers those alone that its tests want.
"""

from __future__ import annotations

import glob
import os
import re
import shutil

from building import HOSTS, SHARED, Host, Order, before, begins, done, is_built, need_file, repacked, stamp
from fetched import Source, Sources, unpacked
from library import HEADER, PORTABLE
from repository import read_text, write_text

PACKAGE = "librte-net-bond23"
OBJECT = "librte_net_bond.so.23.0"
WANTED = "meson, ninja-build, pkg-config, python3-pyelftools, libnuma-dev"
FOLDER = "drivers/net/bonding"
# As Debian's packaging has them; what else it builds is left out.
OPTIONS = ["--buildtype=plain", "--default-library=static", "-Dplatform=generic", "-Dtests=false", "-Denable_docs=false", "-Denable_kmods=false", "-Denable_apps=test-pmd",
           "-Denable_drivers=bus/vdev,mempool/ring,net/bonding,net/af_packet,net/tap,net/ring"]  # fmt: skip
FLAGS = "-O2 -g -fstack-protector-strong -D_FORTIFY_SOURCE=2"
# Its objects are linked with the library in them, under names that no program has: `lag_names.h`.
NAMES = re.compile(r"\blagffi_[a-z0-9_]+\b|\bniw_give_memory\b|\bniw_lag_c\b")


def names_of(*paths: str) -> str:
    """The header that gives the library's functions names of the driver's own, and its memory one buffer."""
    found = sorted({name for path in paths for name in NAMES.findall(read_text(path))})
    return "/* Made by tools/host of lag.h. */\n#define NIW_POOL\n" + "".join(f"#define {name} bond_{name}\n" for name in found)


def put(tree: str, log: str) -> None:
    """Puts our files into the driver."""
    to = f"{tree}/{FOLDER}"
    done(["patch", "-p1", "-i", os.path.join(HOSTS, "dpdk", "bonding.patch")], tree, log)
    for path in [*glob.glob(f"{HOSTS}/dpdk/*.c"), f"{SHARED}/lag_end.h", HEADER, PORTABLE]:
        shutil.copy(path, to)
    write_text(f"{to}/lag_names.h", names_of(HEADER, PORTABLE))


def build(source: Source, archives: list[str], folder: str, jobs: int) -> str:
    """Builds the shared object of the driver, and dpdk-testpmd with it. The library is always that of c/lag.c, whose memory is a buffer of the driver."""
    tree, log = unpacked(source, folder, True), f"{folder}.log"
    begins(log)
    if archives:
        put(tree, log)
    flags = os.environ.get("CFLAGS", FLAGS)
    done(["meson", "setup", "build", *OPTIONS, f"-Dc_args={flags}"], tree, log)
    done(["ninja", f"-j{jobs}", "-C", "build", f"drivers/{OBJECT}", "app/dpdk-testpmd"], tree, log)
    return tree


def pack(sources: Sources, order: Order) -> list[str]:
    """The package of the machine with another shared object and version."""
    word = stamp("dpdk", order.source, order.archives)
    if not is_built(order.folder, word):
        build(order.source, order.archives, order.folder, order.jobs)
        write_text(f"{order.folder}.stamp", word)
    log = f"{order.folder}.log"
    made = f"{order.folder}/build/drivers/{OBJECT}"

    def change(tree: str) -> None:
        inside = need_file(f"{tree}/usr/lib/*/dpdk/pmds-*/{OBJECT}")
        done(["strip", "--strip-unneeded", "-o", inside, made], "/", log)
        os.chmod(inside, 0o644)
        shutil.copy(os.path.join(HOSTS, "dpdk", "README.md"), f"{tree}/usr/share/doc/{PACKAGE}/README.Niwhopera.md")

    return [repacked(sources, order, PACKAGE, "Mode 4 of this build is that of Niwhopera, over the library of c/lag.c.", log, change)]


def follows(sources: Sources) -> str | None:
    """The version of the sources that the package of this machine is of."""
    return re.sub(r"\+b\d+$", "", sources.candidate(PACKAGE)) or None


HOST = Host("dpdk", True, lambda _: WANTED, build, pack, before((PACKAGE,)), follows)
