"""teamd of libteam: its lacp runner is exchanged, and the package libteam-utils of this machine is packed again with the new program."""

from __future__ import annotations

import os
import shutil

from building import HOSTS, Host, Order, before, begins, done, exchange, library_of, repacked
from fetched import Source, Sources, unpacked

PACKAGE, PROGRAM = "libteam-utils", "usr/bin/teamd"
WANTED = "autoconf, automake, libtool, pkg-config, libnl-3-dev, libnl-cli-3-dev, libnl-genl-3-dev, libnl-route-3-dev, libdaemon-dev, libjansson-dev, libdbus-1-dev"
FLAGS = "-O2 -g -fstack-protector-strong -D_FORTIFY_SOURCE=2 -fPIE"


def build(source: Source, archives: list[str], folder: str, jobs: int) -> str:
    tree, log = unpacked(source, folder, False), f"{folder}.log"
    begins(log)
    if archives:
        exchange(os.path.join(HOSTS, "teamd", "teamd_runner_lacp.c"), f"{tree}/teamd/teamd_runner_lacp.c")
        done(["patch", "-p1", "-i", os.path.join(HOSTS, "teamd", "leave-ports.patch")], tree, log)
    done(["autoreconf", "-f", "-i"], tree, log)
    flags = os.environ.get("CFLAGS", FLAGS)
    done(["./configure", "--prefix=/usr", "--sysconfdir=/etc", "--localstatedir=/var", "--disable-zmq", f"CFLAGS={flags}", "LDFLAGS=-pie -Wl,-z,relro,-z,now"], tree, log)
    done(["make", f"-j{jobs}", f"LIBS={' '.join(archives)}"], tree, log)
    return tree


def pack(sources: Sources, order: Order) -> list[str]:
    """The package of the machine with another program and version."""
    built = build(order.source, order.archives, f"{order.folder}.packages", order.jobs)
    log = f"{built}.log"

    def change(tree: str) -> None:
        done(["strip", "-o", f"{tree}/{PROGRAM}", f"{built}/teamd/.libs/teamd"], "/", log)
        shutil.copy(os.path.join(HOSTS, "teamd", "README.md"), f"{tree}/usr/share/doc/{PACKAGE}/README.Niwhopera.md")

    return [repacked(sources, order, PACKAGE, f"The lacp runner of this build is that of Niwhopera, over {library_of(order.archives[0])}.", log, change)]


HOST = Host("libteam", False, lambda _: WANTED, build, pack, before((PACKAGE,)))
