"""Open vSwitch: its lib/lacp.c is exchanged, and two of its packages are built by Debian's own packaging, without DPDK and AF_XDP."""

from __future__ import annotations

import glob
import os
import re
import shutil
import time

from building import HOSTS, Host, Order, before, begins, done, exchange, library_of
from fetched import Source, Sources, unpacked
from repository import Missing, read_text, write_text

PACKAGES = "openvswitch-common", "openvswitch-switch"
OPTIONS = "--disable-afxdp"
# What Debian's packaging wants for DPDK and AF_XDP, and what Debian 12 has not.
UNUSED = "architecture-is-64-bit", "graphviz", "libbpf-dev", "libdpdk-dev", "libxdp-dev"


def wanted(source: Source) -> str:
    """What the sources are built with, as their description tells it."""
    told = re.search(r"^Build-Depends: (.*)$", read_text(source.described), re.M)
    return ", ".join(each for each in (told.group(1).split(", ") if told else []) if each.split()[0] not in UNUSED)


def tree_of(source: Source, archives: list[str], folder: str, log: str) -> str:
    """The sources, with our file in them where there are archives to link."""
    tree = unpacked(source, folder, True)
    begins(log)
    if archives:
        exchange(os.path.join(HOSTS, "openvswitch", "lacp.c"), f"{tree}/lib/lacp.c")
    return tree


def build(source: Source, archives: list[str], folder: str, jobs: int) -> str:
    """Builds the programs, and its test suite with our tests and the lines that the standard contradicts changed."""
    log = f"{folder}.log"
    tree = tree_of(source, archives, folder, log)
    if archives:
        add_tests(tree)
    flags = os.environ.get("CFLAGS", "-O2 -g")
    done(["autoreconf", "-f", "-i"], tree, log)
    done(["./configure", "--prefix=/usr", "--sysconfdir=/etc", "--localstatedir=/var", *OPTIONS.split(), "SPHINXBUILD=none", f"CFLAGS={flags}", f"LIBS={' '.join(archives)}"], tree, log)
    done(["make", f"-j{jobs}"], tree, log)
    return tree


def add_tests(tree: str) -> None:
    """Puts our tests into its test suite, and changes the expectations of its own that the standard contradicts."""
    tests = os.path.join(HOSTS, "openvswitch", "tests")
    for name in "lacp.at", "ofproto-dpif.at":
        done(["sed", "-i", "-f", f"{tests}/expectations.sed", f"{tree}/tests/{name}"], tree, f"{tree}.log")
    shutil.copy(f"{tests}/niwhopera.at", f"{tree}/tests")
    with open(f"{tree}/tests/testsuite.at", "a", encoding="utf-8") as it:
        it.write("m4_include([tests/niwhopera.at])\n")


def without_dpdk(tree: str) -> None:
    """Takes the parts for DPDK out of debian/rules, which are for some processors."""
    rules, count = re.subn(r"^ifneq \(,\$\(filter i386 amd64 .*$", "ifeq (1,0)", read_text(f"{tree}/debian/rules"), flags=re.M)
    if not count:
        raise Missing("debian/rules of Open vSwitch is not as it is known: --version names other sources")
    write_text(f"{tree}/debian/rules", rules)


def pack(_: Sources, order: Order) -> list[str]:
    """Builds two packages as Debian's packaging does."""
    folder = f"{order.folder}.packages"
    shutil.rmtree(folder, ignore_errors=True)
    os.makedirs(folder)
    tree, log = f"{folder}/tree", f"{folder}/log"
    tree_of(order.source, order.archives, tree, log)
    without_dpdk(tree)
    with open(f"{tree}/debian/changelog", "r+", encoding="utf-8") as it:
        earlier = it.read()
        now = time.strftime("%a, %d %b %Y %H:%M:%S +0000", time.gmtime())
        it.seek(0)
        it.write(f"openvswitch ({order.version}) unstable; urgency=medium\n\n  * LACP of Niwhopera, over {library_of(order.archives[0])}.\n\n -- Niwhopera maintainers <niwhopera@localhost>  {now}\n\n{earlier}")
    environment = {"EXTRA_CONFIGURE_OPTS": f"{OPTIONS} LIBS={order.archives[0]}", "DEB_BUILD_OPTIONS": f"nocheck nodoc noautodbgsym parallel={order.jobs}", "DH_OPTIONS": " ".join(f"-p{it}" for it in PACKAGES)}
    done(["dpkg-buildpackage", "-b", "-d", "-us", "-uc"], tree, log, **environment)
    found = [it for name in PACKAGES for it in glob.glob(f"{folder}/{name}_*.deb")]
    if len(found) != len(PACKAGES):
        raise Missing(f"not all packages were made: {log}")
    return [shutil.copy(it, order.out) for it in found]


HOST = Host("openvswitch", True, wanted, build, pack, before(PACKAGES))
