"""Open vSwitch: the sources of its authors are fetched as tools/host fetches them, and configured in the cache folder."""

from __future__ import annotations

import os

from building import log_run, say
from fetched import Sources, unpacked
from repository import read_text, want, write_text

# What lib/lacp.c does not want is left out. Two libraries are taken where they are found, and have no option: their tests are answered.
WITHOUT = ["--disable-ssl", "--disable-libcapng", "--disable-afxdp"]
WITHOUT += ["ac_cv_lib_unbound_ub_ctx_create=no", "ac_cv_lib_unwind_unw_backtrace=no"]
# Else make wants automake, since an unpacked file may be older than what it was made from.
AS_IT_IS = ["AUTOMAKE=:", "ACLOCAL=:", "AUTOCONF=:", "AUTOHEADER=:"]


def configured(cache: str) -> tuple[str, str]:
    """The folder of the sources with all headers that are made, and its version."""
    folder = f"{cache}/openvswitch"
    stands = f"{folder}/niwhopera-version"
    if not os.path.isfile(stands):
        want("make")
        say("fetching and configuring Open vSwitch, a minute")
        source = Sources(cache, True).of("openvswitch", None, False)
        unpacked(source, folder, False)
        write_text(f"{folder}/made-first.mk", "include Makefile\nmade-first: $(BUILT_SOURCES)\n")
        log_run(cache, "openvswitch", ["./configure", *WITHOUT, "CFLAGS=-O2"], cwd=folder)
        log_run(cache, "openvswitch", ["make", f"-j{os.cpu_count() or 1}", *AS_IT_IS, "-f", "made-first.mk", "made-first"], cwd=folder)
        write_text(stands, source.version)
    return folder, read_text(stands)
