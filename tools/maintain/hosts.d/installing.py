"""The packages of hosts: installed over those of this machine and taken back, in an overlay of its tree."""

from __future__ import annotations

import os
import re
import subprocess

from building import library_of
from built import Built
from checking import Failed, check

PROGRAMS = {"teamd": "/usr/bin/teamd", "openvswitch": "/usr/lib/openvswitch-switch/ovs-vswitchd"}
# Over a tree whose changes are in memory; no service is started.
OVERLAY = """set -e; D="$1"; mount -t tmpfs overlay "$D"; mkdir "$D/upper" "$D/work" "$D/tree"
mount -t overlay overlay -o "lowerdir=/,upperdir=$D/upper,workdir=$D/work" "$D/tree"
mount -t proc proc "$D/tree/proc"; mount --bind /dev "$D/tree/dev"; mount -t tmpfs run "$D/tree/run"
mkdir -p "$D/tree/packages"; mount --bind "$2" "$D/tree/packages"
printf '#!/bin/sh\\nexit 101\\n' >"$D/tree/usr/sbin/policy-rc.d"; chmod +x "$D/tree/usr/sbin/policy-rc.d"
exec chroot "$D/tree" sh -c "$3"
"""
# What the new one writes down, and that which the one of before is to tell of it: a bond in the database of Open vSwitch, without a network.
WRITES = {"openvswitch": "base ovs-vsctl --no-wait add-br br0 -- add-bond br0 bond0 b0 b1 lacp=active"}
READS = {"openvswitch": ("base ovs-vsctl --no-wait get port bond0 lacp", "active")}
STEPS = """export DEBIAN_FRONTEND=noninteractive; sums() {{ md5sum {program} | cut -d' ' -f1; for p in {names}; do dpkg-query -W -f '${{Version}} ' $p; dpkg -V $p | grep -v '^??5?????? c ' || true; done; echo; }}
install() {{ apt-get install -y --no-install-recommends "$@" >/run/log 2>&1 || tail -5 /run/log; }}
base() {{ unshare -n sh -c 'C=/usr/share/openvswitch/scripts/ovs-ctl; $C --no-ovs-vswitchd --system-id=random start >/run/base 2>&1 || tail -3 /run/base; "$@"; $C stop >>/run/base 2>&1' sh "$@"; }}
install {names}; echo "before $(sums | paste -s -d" ")"; install /packages/*.deb; echo "new $(sums | paste -s -d" ")"; {program} --version 2>&1 | head -1; grep -a -q 'lag[.]c [0-9]' {program}; echo "library $?"; {writes}
install --reinstall --allow-downgrades {old}; echo "back $(sums | paste -s -d" ")"; echo "old: $({reads})"
"""


def there_and_back(built: Built) -> None:
    for name, program in PROGRAMS.items():
        out, place = f"{built.folder}/packages-{name}", f"{built.folder}/overlay-{name}"
        os.makedirs(place)
        told = built.tool(name, "--out", out)
        old = re.search(r"--allow-downgrades (.*)$", told, re.M)
        if not old:
            raise Failed("tools/host says how to go back", told)
        names = " ".join(it.split("=")[0] for it in old.group(1).split())
        reads, wanted = READS.get(name, ("true", ""))
        steps = STEPS.format(program=program, names=names, old=old.group(1), writes=WRITES.get(name, "true"), reads=reads)
        ended = subprocess.run(["unshare", "-m", "sh", "-c", OVERLAY, "sh", place, out, steps], capture_output=True, text=True)
        said = dict(re.findall(r"^(before|new|back) (.*)$", ended.stdout, re.M))
        print(ended.stdout.strip())
        check(said.get("new") and "+niw" in said["new"] and said.get("new") != said.get("before"), f"{name}: the packages are installed", ended.stdout[-1200:], ended.stderr[-600:])
        check(f"library {int('c/lag.c' not in library_of(built.archives()[0]))}\n" in ended.stdout, f"{name}: the program has the library that tools/host names", ended.stdout[-1200:])
        check(said.get("before") and said.get("before") == said.get("back"), f"{name}: those of before come back", ended.stdout[-1200:])
        check(f"old: {wanted}\n" in ended.stdout, f"{name}: they know what was written meanwhile", ended.stdout[-1200:], ended.stderr[-600:])
