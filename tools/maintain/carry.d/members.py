"""What a member that leaves or joins costs: frames that are lost or overtaken, with lagd and with the bonding driver at both ends, in User-mode Linux."""

from __future__ import annotations

import json
import os
import signal
import subprocess
from typing import Sequence

import usermode
from beside import print_rows
from bonds import PEERS, Programs
from checking import Failed, Skipped, check
from fetching import Packages
from places import Guest
from repository import read_text, write_text

DRIVERS = "veth bonding team team_mode_loadbalance tun sch_netem sch_ingress cls_matchall act_mirred"
# How often each is done, frames a second, flows, and for how many seconds of each run; what a guest takes for all of it at most.
TIMES, RATE, FLOWS, SECONDS = 6, 1000, 16, 6
MOST = 1500
HEADINGS = ["both ends", "what", "runs", "sent", "lost, least to most", "overtaken, least to most", "longest gap of a flow, ms"]
WHATS = {"nothing": "nothing changes", "near-out": "it leaves the sending end", "near-in": "it joins the sending end", "far-out": "it leaves the receiving end",
         "far-in": "it joins the receiving end"}
# Both ends have three links; with SLOW the third one takes 20 ms to the receiving end, through two devices.
INIT = """#!/bin/sh
PATH=/usr/sbin:/usr/bin:/sbin:/bin
export PATH LD_LIBRARY_PATH="{libraries}"
mount -t proc proc /proc; mount -t sysfs sys /sys; mount -t tmpfs tmp /run; mount -t tmpfs tmp /mnt
for driver in {drivers}; do {folder}/modprobe -d {folder} $driver; done
ip link set lo up
ip netns add far
here() {{ "$@"; }}
there() {{ ip netns exec far "$@"; }}
cable() {{ ip link add p$1 address 02:00:00:00:0a:0$1 type veth peer name q$1 address 02:00:00:00:0b:0$1 netns far; }}
slow_cable() {{
    ip link add p$1 address 02:00:00:00:0a:0$1 type veth peer name m0
    ip link add m1 type veth peer name q$1 address 02:00:00:00:0b:0$1 netns far
    for device in m0 m1; do ip link set $device up promisc on; tc qdisc add dev $device ingress; done
    tc filter add dev m0 ingress matchall action mirred egress redirect dev m1
    tc filter add dev m1 ingress matchall action mirred egress redirect dev m0
    tc qdisc add dev m1 root netem delay 20ms limit 100000
}}
cable 0; cable 1; {cable} 2
bond() {{
    $1 ip link add lag0 type bond mode 802.3ad miimon 100 lacp_rate fast
    for member in ${{2}}0 ${{2}}1 ${{2}}2; do $1 ip link set $member down; $1 ip link set $member master lag0; done
    $1 ip link set lag0 up
}}
daemon() {{
    mkdir -p /run/$1
    for member in ${{2}}0 ${{2}}1 ${{2}}2; do $1 ip link set $member up; done
    $1 {daemon} --carry lag0 {options} --folder /run/$1 7 32768,02:00:00:00:0$3:00 ${{2}}0 ${{2}}1 ${{2}}2 >/run/$1/log 2>&1 &
    sleep 2
    $1 ip link set lag0 up
}}
{ends}
whole() {{ for turn in $(seq 50); do [ "$(up here)" = {all} ] && [ "$(up there)" = {all} ] && return; sleep 0.2; done; echo "not all carry"; return 1; }}
run() {{
    there {flows} receive lag0 {count} {longer} >/mnt/received & receiver=$!
    sleep 0.3
    {flows} send lag0 {rate} {count} {seconds} macs >/mnt/sent & sender=$!
    sleep 2; $2 $3 $4; wait $sender $receiver
    [ "$2" = leave ] || {{ whole; sleep 3; }}
    echo "$1 $(cat /mnt/sent) $(cat /mnt/received)"
}}
{{
    uname -r
    whole || cat /run/*/log; sleep 3
    for turn in $(seq {times}); do
        run nothing : ; run near-out leave here p2; run near-in join here p2; run far-out leave there q2; run far-in join there q2
    done
    echo end
}} >{folder}/told 2>&1
sync
halt -f || echo o >/proc/sysrq-trigger
"""
OF_BONDING = """bond here p; bond there q
leave() { $1 ip link set $2 nomaster; }
join() { $1 ip link set $2 down; $1 ip link set $2 master lag0; }
up() { $1 grep -c "port state: 63" /proc/net/bonding/lag0; }"""
OF_LAGD = """daemon here p a; daemon there q b
leave() { $1 DAEMON --folder /run/$1 --remove $2; }
join() { $1 DAEMON --folder /run/$1 --add $2; }
up() { $1 DAEMON --folder /run/$1 --status | grep -c "may_enable: true"; }"""
WAYS = {"bonding": (False, OF_BONDING, ""), "lagd": (False, OF_LAGD, ""), "team": (False, OF_LAGD, "--plane team"), "bonding-slow": (True, OF_BONDING, ""), "lagd-slow": (True, OF_LAGD, "")}


def told_in(programs: Programs, packages: Packages, name: str) -> list[str]:
    """The lines that a guest has written of one way."""
    is_slow, ends, options = WAYS[name]
    guest = Guest(packages, os.path.join(programs.folder, f"guest-{name}"), [])
    values = {"libraries": packages.environment()["LD_LIBRARY_PATH"], "drivers": DRIVERS, "folder": guest.folder, "cable": "slow_cable" if is_slow else "cable", "daemon": programs.daemon,
              "options": options, "ends": ends.replace("DAEMON", programs.daemon), "all": 6 if ends is OF_BONDING else 3, "flows": programs.flows, "count": FLOWS, "rate": RATE,
              "seconds": SECONDS, "longer": SECONDS + 2, "times": TIMES}  # fmt: skip
    write_text(f"{guest.folder}/init", INIT.format(**values))
    os.chmod(f"{guest.folder}/init", 0o755)
    words = [guest.program, "mem=256M", "root=/dev/root", "rootfstype=hostfs", "rootflags=/", "rw", f"init={guest.folder}/init", f"uml_dir={guest.folder}", "con=null", "con0=null,fd:2", "panic=-1"]
    with open(f"{guest.folder}/log", "w", encoding="utf-8") as log:
        process = subprocess.Popen(words, start_new_session=True, stdin=subprocess.DEVNULL, stdout=log, stderr=log, env=usermode.environment(guest.folder))
        try:
            process.wait(MOST)
        except subprocess.TimeoutExpired as why:
            raise Failed(f"{name}: the guest ends", read_text(f"{guest.folder}/told")[-1000:]) from why
        finally:
            if process.poll() is None:
                os.killpg(process.pid, signal.SIGKILL)
                process.wait()
    if not os.path.exists(f"{guest.folder}/told"):
        raise Failed(f"{name}: the guest runs", read_text(f"{guest.folder}/log")[-1000:])
    return read_text(f"{guest.folder}/told").splitlines()


def rows_of(name: str, lines: Sequence[str]) -> list[list[str]]:
    """Rows of the table, by what is done."""
    found: dict[str, list[dict[str, int]]] = {}
    for what, sent, received in (line.split(" ") for line in lines if " {" in line):
        found.setdefault(what, []).append({**json.loads(sent), **json.loads(received)})
    rows = []
    for what, runs in found.items():
        lost, overtaken = (sorted(values) for values in ([it["sent"] - it["refused"] - it["received"] for it in runs], [it["overtaken"] for it in runs]))
        gaps = sorted(it["gap_ms"] for it in runs)
        rows.append([name, WHATS[what], str(len(runs)), f"{sum(it['sent'] for it in runs):,}", *(", ".join(map(str, it)) for it in (lost, overtaken)), f"{gaps[0]} to {gaps[-1]}"])
    return rows


def print_members(programs: Programs, names: Sequence[str]) -> None:
    packages = Packages(PEERS, True)
    if not packages.path("linux.uml") or not packages.path("kmod"):
        packages.fetch("user-mode-linux", alone=["kmod"])
    rows: list[list[str]] = []
    for name in names or WAYS:
        try:
            lines = told_in(programs, packages, name)
        except Skipped as why:
            print(f"skipped: {name}: {why}", flush=True)
            continue
        rows += rows_of(name, lines)
        check("end" in lines and "not all carry" not in lines, f"{name}: Linux {lines[0]}, load {os.getloadavg()[0]:.0f}: each change is made, and each link carries again", lines)
    print(f"{FLOWS} flows, {RATE:,} frames a second, three links; the third one is the member. -slow: it takes 20 ms to the receiving end")
    print_rows(HEADINGS, rows)
