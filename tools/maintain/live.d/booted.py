"""The unit under systemd itself, with its journal: in a tree over this machine's, in namespaces of its own."""

from __future__ import annotations

import contextlib
import os
import re
import shutil
import signal
import subprocess
import time
from typing import Callable

from checking import Skipped, check, command, within
from daemon import SYSTEM, Daemon, Part
from daemons import COMES_UP, GOES_DOWN
from linking import want_systemd
from repository import TOP, read_text, write_text
from service import BUNDLE_LINE, FILE, ids_of_lines
from spaces import OURS

BOOTS, ANSWERS = 30, 20
# More often than systemd starts a unit within 10 s, if nothing else is said.
OFTEN = 6
TARGET = "[Unit]\nDescription=A bundle of links\nWants=systemd-journald.service dbus.service lagd@uplink.service\nAllowIsolate=yes\n"
BUNDLE = FILE.replace("partner=first\n", "partner=first\nkey-by-speed=yes\nhook=/etc/lagd/hook\ntimeout=long\nstate-dir=/var/lib/lagd/uplink\n")
# A hook that outlives the daemon.
HOOK = '#!/bin/sh\nsleep 1\necho "$LAGD_STATE" >> /run/lagd/uplink/told\n'
# The watchdog of the unit waits for 30 s.
IMPATIENT = "[Service]\nWatchdogSec=2\n"
# Units of the machine that have nothing to do here.
MASKED = ("systemd-sysctl", "systemd-modules-load", "systemd-remount-fs", "systemd-update-utmp", "systemd-udevd", "systemd-resolved")
# Makes the tree, and runs systemd in it as the first process; $1 is the folder of the tree, $2 that of what is put over the machine's files.
BOOT = """set -e
mount --make-rprivate /
mount -t tmpfs tmpfs "$1"
mkdir "$1/upper" "$1/work" "$1/root"
cp -a "$2/." "$1/upper"
mount -t overlay overlay -o "lowerdir=/,upperdir=$1/upper,workdir=$1/work" "$1/root"
cd "$1/root"
mount -t proc proc proc
mount --bind proc/sys proc/sys
mount -o remount,bind,ro proc/sys
mount -t sysfs -o ro sysfs sys
mount -t cgroup2 cgroup2 sys/fs/cgroup
for place in run tmp dev; do mount -t tmpfs tmpfs "$place"; done
for device in null zero full random urandom tty; do touch "dev/$device"; mount --bind "/dev/$device" "dev/$device"; done
mkdir dev/pts dev/shm dev/mqueue dev/hugepages dev/net
mknod -m 666 dev/net/tun c 10 200
mount -t devpts -o newinstance,ptmxmode=0666 devpts dev/pts
ln -s pts/ptmx dev/ptmx
ln -s /proc/self/fd dev/fd
exec chroot . env -i container=lag PATH=/usr/sbin:/usr/bin:/sbin:/bin /lib/systemd/systemd --unit=bundle.target --show-status=0
"""
NAMESPACES = ("--mount", "--pid", "--fork", "--kill-child", "--uts", "--ipc", "--cgroup")


def put(over: str, path: str, text: str, mode: int = 0o644) -> None:
    """A file over those of the machine."""
    place = os.path.join(over, path)
    os.makedirs(os.path.dirname(place), exist_ok=True)
    write_text(place, text)
    os.chmod(place, mode)


def lay_out(part: Part, over: str, bundle: str) -> None:
    """What the package installs, and a bundle of two links."""
    files = {"lagd@.service": "etc/systemd/system/lagd@.service", "lagd.sysusers": "usr/lib/sysusers.d/lagd.conf"}
    if "carry=" in bundle:
        files["carry.conf"] = "etc/systemd/system/lagd@.service.d/carry.conf"
    for file, place in files.items():
        put(over, place, read_text(os.path.join(TOP, "lagd", file)))
    put(over, "etc/systemd/system/bundle.target", TARGET)
    put(over, "etc/systemd/system/lagd@.service.d/impatient.conf", IMPATIENT)
    put(over, "etc/lagd/uplink.conf", bundle)
    put(over, "etc/lagd/hook", HOOK, 0o755)
    put(over, "etc/machine-id", "")
    for unit in MASKED:
        os.symlink("/dev/null", os.path.join(over, f"etc/systemd/system/{unit}.service"))
    os.makedirs(os.path.join(over, "usr/sbin"), exist_ok=True)
    shutil.copy(part.program, os.path.join(over, "usr/sbin/lagd"))
    os.chmod(os.path.join(over, "usr/sbin/lagd"), 0o755)


def unified() -> str:
    """Where the machine has its cgroups of version 2."""
    found = [line.split()[1] for line in read_text("/proc/mounts").splitlines() if line.split()[2] == "cgroup2"]
    if not found:
        raise Skipped("no cgroups of version 2")
    return found[0]


class Machine:
    """A systemd that runs; its commands are run in its namespaces."""

    def __init__(self, part: Part, bundle: str = BUNDLE, more: Callable[[str], None] = lambda over: None) -> None:
        for word in ("unshare", "nsenter", "chroot"):
            if not shutil.which(word):
                raise Skipped(f"no command {word}")
        if not os.path.exists("/lib/systemd/systemd"):
            raise Skipped("no systemd (Debian: systemd, dbus)")
        want_systemd()
        self.group = os.path.join(unified(), f"lag-{os.getpid()}")
        tree, over, self.log = (os.path.join(part.folder, name) for name in ("tree", "over", "booted"))
        os.makedirs(tree, exist_ok=True)
        shutil.rmtree(over, ignore_errors=True)  # of another boot
        lay_out(part, over, bundle)
        more(over)
        os.mkdir(self.group)
        words = ["sh", "-c", 'echo $$ > "$1/cgroup.procs" && shift && exec "$@"', "sh", self.group]
        words += ["ip", "netns", "exec", OURS, "unshare", *NAMESPACES, "sh", "-c", BOOT, "sh", tree, over]
        with open(self.log, "w", encoding="utf-8") as log:
            self.process = subprocess.Popen(words, stdin=subprocess.DEVNULL, stdout=log, stderr=log)

    def first(self) -> str | None:
        """The number of its first process, outside."""
        path = f"/proc/{self.process.pid}/task/{self.process.pid}/children"
        return next(iter(read_text(path).split()), None)

    def run(self, *words: str) -> subprocess.CompletedProcess[str]:
        first = self.first() if self.process.poll() is None else None
        if first is None:
            return subprocess.CompletedProcess(words, 127, "", "no systemd runs")
        return command("nsenter", "--target", first, "--mount", "--pid", "--uts", "--ipc", "--net", "--cgroup", "--root", "--wd", *words, timeout=ANSWERS)

    def tells(self, *words: str) -> str:
        return self.run(*words).stdout.strip()

    def property(self, name: str) -> str:
        return self.tells("systemctl", "show", "--value", "--property", name, "lagd@uplink")

    def main(self) -> str:
        """The number of the daemon's process, within."""
        return self.property("MainPID")

    def comes_up(self) -> None:
        """Waits until the unit runs; where systemd itself does not, the part is skipped."""
        active = within(BOOTS, lambda: self.tells("systemctl", "is-active", "lagd@uplink") == "active")
        if not active and "Journal started" not in self.tells("journalctl", "--no-pager"):
            raise Skipped(f"systemd does not run here: {self.told()[-300:]}")
        check(active, "systemd starts the unit, whose Type is notify", self.told())

    def told(self) -> str:
        return read_text(self.log)[-3000:] + self.tells("journalctl", "--no-pager", "--lines", "60")

    def close(self) -> None:
        if self.process.poll() is None:
            self.process.kill()
            self.process.wait()
        ended = lambda: "populated 0" in open(os.path.join(self.group, "cgroup.events"), encoding="utf-8").read()
        within(ANSWERS, ended)
        time.sleep(0.2)
        for place, _, _ in os.walk(self.group, topdown=False):
            with contextlib.suppress(OSError):
                os.rmdir(place)


def journal_lines(machine: Machine, kind: str) -> list[tuple[str | None, str | None, str]]:
    """The lines of a kind in the journal, each with its priority and bundle."""
    told = machine.tells("journalctl", "--no-pager", "--output", "export", f"MESSAGE_ID={ids_of_lines()[kind]}")
    entries = [dict(line.partition("=")[::2] for line in entry.split("\n") if "=" in line) for entry in told.split("\n\n")]
    return [(entry.get("PRIORITY"), entry.get("LAGD_BUNDLE"), entry.get("MESSAGE", "")) for entry in entries if "MESSAGE" in entry]


def rights(machine: Machine) -> None:
    """With which rights the daemon runs."""
    status = machine.tells("cat", f"/proc/{machine.main()}/status")
    has = dict(re.findall(r"^(\w+):\t(\S+)", status, re.M))
    found = {name: int(has.get(name, "0"), 16) for name in ("CapPrm", "CapEff", "CapBnd", "NoNewPrivs", "Seccomp")}
    check(found == {"CapPrm": 1 << 13, "CapEff": 1 << 13, "CapBnd": 1 << 13, "NoNewPrivs": 1, "Seccomp": 2}, "it has CAP_NET_RAW alone, and a filter of system calls", found)
    user = machine.tells("ps", "--no-headers", "-o", "user=", "--pid", machine.main())
    check(user == "lagd", "it runs as the user lagd, whom systemd-sysusers made", user)


def changed(machine: Machine) -> None:
    """The file is changed, and read again."""
    text = BUNDLE.replace("priority=100", "priority=200")
    machine.run("sh", "-c", f"printf %s '{text}' > /etc/lagd/uplink.conf")
    reloaded = machine.run("systemctl", "reload", "lagd@uplink")
    wanted = [("5", "uplink", "/etc/lagd/uplink.conf: read again, 1 ports changed")]
    lines = lambda: journal_lines(machine, "the file was read again")
    check(reloaded.returncode == 0 and within(ANSWERS, lambda: lines() == wanted), "systemctl reload reads the file again", reloaded.stderr, lines())
    machine.run("sh", "-c", "echo wrong >> /etc/lagd/uplink.conf")
    machine.run("systemctl", "reload", "lagd@uplink")
    told = lambda: [line for line in journal_lines(machine, "the file is wrong") if line[0] == "4"]
    check(within(ANSWERS, lambda: len(told()) == 2) and "expected KEY=VALUE: wrong" in told()[0][2], "of a wrong one the journal has what was expected", told())
    check(machine.property("ActiveState") == "active", "and the unit goes on", machine.told())


def comes_back(machine: Machine, theirs: Daemon, what: str, by: str) -> None:
    """The daemon is hurt, and started again."""
    before = machine.main()
    machine.run("systemctl", "kill", "--kill-whom=main", f"--signal={by}", "lagd@uplink")
    restarted = lambda: machine.main() not in ("", "0", before) and machine.property("ActiveState") == "active" and theirs.distributes("b0", "b1")
    check(within(COMES_UP, restarted), f"{what} is started again", machine.told())


def boot(part: Part) -> None:
    part.unhurried()
    with contextlib.closing(Machine(part)) as machine:
        theirs = part.theirs(options=["--timeout", "long"])
        machine.comes_up()
        both = lambda: theirs.distributes("b0", "b1") and machine.property("StatusText") == "up, 2 of 2 links carry"
        check(within(COMES_UP, both), "both links distribute, and systemctl status says so", machine.told(), theirs.text())
        text = machine.tells("lagd", "--status")
        check("---- uplink ----" in text and SYSTEM in text, "lagd --status asks it in the folder of the unit", text)
        check(text.count("  speed: 10000 Mb/s, full duplex\n") == 2, "it may ask for the speed of its links", text)
        rights(machine)
        copied = lambda: machine.tells("tail", "-n", "1", "/var/lib/lagd/uplink/uplink.state") == "end"
        check(within(ANSWERS, copied), "the process that writes the copy of state-dir may do so", machine.told())
        lines = journal_lines(machine, BUNDLE_LINE)
        check(("5", "uplink", "bundle uplink: up, 2 of 2 links carry, aggregator 1") in lines, "the journal finds lines by their message id", lines, machine.told())
        changed(machine)
        machine.run("sh", "-c", f"printf %s '{BUNDLE}' > /etc/lagd/uplink.conf")
        comes_back(machine, theirs, "a daemon that is killed", "SIGKILL")
        comes_back(machine, theirs, "one that says nothing to the watchdog", "SIGSTOP")
        for _ in range(OFTEN):
            before = machine.main()
            machine.run("systemctl", "kill", "--kill-whom=main", "--signal=SIGKILL", "lagd@uplink")
            within(ANSWERS, lambda: machine.main() not in ("", "0", before))
        check(within(COMES_UP, both), f"one that is killed {OFTEN} times as soon as it runs is, too", machine.told())
        check(machine.run("systemctl", "stop", "lagd@uplink").returncode == 0, "systemctl stop stops it")
        check(within(GOES_DOWN, lambda: not (theirs.distributes("b0") or theirs.distributes("b1"))), "its peer is told", theirs.text())
        check(machine.property("Result") == "success", "it ended well", machine.told())
        told = lambda: machine.tells("cat", "/run/lagd/uplink/told").split()[-1:] == ["down"]
        check(within(ANSWERS, told), "the hook of the end runs to its end", machine.told())
        check(machine.tells("find", "/run/lagd/uplink", "-name", "*.sock") == "", "and its socket is gone")
        check(machine.tells("find", "/var/lib/lagd/uplink", "-name", "*.state") == "", "and so is the copy of its state")
        machine.process.send_signal(signal.SIGKILL)


PARTS = {"the unit under systemd": boot}
