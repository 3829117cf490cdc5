"""Runs the daemon of the packages as a new admin would, by the lines of docs/INSTALL.md.

In the tree no systemd runs. So the command line of the unit is run by hand, as the user and with the one capability that the unit names,
in a network namespace with two veth pairs; a second daemon at the other ends is the peer.
"""

from __future__ import annotations

import os
import re
import shutil
import signal
import subprocess
import time
from typing import Callable, NamedTuple, Sequence

from counting import Count, clean, ran
from repository import TOP, read_text, write_text

BUNDLE, FILE = "uplink", "/etc/lagd/uplink.conf"
UNIT = "lib/systemd/system/lagd@.service"
# The lines of docs/INSTALL.md that are tried here; those with systemctl by the commands that the unit names.
LINES = (f"lagd --check {FILE}", f"systemctl enable --now lagd@{BUNDLE}", "lagd --status", "lagd --metrics", f"systemctl reload lagd@{BUNDLE}")
PEER = ["/usr/sbin/lagd", "--folder", "/run/lagd-peer", "9", "32768,02:00:00:00:00:02", "eth1", "eth2"]
# In a new mount namespace: the tree becomes /, with a proc of its own, as in installing.py.
ENTER = ["unshare", "--mount", "--propagation", "private", "sh", "-c", 'mount -t proc proc "$0/proc" && exec chroot "$0" "$@"']
# Some 4 s until both links carry: the daemons wait for a partner, and then 2 s for other links.
PATIENCE = 20


class Unit(NamedTuple):
    """What the unit of the daemon says; and how its file is checked."""

    check: list[str]
    start: list[str]
    user: str
    capability: str


def unit(tree: str) -> Unit:
    """The unit that is installed."""
    said = dict(re.findall(r"^(\w+)=(.*)$", read_text(os.path.join(tree, UNIT)).replace("%i", BUNDLE), re.M))
    start = said["ExecStart"].split()
    return Unit([start[0], "--check", start[2]], start, said["User"], said["CapabilityBoundingSet"])


def as_unit(it: Unit) -> list[str]:
    """What stands before the command line of the unit: its user, and its capability alone."""
    name = it.capability.lower().removeprefix("cap_")
    user = ["setpriv", f"--reuid={it.user}", f"--regid={it.user}", "--init-groups", "--no-new-privs"]
    return [*user, f"--inh-caps=-all,+{name}", f"--ambient-caps=-all,+{name}", f"--bounding-set=-all,+{name}"]


def folder(it: Unit) -> list[str]:
    """What makes the folder of the status, which systemd makes before it starts the daemon."""
    return ["install", "-d", "-o", it.user, "-g", it.user, f"/run/lagd/{BUNDLE}"]


def file() -> str:
    """The file of the bundle without data, as docs/INSTALL.md has it: the unit alone gives no right to carry data."""
    [rows] = re.findall(r"^    \[Bundle\]\n(?:    \S.*\n)+", read_text(os.path.join(TOP, "docs", "INSTALL.md")), re.M)
    return re.sub(r"^    ", "", rows, flags=re.M)


class Bench:
    """Two network namespaces, and the daemons in them."""

    def __init__(self, tree: str) -> None:
        self.tree, self.spaces = tree, [f"lagd-{end}-{os.getpid()}" for end in ("ours", "theirs")]
        self.running: list[subprocess.Popen[bytes]] = []

    def words(self, space: int, words: Sequence[str]) -> list[str]:
        """A command in the tree, in one of the namespaces."""
        return ["ip", "netns", "exec", self.spaces[space], *ENTER, self.tree, *words]

    def run(self, *words: str) -> subprocess.CompletedProcess[str]:
        """Runs a command beside the daemon."""
        return ran(self.words(0, words), PATH="/usr/sbin:/usr/bin:/sbin:/bin")

    def start(self, space: int, words: Sequence[str]) -> subprocess.Popen[bytes]:
        """Starts a daemon."""
        more = {**clean(), "PATH": "/usr/sbin:/usr/bin:/sbin:/bin"}
        self.running.append(subprocess.Popen(self.words(space, words), stdout=subprocess.DEVNULL, stderr=subprocess.DEVNULL, env=more))
        return self.running[-1]

    def make(self) -> str:
        """Makes namespaces and veth pairs; answers why it can't."""
        lines = [f"netns add {it}" for it in self.spaces]
        for name in ("eth1", "eth2"):
            lines.append(f"-n {self.spaces[0]} link add {name} type veth peer name {name} netns {self.spaces[1]}")
            lines += [f"-n {it} link set {name} up" for it in self.spaces]
        for line in lines:
            ended = ran(["ip", *line.split()])
            if ended.returncode:
                return f"ip {line}: {ended.stderr.strip()}"
        return ""

    def drop(self) -> None:
        """Ends the daemons, and takes the namespaces away."""
        for it in self.running:
            if it.poll() is None:
                it.kill()
            it.wait()
        for space in self.spaces:
            ran(["ip", "netns", "del", space])


def until(told: Callable[[], str], wanted: str) -> str:
    """Waits until a text is told; answers what is told in its place, or nothing."""
    ends = time.monotonic() + PATIENCE
    found = told()
    while wanted not in found and time.monotonic() < ends:
        time.sleep(0.3)
        found = told()
    return "" if wanted in found else f"{wanted!r} is not in {found[-500:]!r}"


def try_lines(count: Count, it: Unit) -> None:
    """docs/INSTALL.md has each line that is tried, and the command line of the unit."""
    lines = read_text(os.path.join(TOP, "docs", "INSTALL.md")).replace("\\\n", "").split("\n")
    rows = [" ".join(re.sub(r"  +#.*", "", line).split()) for line in lines if line.startswith("    ")]
    wanted = (*LINES, " ".join(folder(it)), " ".join([*as_unit(it), *it.start]))
    count.add(f"docs/INSTALL.md has the {len(wanted)} lines that an admin writes", ", ".join(it for it in wanted if it not in rows))


def try_start(count: Count, bench: Bench) -> subprocess.Popen[bytes]:
    """A file, the command line of the unit, a status and a metric."""
    it = unit(bench.tree)
    write_text(bench.tree + FILE, file())
    checked = bench.run(*it.check)
    count.add(f"{' '.join(it.check)} takes the file of INSTALL", checked.stderr or ("it fails" if checked.returncode else ""))
    bench.run(*folder(it))
    daemon = bench.start(0, [*as_unit(it), *it.start])
    bench.start(1, PEER)
    status, metrics = (lambda word=word: bench.run("lagd", word).stdout for word in ("--status", "--metrics"))
    count.add("the command line of the unit brings the bundle up", until(status, "status: up, 2 of 2 links carry"))
    count.add("lagd --metrics says so", until(metrics, f'lagd_bundle_state{{bundle="{BUNDLE}",state="up"}} 1\n'))
    return daemon


def try_reload(count: Count, bench: Bench, daemon: subprocess.Popen[bytes]) -> None:
    """A reload takes another file, and nothing of a wrong one."""
    status = lambda: bench.run("lagd", "--status").stdout  # noqa: E731
    for text, wanted in (("min-links=2", "min_links: 2"), ("min-links=many", "min_links: 2"), ("min-links=1", "min_links: 1")):
        write_text(bench.tree + FILE, file().replace("system=auto", f"system=auto\n{text}"))
        daemon.send_signal(signal.SIGHUP)
        time.sleep(1)
        count.add(f"a reload with {text}: {wanted}", until(status, wanted) or until(status, "status: up, 2 of 2 links carry"))


def try_upgraded(count: Count, bench: Bench, daemon: subprocess.Popen[bytes]) -> None:
    """An upgrade leaves the daemon alone; a new start runs the new one, which SIGTERM ends."""
    status = lambda: bench.run("lagd", "--status").stdout  # noqa: E731
    old = os.readlink(f"/proc/{daemon.pid}/exe") if daemon.poll() is None else "it ended"
    told = "" if old.endswith("/usr/sbin/lagd (deleted)") else f"{old} runs"
    count.add("an upgrade leaves the links up", told or until(status, "status: up, 2 of 2 links carry"))
    daemon.terminate()
    ended = daemon.wait(PATIENCE)
    again = bench.start(0, [*as_unit(unit(bench.tree)), *unit(bench.tree).start])
    told = until(status, "status: up, 2 of 2 links carry")
    again.terminate()
    count.add("the daemon ends by SIGTERM, and the new one brings the links up", told or f"status {ended}" * bool(ended or again.wait(PATIENCE)))


def tried(count: Count, tree: str, upgrade: Callable[[], None]) -> None:
    """Runs the daemon that is installed in the tree, while `upgrade` installs a newer one."""
    try_lines(count, unit(tree))
    missing = [it for it in ("ip", "unshare", "chroot") if not shutil.which(it)]
    bench = Bench(tree)
    try:
        why = f"there is no command {missing[0]}" if missing else bench.make()
        if why:
            print(f"skipped: the daemon in the tree: {why}")
            upgrade()
            return
        daemon = try_start(count, bench)
        try_reload(count, bench, daemon)
        upgrade()
        try_upgraded(count, bench, daemon)
    finally:
        bench.drop()
