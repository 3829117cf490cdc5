"""Tries the packages: lintian looks at them, and a minimal tree of Debian installs, runs, upgrades, removes and purges them.

The tree is made by debootstrap once, and kept in the cache folder; each run works on a copy. No systemd runs in it.
"""

from __future__ import annotations

import glob
import os
import shutil
import subprocess
import tempfile
from typing import Sequence

import admin
import trying
from building import version
from counting import Count, ran
from library import printed
from processors import AMD64, Processor
from repository import CACHE, Missing, say, write_text

RELEASE = "bookworm"
TREE = os.path.join(CACHE, "niwhopera-dist", "tree")
# What the tree has besides; systemd-standalone-sysusers makes users where systemd is not installed.
NEEDED = ["python3", "bash-completion", "systemd-standalone-sysusers"]
# What apt and dpkg write for themselves, and copies that are made as users are made.
THEIRS = (
    "var/lib/dpkg/", "var/lib/apt/", "var/cache/", "var/log/", "etc/ld.so.cache", "debs", "proc/", "run/",
    "etc/passwd-", "etc/group-", "etc/shadow-", "etc/gshadow-",
)  # fmt: skip
CONFIGURATION = "etc/lagd/kept-by-the-admin.conf"
# What an admin wrote.
WRITTEN = (CONFIGURATION, admin.FILE.lstrip("/"))
# What a removal leaves beside it, until a purge: configuration, and what Debian's helper of systemd keeps of units.
UNTIL_PURGED = "etc/", "var/lib/systemd/deb-systemd-helper-"
LACPDU = trying.LACPDU
# Commands in the tree, what each gets on standard input, and what it prints first.
RUNS = [
    (["lagtool", "decode", LACPDU], "", "lacpdu\n"),
    (["sh", "-c", "lagframes /usr/share/doc/niwhopera-tools/examples/captures/bonding.pcap | lagtool check -"], "", "1 lacpdu\n"),
    (["sh", "-c", "cd /usr/share/doc/niwhopera-tools/examples && lagtool replay two-ports-come-up.toml | lagdraw"], "", "<svg "),
    (["lagd", "--version"], "", "lagd "),
    (["lagd-snmp", "--version"], "", "lagd-snmp "),
    (["python3", "-W", "error", "-"], "import niwhopera as n\nprint(n.System.__name__, n._library.functions().new.__name__)\n", "System lagffi_new\n"),
    (["lagconform", "--version"], "", "lagconform "),
    (["dpkg", "--verify"], "", ""),
]


def lint(count: Count, files: Sequence[str]) -> None:
    """lintian has neither an error nor a warning for the packages."""
    if not shutil.which("lintian"):
        print("skipped: lintian: there is no such command (Debian: lintian)")
        return
    ended = subprocess.run(["lintian", "--allow-root", "--tag-display-limit", "0", *files], capture_output=True, text=True)
    said = [line for line in (ended.stdout + ended.stderr).split("\n") if line[:2] in ("E:", "W:")]
    count.add(f"lintian has neither an error nor a warning for {len(files)} packages", "; ".join(said) or ("" if ended.returncode == 0 else ended.stderr[-400:]))


def in_tree(tree: str, words: Sequence[str], given: str = "") -> subprocess.CompletedProcess[str]:
    """Runs a command in the tree, with a proc of its own and without the toolchain."""
    line = ["unshare", "--mount", "--propagation", "private", "sh", "-c", 'mount -t proc proc "$0/proc" && exec chroot "$0" "$@"', tree, *words]
    return ran(line, given, PATH="/usr/sbin:/usr/bin:/sbin:/bin", LC_ALL="C.UTF-8", DEBIAN_FRONTEND="noninteractive", HOME="/root")


def done(tree: str, *words: str) -> str:
    """What a command in the tree prints; stops where it fails."""
    ended = in_tree(tree, words)
    if ended.returncode:
        raise Missing(f"{' '.join(words)} fails in the tree: {(ended.stderr or ended.stdout).strip()[-600:]}")
    return ended.stdout


def base_tree() -> str | None:
    """A minimal tree with what the packages need; None, with a line, where it cannot be made."""
    if os.path.exists(f"{TREE}/made-with-{'-'.join(NEEDED)}"):
        return TREE
    missing = [it for it in ("debootstrap", "unshare", "chroot") if not shutil.which(it)]
    if missing or os.geteuid():
        print(f"skipped: a tree of Debian: {f'there is no command {missing[0]}' if missing else 'not root'}")
        return None
    say(f"making a minimal tree of {RELEASE}")
    shutil.rmtree(TREE, ignore_errors=True)
    made = ran(["debootstrap", "--variant=minbase", RELEASE, TREE])
    if made.returncode:
        print(f"skipped: a tree of Debian: debootstrap fails: {(made.stderr or made.stdout)[-300:]}")
        return None
    write_text(f"{TREE}/usr/sbin/policy-rc.d", "#!/bin/sh\nexit 101\n")
    os.chmod(f"{TREE}/usr/sbin/policy-rc.d", 0o755)
    # A minimal tree as those of containers leaves documents out; this one is looked at.
    for file in glob.glob(f"{TREE}/etc/dpkg/dpkg.cfg.d/*"):
        os.remove(file)
    done(TREE, "apt-get", "update")
    done(TREE, "apt-get", "install", "-y", "--no-install-recommends", *NEEDED)
    with open(f"{TREE}/made-with-{'-'.join(NEEDED)}", "w", encoding="utf-8"):
        return TREE


def there(tree: str) -> set[str]:
    """The files of the tree, but for those that apt and dpkg write for themselves."""
    found = set()
    for at, _, files in os.walk(tree):
        folder = os.path.relpath(at, tree)
        found |= {os.path.normpath(os.path.join(folder, it)) for it in files}
    return {it for it in found if not it.startswith(THEIRS) and "/__pycache__/" not in it}


def install(tree: str, files: Sequence[str]) -> None:
    """Installs packages, or their newer versions."""
    os.makedirs(f"{tree}/debs", exist_ok=True)
    for file in files:
        shutil.copy(file, f"{tree}/debs")
    done(tree, "apt-get", "install", "-y", "--no-install-recommends", *(f"/debs/{os.path.basename(it)}" for it in files))


def try_installed(count: Count, tree: str) -> None:
    """What is installed runs, links lead somewhere, and a program is built with it."""
    for words, given, begins in RUNS:
        ended = in_tree(tree, words, given)
        right = ended.returncode == 0 and ended.stdout.startswith(begins) and (begins or not ended.stdout)
        count.add(f"in a minimal tree: {' '.join(words)[:60]}", "" if right else f"status {ended.returncode}, {ended.stdout[:200]!r}, {ended.stderr[:300]!r}")
    trying.try_documents(count, tree, "usr/share/doc/niwhopera-tools")
    library = f"{tree}/usr/{AMD64.libraries}"
    trying.try_library(count, tree, f"{library}/pkgconfig/lag.pc", {"PKG_CONFIG_SYSROOT_DIR": tree, "PKG_CONFIG_ALLOW_SYSTEM_LIBS": "1", "PKG_CONFIG_ALLOW_SYSTEM_CFLAGS": ""}, library)


def versions(tree: str, names: Sequence[str]) -> set[str]:
    """The versions of packages that are installed."""
    return set(done(tree, "dpkg-query", "-W", "-f", "${Status} ${Version}\n", *names).strip().split("\n"))


def satisfy(tree: str, files: Sequence[str], names: Sequence[str]) -> None:
    """Installs what the packages depend on, so that what is left over after them is theirs."""
    told = [it.strip() for file in files for it in printed("dpkg-deb", "-f", file, "Depends").split(",")]
    wanted = sorted({it for it in told if it and it.split()[0].split(":")[0] not in names})
    done(tree, "apt-get", "satisfy", "-y", "--no-install-recommends", ", ".join(wanted))


def try_purge(count: Count, tree: str, files: Sequence[str], wanted: set[str], what: str) -> None:
    """Purges the packages. apt purges what is installed, and knows no more of a package that left nothing."""
    install(tree, files)
    done(tree, "apt-get", "purge", "-y", *(os.path.basename(it).split("_")[0] for it in files))
    count.add(f"apt purges them, and leaves {what}", "; ".join(sorted(there(tree) ^ wanted)[:9]))


def try_life(count: Count, tree: str, files: Sequence[str], newer: Sequence[str]) -> None:
    """Installs the packages, runs them, upgrades, removes and purges them."""
    names = [os.path.basename(it).split("_")[0] for it in files]
    satisfy(tree, files, names)
    before = there(tree)
    install(tree, files)
    count.add("apt installs the packages", "" if versions(tree, names) == {f"install ok installed {version()}"} else "they are not installed")
    try_installed(count, tree)
    write_text(f"{tree}/{CONFIGURATION}", "# An admin wrote this.\n")
    admin.tried(count, tree, lambda: install(tree, newer))
    told = versions(tree, names)
    count.add("apt upgrades the packages, and keeps the configuration", "" if told == {f"install ok installed {version()}+1"} and os.path.exists(f"{tree}/{CONFIGURATION}") else f"{told}")
    done(tree, "apt-get", "remove", "-y", *names)
    left = [it for it in there(tree) - before if it not in WRITTEN and not it.startswith(UNTIL_PURGED)]
    count.add("apt removes them, but for the configuration", "; ".join(left) or ("" if os.path.exists(f"{tree}/{CONFIGURATION}") else "the configuration is gone"))
    written = {it for it in WRITTEN if os.path.exists(f"{tree}/{it}")}
    try_purge(count, tree, newer, before | written, "what an admin wrote")
    for file in written:
        os.remove(f"{tree}/{file}")
    try_purge(count, tree, newer, before, "nothing")
    count.add("/etc/lagd goes with its last file", "it is left" if os.path.isdir(f"{tree}/etc/lagd") else "")


def tried(count: Count, files: Sequence[str], newer: Sequence[str]) -> None:
    """Tries the packages, and an upgrade from them to newer ones."""
    lint(count, files)
    base = base_tree()
    if not base:
        return
    with tempfile.TemporaryDirectory(dir=os.path.dirname(TREE)) as folder:
        tree = os.path.join(folder, "tree")
        if ran(["cp", "-a", base, tree]).returncode:
            raise Missing(f"{base} cannot be copied")
        os.chmod(folder, 0o755)
        try_life(count, tree, files, newer)


def tried_elsewhere(count: Count, files: Sequence[str], processor: Processor) -> None:
    """Tries packages of another processor: unpacks them into one tree, and runs what they have."""
    lint(count, files)
    with tempfile.TemporaryDirectory() as tree:
        for file in files:
            count.add(f"{os.path.basename(file)} unpacks", ran(["dpkg-deb", "-x", file, tree]).stderr)
        for program in ("usr/bin/lagtool", "usr/sbin/lagd"):
            ended = ran([*processor.runs, os.path.join(tree, program), "--version"], LD_LIBRARY_PATH=os.path.join(tree, "usr", processor.libraries))
            name = os.path.basename(program)
            count.add(f"{name} of the packages runs", "" if ended.stdout == f"{name} {version()}\n" else ended.stderr[:300] or ended.stdout[:300])
