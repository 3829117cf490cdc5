"""A kernel for User-mode Linux that looks at what a driver does: lockdep, KASAN, sleeping where none may, objects, lost memory; and refuses memory where it is told to.
It is made once of Debian's sources and kept, as the module of it is built in its tree."""

from __future__ import annotations

import fcntl
import os
import re
import shutil
import subprocess

from bonding import Kernel, archive_of
from built import Built
from checking import Failed
from repository import read_text, say, write_text

SERIES = "6.1"
# What is built in: no driver but those of the trials.
PARTS = """64BIT MODULES MODULE_UNLOAD PRINTK PRINTK_TIME BUG EXPERT FUTEX EPOLL SIGNALFD TIMERFD EVENTFD SHMEM AIO ADVISE_SYSCALLS MEMBARRIER POSIX_TIMERS HIGH_RES_TIMERS
NO_HZ_IDLE FILE_LOCKING MULTIUSER SYSFS PROC_FS PROC_SYSCTL TMPFS DEVTMPFS HOSTFS BINFMT_ELF BINFMT_SCRIPT TTY UNIX98_PTYS STDERR_CONSOLE SSL NULL_CHAN NAMESPACES NET_NS
UTS_NS PID_NS USER_NS NET PACKET UNIX INET IPV6 IP_MULTICAST NETDEVICES NET_CORE DUMMY VETH TUN MACVLAN BRIDGE BRIDGE_VLAN_FILTERING VLAN_8021Q NET_SCHED NET_SCH_INGRESS
NET_SCH_NETEM NET_CLS NET_CLS_MATCHALL NET_CLS_ACT NET_ACT_MIRRED NET_ACT_GACT BPF_SYSCALL ETHTOOL_NETLINK NETCONSOLE KALLSYMS KALLSYMS_ALL DEBUG_INFO_NONE"""
# What looks at it.
LOOKS = """DEBUG_KERNEL DEBUG_FS PROVE_LOCKING PROVE_RAW_LOCK_NESTING PROVE_RCU PROVE_RCU_LIST RCU_EXPERT DEBUG_ATOMIC_SLEEP DEBUG_LOCK_ALLOC DEBUG_SPINLOCK DEBUG_MUTEXES DEBUG_LIST
DEBUG_SG DEBUG_NOTIFIERS DEBUG_OBJECTS DEBUG_OBJECTS_FREE DEBUG_OBJECTS_TIMERS DEBUG_OBJECTS_WORK DEBUG_OBJECTS_RCU_HEAD DEBUG_STACK_USAGE SCHED_STACK_END_CHECK
DETECT_HUNG_TASK WQ_WATCHDOG SLUB SLUB_DEBUG DEBUG_KMEMLEAK KASAN KASAN_GENERIC KASAN_OUTLINE KASAN_VMALLOC FAULT_INJECTION FAILSLAB FAIL_PAGE_ALLOC
FAULT_INJECTION_DEBUG_FS FAULT_INJECTION_STACKTRACE_FILTER NET_DEV_REFCNT_TRACKER NET_NS_REFCNT_TRACKER DEBUG_NET"""
VALUES = """LOCALVERSION="-checked"
LOG_BUF_SHIFT=18
FRAME_WARN=0
LOCKDEP_BITS=16
LOCKDEP_CHAINS_BITS=17
DEBUG_OBJECTS_ENABLE_DEFAULT=1
DEFAULT_HUNG_TASK_TIMEOUT=60
DEBUG_KMEMLEAK_MEM_POOL_SIZE=16000
BONDING=m
KASAN_STACK=n
DEBUG_KMEMLEAK_AUTO_SCAN=n
CON_ZERO_CHAN="fd:0,fd:1"
CON_CHAN="null"
SSL_CHAN="null"
"""
# What the kernel's configuration leaves out for User-mode Linux, where it holds: it has no preemption, but counts; and its stacks are read word by word.
ALLOWED = (
    ("DEBUG_ATOMIC_SLEEP", "depends on !ARCH_NO_PREEMPT"),
    ("FAULT_INJECTION_STACKTRACE_FILTER", "depends on !X86_64"),
    ("FAULT_INJECTION_STACKTRACE_FILTER", "depends on FRAME_POINTER || MIPS || PPC || S390 || MICROBLAZE || ARM || ARC || X86"),
)


def allow(tree: str) -> None:
    """Takes the lines of ALLOWED away."""
    path = f"{tree}/lib/Kconfig.debug"
    text = read_text(path).replace("select PREEMPT_COUNT if !ARCH_NO_PREEMPT", "select PREEMPT_COUNT")
    for name, line in ALLOWED:
        text, count = re.subn(rf"(^config {name}\n(?:\t.*\n|\n)*?)\t{re.escape(line)}\n", r"\1", text, count=1, flags=re.M)
        if not count:
            raise Failed(f"lib/Kconfig.debug has {line} of {name}")
    write_text(path, text)


def make(tree: str, log: str, *words: str) -> None:
    with open(log, "a", encoding="utf-8") as out:
        ended = subprocess.run(["make", "ARCH=um", *words], cwd=tree, stdin=subprocess.DEVNULL, stdout=out, stderr=subprocess.STDOUT)
    if ended.returncode:
        raise Failed(f"make {' '.join(words)} of the kernel that checks; all of it: {log}", read_text(log)[-1200:])


def checked(built: Built) -> Kernel:
    """The kernel; its program is `linux` in its tree. One run at a time makes it."""
    with open(f"{built.sources.cache}/kernel-busy", "w", encoding="utf-8") as lock:
        fcntl.flock(lock, fcntl.LOCK_EX)
        return made(built)


def made(built: Built) -> Kernel:
    """The kernel, which is made where it is not of these words yet."""
    archive = archive_of(built.sources, SERIES)
    of = f"{archive} {os.path.getmtime(archive)}\n{PARTS}\n{LOOKS}\n{VALUES}\n{ALLOWED}"
    folder = f"{built.sources.cache}/kernels/checked"
    tree, log = f"{folder}/linux-source-{SERIES}", f"{folder}/log"
    kernel = Kernel("checked", tree, tree, ("ARCH=um",))
    if os.path.exists(f"{folder}/made") and read_text(f"{folder}/made") == of:
        return kernel
    say(f"builds a kernel that checks, once, some ten minutes of two processors; what that prints is in {log}")
    shutil.rmtree(folder, ignore_errors=True)
    os.makedirs(folder)
    subprocess.run(["tar", "-x", "-f", archive, "-C", folder, "--exclude=*/Documentation", "--exclude=*/sound/*/*.c", "--exclude=*/drivers/gpu/*.[ch]"], check=True)
    allow(tree)
    chosen = "".join(f"CONFIG_{it}=y\n" for it in f"{PARTS} {LOOKS}".split()) + "".join(f"CONFIG_{it}\n" for it in VALUES.splitlines())
    write_text(f"{folder}/chosen", chosen)
    make(tree, log, f"KCONFIG_ALLCONFIG={folder}/chosen", "allnoconfig")
    has = read_text(f"{tree}/.config").splitlines()
    lacks = [it for it in chosen.splitlines() if not it.endswith("=n") and it not in has]
    if lacks:
        raise Failed("the kernel's configuration has what is asked for", *lacks)
    make(tree, log, f"-j{os.cpu_count() or 2}")
    write_text(f"{folder}/made", of)
    return kernel
