"""Guests of User-mode Linux whose root is this machine's tree, for reading: what they print."""

from __future__ import annotations

import contextlib
import os
import re
import signal
import subprocess

import usermode
from checking import Failed, check


def boot(linux: str, init: str, folder: str, own: str, seconds: float, *words: str) -> str:
    """Runs a guest until it ends, in a folder of its own; answers what it printed. `folder` is where what is loaded before it is made."""
    os.makedirs(own, exist_ok=True)
    said = ["root=/dev/root", "rootfstype=hostfs", "rootflags=/", "ro", f"init={init}", f"uml_dir={own}", "con=null", "con0=null,fd:1", "ssl=null", "panic=-1", "quiet"]
    run = subprocess.Popen([linux, *said, *words], stdin=subprocess.DEVNULL, stdout=subprocess.PIPE, stderr=subprocess.DEVNULL, start_new_session=True, env=usermode.environment(folder))
    try:
        told, _ = run.communicate(timeout=seconds)
    except subprocess.TimeoutExpired as why:
        raise Failed(f"{os.path.basename(own)}: the guest ends in time", (why.stdout or b"").decode(errors="replace")[-1500:]) from why
    finally:
        # Also where this tool is ended meanwhile: each process of a guest is one of this machine.
        with contextlib.suppress(ProcessLookupError):
            os.killpg(run.pid, signal.SIGKILL)
        run.wait()
    return told.decode(errors="replace").replace("\r", "")


def ended(told: str) -> bool:
    """Whether a guest came to its end."""
    return "guest: done" in told.splitlines()


def judge(script: str, told: str) -> None:
    """Counts what a guest found, and prints its rows."""
    lines = told.splitlines()
    for at, line in enumerate(lines):
        kind, _, what = line.partition(": ")
        if kind in ("passed", "FAILED"):
            check(kind == "passed", f"{script}: {what}", *lines[at + 1:at + 3])
        elif kind == "row":
            print(line)
    if any(line.startswith("question ") for line in lines):
        print("\n".join(line for line in lines if re.match(r"question |[<>] ", line)))
    check(ended(told), f"{script}: the guest comes to its end", told[-800:])
