"""User-mode Linux on a processor whose registers it does not know: what is loaded before it."""

from __future__ import annotations

import os
import subprocess
import threading

from checking import Failed
from repository import COMPILER, MAINTAIN, WARNINGS

REGISTERS = os.path.join(MAINTAIN, "live.d", "registers.c")


def environment(folder: str) -> dict[str, str]:
    """Our environment, with the library of registers.c, which is made in a folder where it is not there yet."""
    made = f"{folder}/registers.so"
    if not os.path.exists(made):
        part = f"{made}.{threading.get_native_id()}"
        words = [*COMPILER, "-O1", *WARNINGS, "-Wno-pedantic", "-shared", "-fPIC", "-o", part, REGISTERS]
        ended = subprocess.run(words, capture_output=True, text=True)
        if ended.returncode:
            raise Failed(f"{COMPILER[0]} compiles {REGISTERS}", ended.stderr[-1500:])
        os.replace(part, made)
    return {**os.environ, "LD_PRELOAD": made}
