"""What refuse-memory and refuse-program share: a program that is run while calls of the C library are refused."""

from __future__ import annotations

import os
import subprocess
import tempfile
from typing import Any

from repository import CC, COMPILER, MAINTAIN, Missing, want

# No run takes so long.
SECONDS = 60


class Refuser:
    """The preloaded library, built in a folder of its own."""

    def __enter__(self) -> Refuser:
        want(CC)
        self.folder = tempfile.TemporaryDirectory()
        self.library = os.path.join(self.folder.name, "refuse.so")
        words = [*COMPILER, "-O2", "-Wall", "-fPIC", "-shared", "-o", self.library, os.path.join(MAINTAIN, "refuse.c")]
        if subprocess.run(words).returncode:
            raise Missing(f"{CC} does not build tools/maintain/refuse.c")
        return self

    def __exit__(self, *_: object) -> None:
        self.folder.cleanup()

    def run(self, words: list[str], calls: str, **how: Any) -> tuple[subprocess.CompletedProcess[bytes], bool]:
        """Runs the words with these calls refused, as malloc:3; answers how it ended, and whether such a call came."""
        seen, told = os.pipe()
        env = {"LD_PRELOAD": self.library, "REFUSE": calls, "REFUSE_TO": str(told)}
        try:
            ended = subprocess.run(words, env=env, pass_fds=[told], capture_output=True, timeout=SECONDS, **how)
        finally:
            os.close(told)
        with open(seen, "rb") as it:
            return ended, it.read() != b""
