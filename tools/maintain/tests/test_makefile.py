"""When the Makefile makes the library anew."""

from __future__ import annotations

import os
import shutil
import subprocess
from pathlib import Path

import pytest

import loading

# In the place of tools/library: notes its compiler, which may be missing, in the file that make wants.
TOOL = """\
import os, shutil, sys
assert shutil.which(os.environ["CC"])
with open(f"{sys.argv[-1]}/liblag.so.0", "a") as it:
    print(os.environ["CC"], os.environ["CFLAGS"], file=it)
"""


@pytest.fixture
def clone(tmp_path: Path) -> Path:
    for name in ("c/lag.c", "crates/lagffi/include/lag.h", "tools/library.py"):
        (tmp_path / name).parent.mkdir(parents=True, exist_ok=True)
        (tmp_path / name).touch()
    (tmp_path / "tools/library").write_text(TOOL)
    (tmp_path / "Makefile").write_text(loading.text_of("Makefile"))
    return tmp_path


def make(clone: Path, *words: str) -> int:
    """The status of `make library`, where no package has it."""
    given = {name: value for name, value in os.environ.items() if name not in ("CC", "CFLAGS", "LAG_FOLDER", "MAKEFLAGS")}
    return subprocess.run(["make", "-s", "library", "PKG_CONFIG=false", *words], cwd=clone, env=given, capture_output=True).returncode


def made(clone: Path) -> list[str]:
    """The compilers that made it, one after the other."""
    return (clone / "out/lib/liblag.so.0").read_text().splitlines()


@pytest.mark.skipif(not shutil.which("make"), reason="there is no make")
def test_another_compiler_other_words_or_another_folder_make_the_library_anew(clone: Path) -> None:
    for words in ((), (), ("CC=cat",), ("CC=cat",), ("CFLAGS=-O1 -g",), ()):
        assert make(clone, *words) == 0
    assert made(clone) == ["cc -O2", "cat -O2", "cc -O1 -g", "cc -O2"]
    (clone / "folder").mkdir()
    for name in ("liblag.so.0", "liblag.a"):
        (clone / "folder" / name).write_text("taken\n")
    assert make(clone, "LAG_FOLDER=folder") == 0 and made(clone) == ["taken"]
    assert not any(it.is_symlink() for it in (clone / "out").rglob("*"))  # the toolchain takes no clone with a link
    assert make(clone) == 0 and made(clone) == ["taken", "cc -O2"]


@pytest.mark.skipif(not shutil.which("make"), reason="there is no make")
def test_a_compiler_that_is_not_here_fails_each_time_and_is_forgotten_by_the_next(clone: Path) -> None:
    assert make(clone) == 0
    assert make(clone, "CC=/nonexistent/gcc") != 0 and make(clone, "CC=/nonexistent/gcc") != 0
    assert make(clone) == 0 and made(clone) == ["cc -O2", "cc -O2"]
