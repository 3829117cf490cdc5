"""What tests of the command share: a run beside a stack in a file."""

from __future__ import annotations

import sys
from pathlib import Path
from typing import Iterator, Type

import pytest
from conform_device import Device

from lagconform import command
from lagconform.groups import GROUPS, TESTS


@pytest.fixture
def run(monkeypatch: pytest.MonkeyPatch, tmp_path: Path) -> Iterator[object]:
    """Runs the command beside a stack in a file that has this device; its status."""
    kept, groups = list(TESTS), list(GROUPS)
    monkeypatch.setattr(sys, "path", list(sys.path))

    def begin(kind: Type[Device], *words: str) -> int:
        (tmp_path / "device.py").write_text(f"from {kind.__module__} import {kind.__name__} as Device\n")
        monkeypatch.chdir(tmp_path)
        return command.main(["--memory", "device.py", *words])

    yield begin
    TESTS[:], GROUPS[:] = kept, groups
