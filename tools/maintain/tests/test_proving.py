"""What the proof of the program says of how far it is."""

from __future__ import annotations

import os
import pathlib
import signal
import subprocess
import sys
import time
from typing import Any

import pytest

import loading

proving: Any = loading.module("lagtool.d", "proving")


def test_the_proof_tells_what_passed_and_promises_no_time(monkeypatch: pytest.MonkeyPatch, capsys: pytest.CaptureFixture[str]) -> None:
    proof = proving.Proof("lagtool")
    *first, last = proof.all
    assert last == "lagtool" and len(first) > 5
    now = [proof.began]
    monkeypatch.setattr(proving.time, "time", lambda: now[0])
    for crate in first:
        now[0] += 70
        proof.proved.add(crate)
        proof.show("the proof goes on")
    lines = capsys.readouterr().err.splitlines()
    assert len(lines) == len(first)
    assert lines[0].endswith(f"the proof goes on: 1 of {len(proof.all)} crates after 70 seconds")
    assert lines[-1].endswith(f"the proof goes on: {len(first)} of {len(proof.all)} crates after {70 * len(first) / 60:.0f} minutes")
    assert not [it for it in lines if "more" in it]


def test_nothing_is_said_once_all_is_proved(capsys: pytest.CaptureFixture[str]) -> None:
    proof = proving.Proof("lagtool")
    proof.proved.update(proof.all)
    proof.show("the proof goes on")
    assert capsys.readouterr().err == ""


def is_there(process: int) -> bool:
    """Whether a process runs."""
    try:
        with open(f"/proc/{process}/stat", encoding="utf-8") as it:
            return it.read().rpartition(")")[2].split()[0] != "Z"
    except FileNotFoundError:
        return False


@pytest.mark.parametrize("ends, status", [(signal.SIGINT, 130), (signal.SIGTERM, 143)])
def test_a_proof_that_is_stopped_leaves_no_process(ends: signal.Signals, status: int, tmp_path: pathlib.Path) -> None:
    rt, began = tmp_path / "rt", tmp_path / "began"
    rt.write_text(f"#!/bin/sh\nsleep 300 &\necho $! >> {began}\nwait\n", encoding="utf-8")
    rt.chmod(0o755)
    words = [sys.executable, os.path.join(loading.TOOLS, "lagtool"), "--prove"]
    # What is started behind `&` ignores SIGINT.
    hears = lambda: signal.signal(signal.SIGINT, signal.SIG_DFL)
    with subprocess.Popen(words, env={**os.environ, "RT": str(rt)}, stderr=subprocess.PIPE, preexec_fn=hears) as proof:
        for _ in range(300):
            if began.exists() and began.read_text():
                break
            time.sleep(0.1)
        proof.send_signal(ends)
        try:
            proof.communicate(timeout=30)
        finally:
            proof.kill()
    assert proof.returncode == status
    started = [int(it) for it in began.read_text().split()]
    assert started
    # On a loaded machine a process that was killed ends a little later; one that was not sleeps on for minutes.
    for _ in range(300):
        if not [it for it in started if is_there(it)]:
            break
        time.sleep(0.1)
    assert not [it for it in started if is_there(it)]
