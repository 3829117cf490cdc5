"""What the guests of tools/maintain/machines are made of, and what they answer."""

from __future__ import annotations

import socket
import subprocess
from pathlib import Path

import pytest

import loading

loading.program("machines")  # what its modules import is looked up then
filing = loading.module("machines.d", "filing")
guests = loading.module("machines.d", "guest")
moves = loading.module("machines.d", "moves")
tree = loading.module("machines.d", "tree")


def test_an_archive_has_files_links_and_the_folders_that_they_stand_in(tmp_path: Path) -> None:
    entries = [filing.Entry("a/b/text", b"one\n"), filing.Entry("run", b"#!/bin/sh\n", filing.FILE | 0o755), filing.Entry("a/to", b"b/text", filing.LINK)]
    made = filing.archive([*entries, filing.Entry("proc", None)])
    assert len(made) % 512 == 0 and made.startswith(b"070701")
    names = [it.partition(b"\0")[0] for it in made.split(b"070701")[1:]]
    assert [it[104:].decode() for it in names] == ["a", "a/b", "a/b/text", "run", "a/to", "proc", "TRAILER!!!"]
    if subprocess.run(["sh", "-c", "command -v cpio"], capture_output=True).returncode:
        pytest.skip("there is no cpio")
    subprocess.run(["cpio", "-i", "--quiet"], input=made, cwd=tmp_path, check=True)
    assert (tmp_path / "a/to").read_text() == "one\n" and (tmp_path / "run").stat().st_mode & 0o777 == 0o755


def test_a_late_answer_is_not_that_of_the_next_script(tmp_path: Path) -> None:
    near, far = socket.socketpair()
    shell = tree.SHELL.replace("3<>/dev/virtio-ports/shell", f"3<&{far.fileno()}").replace("/run/", f"{tmp_path}/")
    guest, line = guests.Guest.__new__(guests.Guest), guests.Line.__new__(guests.Line)
    guest.shell, guest.scripts, line.socket, line.left = line, 0, near, b""
    with subprocess.Popen(["bash", "-c", shell], pass_fds=[far.fileno()]) as process:
        assert line.receive(10) == "ready"
        with pytest.raises(guests.Failed):
            guest.run("sleep 1; echo first", 0.3)
        assert guest.run("echo second; exit 3") == (3, "second") and guest.text("echo third") == "third"
        process.kill()


@pytest.mark.parametrize("name", moves.TOOLS)
def test_the_lines_of_a_move_stand_in_its_page(name: str) -> None:
    written = moves.lines_of(moves.TOOLS[name])
    assert subprocess.run(["sh", "-n"], input=written.encode()).returncode == 0
    assert all(f"cat >/var/lib/moving/{it}.sh <<'END'\n" in written for it in ("there", "back"))
    assert all(moves.said(it) for it in (moves.GO, *moves.STAYS, *moves.BACK))
