"""What tools/lagtool answers where there is no proved program: what examples/ stores, where there is node."""

from __future__ import annotations

import os
import pathlib
import shutil
import subprocess
import sys

import pytest

import loading
from repository import Missing, read_bytes, read_text

EXAMPLES = os.path.join(os.path.dirname(loading.TOOLS), "examples")
CAPTURES = os.path.join(EXAMPLES, "captures")
ANSWER = os.path.join(loading.TOOLS, "lagtool.d", "answer.mjs")
ENDS = {".json": "--json", ".report.txt": "--no-frames"}
STORED = [(it, end) for it in sorted(os.listdir(CAPTURES)) if ".pcap" in it for end in ENDS if os.path.exists(os.path.join(CAPTURES, it.partition(".")[0] + end))]
SCRIPTS = [it for it in sorted(os.listdir(EXAMPLES)) if it.endswith(".toml")]
needs_node = pytest.mark.skipif(not shutil.which("node"), reason="there is no node")


def answer(*words: str, given: bytes | None = None) -> tuple[int, str, str]:
    """The status, what is printed and what is said."""
    if not shutil.which("node"):
        pytest.skip("there is no node")
    ended = subprocess.run(["node", ANSWER, *words], input=given or b"", capture_output=True)
    return ended.returncode, ended.stdout.decode(), ended.stderr.decode()


@pytest.mark.parametrize("name, end", STORED)
def test_a_capture_gives_what_is_stored(name: str, end: str) -> None:
    path = os.path.join(CAPTURES, name)
    assert answer(ENDS[end], "capture", path) == (1, read_text(path.rpartition(".")[0] + end), "")


@pytest.mark.parametrize("name", SCRIPTS)
def test_a_script_gives_its_report(name: str) -> None:
    path = os.path.join(EXAMPLES, name)
    assert answer("replay", path) == (0, read_text(f"{path.removesuffix('.toml')}.txt"), "")


def test_standard_input_vectors_and_refusals() -> None:
    path = os.path.join(CAPTURES, "flapping.pcap")
    assert answer("capture", "-", given=read_bytes(path)) == answer("capture", path)
    assert answer("vectors")[1].endswith("vectors 10 failed 0\n")
    assert answer("decode", "zz") == (2, "", "lagtool: not hex\n")
    assert answer("capture", "/none") == (2, "", "lagtool: cannot read /none\n")
    assert answer("--explain", "replay", "-", given=b"a = 1")[2].startswith("lagtool: script: extra key\nlagtool: standard input: unknown key")
    status, printed, said = answer("capture", os.path.abspath(__file__))
    assert (status, printed) == (2, "links 0 carrying 0\npackets 0 slow 0 ends 0 findings 0\n") and "octet 0: neither pcap nor pcapng" in said
    assert answer("check", path)[0] == answer("capture")[0] == 2


def test_a_file_that_cannot_be_read_has_the_words_of_the_program(tmp_path: pathlib.Path) -> None:
    locked = tmp_path / "locked"
    locked.touch(0)
    causes = {"/none": "no such file", str(tmp_path): "is a folder", f"{__file__}/x": "not a directory"}
    for path, cause in {**causes, **({} if os.access(locked, os.R_OK) else {str(locked): "permission denied"})}.items():
        for job in "capture", "replay":
            assert answer("--explain", job, path) == (2, "", f"lagtool: cannot read {path}\nlagtool: {path}: {cause}\n")


def test_an_option_behind_the_subcommand_is_told_its_place() -> None:
    path = os.path.join(CAPTURES, "flapping.pcap")
    for words in (["capture", "--json", path], ["capture", path, "--json"]):
        assert answer(*words) == (2, "", "lagtool: options stand before the subcommand: lagtool --json capture ..\n")
    status, printed, said = answer("--jsn", "capture", path)
    assert (status, printed) == (2, "") and "--json" in said


@needs_node
def test_what_cannot_be_written_is_told() -> None:
    flapping, script = os.path.join(CAPTURES, "flapping.pcap"), os.path.join(EXAMPLES, SCRIPTS[0])
    for words in (["vectors"], ["capture", flapping], ["replay", script], ["decode", "01" * 110]):
        with open("/dev/full", "wb") as full:
            ended = subprocess.run(["node", ANSWER, *words], stdout=full, stderr=subprocess.PIPE)
        assert (ended.returncode, ended.stderr) == (2, b"lagtool: cannot write\n"), words


@needs_node
def test_where_nobody_reads_on_nothing_is_said() -> None:
    reads, writes = os.pipe()
    os.close(reads)
    ended = subprocess.run(["node", ANSWER, "vectors"], stdout=writes, stderr=subprocess.PIPE)
    os.close(writes)
    assert (ended.returncode, ended.stderr) == (141, b"")


def test_a_script_that_is_not_utf_8_is_told_by_its_file(tmp_path: pathlib.Path) -> None:
    script = tmp_path / "port.toml"
    script.write_bytes(b"# \xff\n")
    assert answer("replay", str(script)) == (2, "", f"lagtool: cannot read {script}\n")
    assert answer("replay", "-", given=b"# \xff\n") == (2, "", "lagtool: cannot read -\n")
    status, printed, said = answer("--explain", "replay", str(script))
    assert (status, printed) == (2, "") and said.startswith(f"lagtool: cannot read {script}\nlagtool: {script}:1:3: ")


def test_where_there_is_no_node_a_line_leads_on(monkeypatch: pytest.MonkeyPatch) -> None:
    lagtool = loading.program("lagtool")
    monkeypatch.setattr(lagtool.shutil, "which", lambda _: None)
    with pytest.raises(Missing, match="docs/try.html answers in a browser"):
        lagtool.by_module(["vectors"])
    monkeypatch.setattr(lagtool.shutil, "which", lambda name: None if name == "node" else f"/usr/bin/{name}")
    with pytest.raises(Missing, match="lagtool --prove makes the proved program"):
        lagtool.by_module(["vectors"])


@pytest.mark.parametrize("has_rt", [False, True])
def test_an_answer_waits_for_no_proof(has_rt: bool, monkeypatch: pytest.MonkeyPatch) -> None:
    lagtool = loading.program("lagtool")
    ran: list[list[str]] = []
    monkeypatch.setattr(lagtool, "stands", lambda: False)
    monkeypatch.setattr(lagtool, "prove", lambda: pytest.fail("it proves"))
    monkeypatch.setattr(lagtool.shutil, "which", lambda name: f"/usr/bin/{name}" if name == "node" or has_rt else None)
    monkeypatch.setattr(lagtool.os, "execv", lambda program, words: ran.append([program, *words]) or sys.exit(0))
    monkeypatch.setattr(sys, "argv", ["lagtool", "vectors"])
    with pytest.raises(SystemExit):
        lagtool.main()
    assert [(program, words[-1]) for program, *words in ran] == [("/usr/bin/node", "vectors")]
