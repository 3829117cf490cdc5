"""The hooks of examples/conform, whose commands are printed in place of run, and the flows that they send."""

from __future__ import annotations

import os
import re
import runpy
import socket
import subprocess
import sys
import threading
import time
from pathlib import Path

import pytest
from conform_device import Device, World, beside


FOLDER = Path(__file__).parents[2] / "examples" / "conform"
HOOKS = ["lagd", "bonding", "teamd", "openvswitch", "testpmd"]
# Command lines of switches. `eos` takes its lines on its input, and `nxos` one word.
SWITCHES = {"eos": "cat", "nxos": "echo"}
pytestmark = pytest.mark.skipif(not FOLDER.exists(), reason="no examples")


def hook(name: str, *words: str, folder: Path, **more: str) -> tuple[int, str]:
    """The status of a hook, and what it would run."""
    files = {it: str(folder / it) for it in ("SENDER", "DAEMON", "FIFO")}
    env = {**os.environ, **files, "RUN": SWITCHES.get(name, "echo"), "LINKS": "x y", **more}
    ended = subprocess.run(["sh", str(FOLDER / name), *words], env=env, capture_output=True, text=True, timeout=30)
    return ended.returncode, ended.stdout


@pytest.mark.parametrize("name", [*HOOKS, *SWITCHES])
def test_a_hook_says_what_it_does_not_know(name: str, tmp_path: Path) -> None:
    assert hook(name, "dance", folder=tmp_path)[0] == 64
    assert hook(name, "data", "dance", folder=tmp_path)[0] == 64
    assert hook(name, "set", "speed", "9", folder=tmp_path)[0] == 64
    assert hook(name, "reset", folder=tmp_path) == (0, "")


@pytest.mark.parametrize("name", HOOKS)
def test_a_hook_takes_links_down_and_up(name: str, tmp_path: Path) -> None:
    if name == "testpmd":
        assert hook(name, "down", "1", folder=tmp_path)[0] == 64
        return
    assert hook(name, "down", "1", folder=tmp_path) == (0, "ip link set x down\n")
    assert hook(name, "up", "2", folder=tmp_path) == (0, "ip link set y up\n")


@pytest.mark.parametrize(
    "name, word, begins",
    [
        ("bonding", "start", "ip link add bond0 type bond mode 802.3ad miimon 100 lacp_rate fast\nip link set x down\nip link set x master bond0\n"),
        ("bonding", "stop", "ip link del bond0\n"),
        ("teamd", "start", "ip link set x down\nip link set y down\nteamd -d -t team0 -c "),
        ("teamd", "stop", "teamd -k -t team0\n"),
        ("openvswitch", "start", "ovs-vsctl --may-exist add-br br0 -- --may-exist add-bond br0 bond0 x y lacp=active "),
        ("openvswitch", "stop", "ovs-vsctl del-port br0 bond0\n"),
    ],
)
def test_a_hook_starts_and_ends_lacp(name: str, word: str, begins: str, tmp_path: Path) -> None:
    status, told = hook(name, word, folder=tmp_path)
    assert status == 0 and told.startswith(begins), told


@pytest.mark.parametrize(
    "name, words, lines",
    [
        ("eos", "down 2", ["enable", "configure", "interface y", "shutdown", "end"]),
        ("eos", "up 1", ["enable", "configure", "interface x", "no shutdown", "end"]),
        ("eos", "set short no", [it for link in "xy" for it in ("enable", "configure", f"interface {link}", "lacp timer normal", "end")]),
        ("nxos", "down 2", ["configure terminal ; interface y ; shutdown"]),
        ("nxos", "start", [f"configure terminal ; interface {link} ; channel-group 1 mode active ; lacp rate fast" for link in "xy"]),
        ("nxos", "stop", [f"configure terminal ; interface {link} ; no channel-group 1" for link in "xy"]),
    ],
)
def test_a_switch_gets_its_lines(name: str, words: str, lines: list[str], tmp_path: Path) -> None:
    status, told = hook(name, *words.split(), folder=tmp_path)
    assert (status, told.splitlines()) == (0, lines)
    assert hook(name, "data", "start", folder=tmp_path)[0] == 64


@pytest.mark.parametrize("name, words", [
    *((name, words) for name in HOOKS if name != "testpmd" for words in ("down 1", "up 2", "stop")),
    *((name, words) for name in ("bonding", "teamd", "openvswitch") for words in ("start",)),
    *((name, "data start") for name in HOOKS), ("testpmd", "stop"), ("testpmd", "start"),
    *((name, words) for name in SWITCHES for words in ("start", "stop", "down 1", "up 2", "set short no")),
])  # fmt: skip
def test_a_hook_whose_commands_fail_fails(name: str, words: str, tmp_path: Path) -> None:
    status, said = hook(name, *words.split(), folder=tmp_path, RUN="false")
    assert status not in (0, 64), said


@pytest.mark.parametrize("name", ["bonding", "lagd", "teamd", "openvswitch"])
def test_a_hook_takes_no_link_down_that_is_not_there(name: str, tmp_path: Path) -> None:
    assert hook(name, "down", "2", folder=tmp_path, LINKS="x") == (1, f"{FOLDER / name}: there is no link 2 in LINKS\n")


@pytest.mark.parametrize("name", SWITCHES)
def test_a_line_that_a_switch_refuses_fails(name: str, tmp_path: Path) -> None:
    (tmp_path / "switch").write_text("cat > /dev/null; echo '% Invalid input'\n")
    status, said = hook(name, "down", "1", folder=tmp_path, RUN=f"sh {tmp_path / 'switch'}")
    assert (status, said) == (1, "% Invalid input\n")


# Stands for a device with lagd: the file of the interface is there while lagd runs.
DEVICE = """
case "$1 $2" in
    'ip link') [ -e {0}/client ] ;;
    'lagd '*) {1} touch {0}/client; trap 'rm {0}/client; exit 0' TERM; while :; do sleep 0.1; done ;;
esac
"""


def test_lagd_is_started_and_ended_by_its_hook_alone(tmp_path: Path) -> None:
    run = {"RUN": f"sh {tmp_path / 'device'}"}
    (tmp_path / "device").write_text(DEVICE.format(tmp_path, ""))
    assert hook("lagd", "start", folder=tmp_path, **run) == (0, "") and (tmp_path / "client").exists()
    status, said = hook("lagd", "start", folder=tmp_path, **run)
    assert status == 1 and "lag0 is there already" in said
    assert hook("lagd", "stop", folder=tmp_path, **run) == (0, "") and not (tmp_path / "client").exists()
    status, said = hook("lagd", "stop", folder=tmp_path, **run)
    assert status == 1 and "it has started no lagd" in said
    (tmp_path / "device").write_text(DEVICE.format(tmp_path, "echo no such interface; exit 2;"))
    status, said = hook("lagd", "start", folder=tmp_path, **run)
    assert status == 1 and said.endswith("lagd has ended: no such interface\n")
    status, said = hook("lagd", "stop", folder=tmp_path, **run)
    assert status == 1 and "the lagd that it started is gone" in said


PAGE = FOLDER.parents[1] / "docs" / "CONFORM.md"


@pytest.mark.skipif(not PAGE.exists(), reason="no page")
def test_the_hook_of_the_page_runs(tmp_path: Path) -> None:
    (tmp_path / "hook").write_text(PAGE.read_text().partition("```sh\n")[2].partition("```")[0])

    def says(run: str, words: str) -> tuple[int, str]:
        ended = subprocess.run(["sh", str(tmp_path / "hook"), *words.split()], env={**os.environ, "RUN": run}, capture_output=True, text=True, timeout=30)
        return ended.returncode, ended.stdout

    does = {
        "stop": "ip link del bond0\n", "down 2": "ip link set eth2 down\n", "up 1": "ip link set eth1 up\n",
        "set rate slow": "ip link set bond0 type bond lacp_rate slow\n", "reset": "",
    }  # fmt: skip
    assert {it: says("echo", it) for it in does} == {it: (0, told) for it, told in does.items()}
    assert says("echo", "start")[0] == 0 and says("echo", "start")[1].count("master bond0\n") == 2
    assert {says("false", it)[0] for it in (*does, "start") if it != "reset"} == {1}
    assert {says("echo", it)[0] for it in ("data start", "data stop", "set speed 9", "down 3", "dance")} == {64}


@pytest.mark.skipif(not PAGE.exists(), reason="no page")
def test_the_data_of_the_page_s_hook_is_begun_and_ended(tmp_path: Path) -> None:
    text = PAGE.read_text()
    first, rest = text.partition("```sh\n")[2].partition("```")[0].split("    *)\n")
    more = re.search(r"^    'data start'\)\n(?:    .*\n)+", text, re.M)
    assert more
    (tmp_path / "hook").write_text(f"{first}{more[0]}    *)\n{rest}")
    (tmp_path / "examples").symlink_to(FOLDER.parent)
    (tmp_path / "device").write_text('echo "$*" > said; cat > got; echo >> got; exec sleep 60')

    def says(words: str) -> int:
        env = {**os.environ, "RUN": "sh device"}
        return subprocess.run(["sh", "hook", *words.split()], env=env, cwd=tmp_path, capture_output=True, timeout=30, check=False).returncode

    assert says("data start") == 0
    limit = time.monotonic() + 20
    while not ((tmp_path / "got").exists() and (tmp_path / "got").read_text().endswith("\n\n")) and time.monotonic() < limit:
        time.sleep(0.05)
    sender = int((tmp_path / "flows.pid").read_text())
    assert (tmp_path / "said").read_text() == "python3 - bond0\n"
    assert (tmp_path / "got").read_text() == (FOLDER / "flows.py").read_text() + "\n"
    assert says("data stop") == 0 and not (tmp_path / "flows.pid").exists()
    while Path(f"/proc/{sender}/cmdline").exists() and Path(f"/proc/{sender}/cmdline").read_bytes() and time.monotonic() < limit:
        time.sleep(0.05)
    assert time.monotonic() < limit


@pytest.mark.parametrize(
    "name, more",
    [("bonding", {"BOND": "bond1"}), ("lagd", {"WORDS": "--follow"}), ("teamd", {"RUN": "env"}), ("openvswitch", {"LINKS": "z"})],
)
def test_hooks_of_two_devices_share_no_sender(name: str, more: dict[str, str], tmp_path: Path) -> None:
    (tmp_path / name).write_text((FOLDER / name).read_text())
    (tmp_path / "hook.sh").write_text((FOLDER / "hook.sh").read_text() + 'data_start() { echo "$SENDER $DAEMON"; }\n')

    def files(**other: str) -> str:
        env = {**{it: value for it, value in os.environ.items() if it not in ("SENDER", "DAEMON")}, "RUN": "echo", **other}
        ended = subprocess.run(["sh", str(tmp_path / name), "data", "start"], env=env, capture_output=True, text=True, timeout=30, check=True)
        return ended.stdout

    one, other = files(), files(**more)
    assert one == files() and one.startswith("/run/lagconform-flows-")
    assert not set(one.split()) & set(other.split())


# Runs flows.py with a socket that takes all and sends nothing.
SENDS = "import runpy, socket, sys, unittest.mock; socket.socket = unittest.mock.MagicMock(); runpy.run_path(sys.argv.pop(1), run_name='__main__')"


def test_the_flows_end_where_nobody_takes_their_lines() -> None:
    with subprocess.Popen([sys.executable, "-c", SENDS, str(FOLDER / "flows.py"), "x"], stdout=subprocess.PIPE, stderr=subprocess.DEVNULL) as flows:
        assert flows.stdout and flows.stdout.readline() == b"1\n"
        flows.stdout.close()
        assert flows.wait(20) != 0


TRIAL = FOLDER.parents[1] / "tools" / "maintain" / "peers.d" / "hook.py"


@pytest.mark.skipif(not TRIAL.exists(), reason="no tools")
@pytest.mark.parametrize("answer, status, said", [("0well", 0, "well"), ("1KeyError: 'data'", 64, "KeyError: 'data'"), ("1Failed: no link", 1, "Failed: no link"), ("", 1, "")])
def test_the_hook_of_a_trial_tells_what_is_unknown_from_what_failed(answer: str, status: int, said: str, tmp_path: Path) -> None:
    with socket.socket(socket.AF_UNIX) as listening:
        listening.bind(str(tmp_path / "hook"))
        listening.listen()

        def serve() -> None:
            with listening.accept()[0] as call:
                assert call.recv(1000) == b"down 1"
                call.sendall(answer.encode())

        serves = threading.Thread(target=serve)
        serves.start()
        ended = subprocess.run([sys.executable, str(TRIAL), str(tmp_path / "hook"), "down", "1"], capture_output=True, text=True, timeout=30)
        serves.join()
    assert (ended.returncode, ended.stdout) == (status, f"{said}\n")


def test_the_flows_are_those_that_the_bench_counts() -> None:
    flow = runpy.run_path(str(FOLDER / "flows.py"))["flow"]
    with beside(World(Device()), meets=False) as b:
        for number in range(64):
            octets = flow(number)
            header = octets[14:34]
            assert sum(int.from_bytes(header[at : at + 2], "big") for at in range(0, 20, 2)) % 0xFFFF == 0
            b.log(1, 0.0, False, octets)
        assert b.data(0, 1) == 64 and b.data(0, 2) == 0
