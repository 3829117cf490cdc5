"""The packet sockets of `lagconform`, on a veth pair in a network namespace of their own; as root, with ip and unshare."""

from __future__ import annotations

import os
import shutil
import subprocess
import sys
import time
from pathlib import Path

import pytest
from conform_device import Waits

from lagconform import sockets
from lagconform.refusals import Refused
from lagconform.sockets import Command
from lagconform.wires import Answer

WANTED = not os.geteuid() and shutil.which("ip") and shutil.which("unshare")
# Names the emulator that runs Python, where one does.
EMULATED = "EMULATED_BY" in os.environ
MAKES = "ip link add one type veth peer name two && ip link set one up && ip link set two up && "
PROGRAM = """
import os, socket, subprocess, time
from lagconform import refusals, sockets
from lagconform.model import NotHere
from lagconform.sockets import Command, PacketWire
from lagconform.pdus import GROUP, SLOW
from lagconform.wires import Gone

for name in "one", "two":
    for _ in range(100):
        if (it := refusals.asked(name)) and it.has_carrier:
            break
        time.sleep(0.02)
refusals.check_interfaces(["one", "two"])
wire = PacketWire(["one", "two"])
frame = GROUP + wire.source(1) + SLOW + bytes(110)
sent = wire.now()
wire.send(1, frame)
came = [it for it in wire.wait(2.0) if it.octets == frame]
assert [it.link for it in came] == [2], came
assert sent - 0.01 <= came[0].time <= wire.now(), (sent, came[0].time)
tagged = frame[:12] + bytes.fromhex("81006005") + frame[12:]
assert wire.send(1, tagged)
assert tagged in [it.octets for it in wire.wait(2.0)]
ordinary = bytes.fromhex("ffffffffffff") + wire.source(1) + bytes.fromhex("0800") + bytes(60)
of_a_flow = ordinary[:26] + bytes.fromhex("c6120001") + ordinary[30:]
local, v6 = (ordinary[:12] + bytes.fromhex(it) + ordinary[14:] for it in ("88b5", "86dd"))
before = wire.received(2)
for octets in ordinary, of_a_flow, local, v6, frame:
    assert wire.send(1, octets)
time.sleep(0.1)
kinds = [it.octets[12:14].hex() for it in wire.wait(2.0)]
assert kinds == ["0800", "88b5", "8809"] and wire.received(2) - before >= 5, (kinds, wire.received(2) - before)
for _ in range(2000):
    wire.send(1, frame)
begin = time.monotonic()
found = [len(wire.wait(0.05)) for _ in range(3)]
assert found == [sockets.MOST_TAKEN] * 3 and time.monotonic() - begin < 1, found
while wire.wait(0.0):
    pass
wire.drops()
wire._sockets[1].setsockopt(socket.SOL_SOCKET, socket.SO_RCVBUF, 0)
for _ in range(200):
    wire.send(1, frame)
assert wire.drops() > 100 and wire.drops() == 0
wire.wait(0.1)

class Late(socket.socket):
    def bind(self, address):
        wire.send(1, frame)  # it comes at two
        time.sleep(0.1)
        super().bind(address)

with sockets.opened("one", socket.if_nametoindex("one")) as early:
    pass
socket.socket, before = Late, socket.socket
with sockets.opened("one", socket.if_nametoindex("one")) as early:
    try:
        raise AssertionError(early.recv(2000))
    except BlockingIOError:
        pass
socket.socket = before
path, os.environ["PATH"] = os.environ["PATH"], "/none"
try:
    wire.flap(1, False)
    raise AssertionError("there was an ip")
except NotHere as told:
    assert str(told) == "--flap wants CAP_NET_ADMIN and ip"
os.environ["PATH"] = path
assert wire.without_carrier() == []
wire.flap(1, False)
assert not wire.send(1, frame) and wire.without_carrier() == ["one", "two"]
wire.wait(0.1)
held = socket.socket(socket.AF_PACKET, socket.SOCK_RAW, socket.htons(0x8809))
held.bind(("two", 0x8809))
assert "python" in str(refusals.lacp_speaker("two")) and refusals.lacp_speaker("one") is None
for name, why in ("one", "is down"), ("two", "has no carrier"):
    try:
        refusals.check_interface(name)
    except refusals.Refused as told:
        assert why in str(told), told
if not subprocess.run(["ip", "link", "add", "over", "type", "bridge"], stderr=subprocess.DEVNULL).returncode:
    subprocess.run(["ip", "link", "set", "one", "master", "over"], check=True)
    assert refusals.asked("one").master == "over" and refusals.asked("one").kind == "bridge", refusals.asked("one")
assert refusals.asked("lo").is_ethernet is False and refusals.asked("none") is None
subprocess.run(["ip", "link", "del", "one"], check=True)
for act in lambda: wire.send(1, frame), lambda: wire.wait(0.1), lambda: wire.flap(1, True):
    try:
        act()
        raise AssertionError("one is there")
    except Gone as told:
        assert str(told) in ("the interface one is gone", "the interface two is gone"), told
wire.close()
held.close()
print("well")
"""


@pytest.mark.skipif(EMULATED, reason="qemu's user mode refuses options of packet sockets")
@pytest.mark.skipif(not WANTED, reason="wants root, ip and unshare")
def test_frames_pass_a_pair() -> None:
    words = ["unshare", "--net", "sh", "-c", MAKES + 'exec "$0" -B -W error -c "$1"', sys.executable, PROGRAM]
    ended = subprocess.run(words, capture_output=True, text=True, timeout=60)
    assert ended.stdout == "well\n", ended.stderr


def said(line: str) -> Answer:
    """What a command says that ends soon."""
    return Waits(line).call([]).answer()


def test_a_hook_gets_its_words() -> None:
    assert said("printf %s: 'a b' c") == Answer(0, "a b:c:")
    assert said("exit 3 #").status == 3


def test_a_hook_may_leave_a_child_and_say_much_and_no_text(tmp_path: Path) -> None:
    pid = tmp_path / "pid"
    begin = time.monotonic()
    assert said(f"sleep 30 & echo $! > {pid}; printf well #") == Answer(0, "well")
    assert time.monotonic() - begin < 10
    os.kill(int(pid.read_text()), 9)
    assert said("head -c 200000 /dev/zero | tr '\\0' x; printf end #").said.endswith("xxend")
    assert said("printf '\\377' #").said == "\ufffd"


def test_a_hook_that_is_ended_takes_its_children_along(tmp_path: Path) -> None:
    pid = tmp_path / "pid"
    doing = Command(f"sleep 30 & echo $! > {pid}; wait #").call([])
    while not pid.exists() or not pid.read_text().strip():
        time.sleep(0.01)
    begin = time.monotonic()
    doing.stop()
    assert time.monotonic() - begin < 10
    stat, limit = Path("/proc") / pid.read_text().strip() / "stat", begin + 20
    while stat.exists() and stat.read_text().split()[2] != "Z":
        assert time.monotonic() < limit
        time.sleep(0.01)


def test_an_interface_is_one_bench_s() -> None:
    held = sockets.locked("eth1", 77)
    with pytest.raises(Refused, match="eth1 is held by another lagconform"):
        sockets.locked("eth1", 77)
    sockets.locked("eth2", 78).close()
    held.close()
    sockets.locked("eth1", 77).close()
