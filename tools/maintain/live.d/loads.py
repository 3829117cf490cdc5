"""The daemon under loads: many bundles, many ports of long names, a flood of rubbish, a minute in which it is stopped."""

from __future__ import annotations

import json
import os
import shutil
import signal
import socket
import subprocess
import time

from checking import Failed, check, command, within
from daemon import ENDS, KEY, OTHER, SYSTEM, Daemon, Part
from daemons import COMES_UP, both_up, pair_up
from repository import CC, COMPILER, MAINTAIN, read_text, write_text
from service import Filed
from spaces import OURS, THEIRS, inside, ip, make_pair

BUNDLES, MOST_PORTS, A_MINUTE = 100, 64, 60
# How long many daemons on few processors may take, in seconds; and which share of a processor each of them may have then.
MANY_COME_UP, SHARE_OF_EACH = 60, 0.0015
# For how many seconds programs flood a port: one sends, and two have the interface receive what they give it, which is faster.
FLOODED = 10
# How many octets a daemon may grow by in a flood.
GROWTH = 4 << 20


def many_bundles(part: Part) -> None:
    """A hundred bundles, of one link each, and a hundred daemons at their other ends."""
    count = part.fewer(BUNDLES)
    for place in range(2, count):
        make_pair(place)
    ours = [part.start(OURS, f"02:00:00:00:01:{place:02x}", KEY, f"a{place}") for place in range(count)]
    theirs = [part.start(THEIRS, f"02:00:00:00:02:{place:02x}", "5", f"b{place}") for place in range(count)]
    names = [f"a{place}" for place in range(count)]
    check(within(MANY_COME_UP, lambda: ours[0].distributes(*names)), f"{count} bundles come up at once", ours[0].text())
    busy, begin = sum(daemon.busy() for daemon in ours + theirs), time.monotonic()
    time.sleep(10)
    share = (sum(daemon.busy() for daemon in ours + theirs) - busy) / (time.monotonic() - begin)
    most = 2 * count * SHARE_OF_EACH
    check(share <= most or part.sanitized, f"their {2 * count} daemons take {share:.1%} of a processor, at most {most:.0%}")
    text = ours[0].text()
    check(text.count("  status: up, 1 of 1 links carry\n") == count, "the status has each of them", text.count("----"), text[:2000])
    for daemon in ours + theirs:
        daemon.process.terminate()
    ends = [daemon.status() for daemon in ours + theirs]
    check(ends == [0] * len(ends), "SIGTERM ends each of them with status 0", ends)


def read_slowly(path: str, question: bytes) -> str:
    """What a daemon answers to who reads 4096 octets at a time, and waits before each."""
    asker = socket.socket(socket.AF_UNIX)
    asker.settimeout(ENDS)
    asker.connect(path)
    asker.send(question)
    time.sleep(0.5)
    found = b""
    while part := asker.recv(4096):
        found += part
        time.sleep(0.002)
    return found.decode()


def whole_status(part: Part) -> None:
    """64 ports, all but the first one of names of 127 characters, in a bundle of such a name: no answer is cut."""
    names = ["a0", *(f"{place:02}".ljust(127, "n") for place in range(1, MOST_PORTS))]
    for place in range(2, MOST_PORTS):
        make_pair(place)
    named = "".join(f"link property add dev a{place} altname {names[place]}\n" for place in range(1, MOST_PORTS))
    ip(OURS, "-batch", "-", input=named)
    file = os.path.join(part.folder, "b" * 127 + ".conf")
    write_text(file, f"[Bundle]\nkey=7\nsystem=1,{SYSTEM}\n" + "".join(f"[Port {name}]\n" for name in names))
    ours = Filed(part, file)
    check(within(ENDS, lambda: list(ours.ports()) == names), "64 ports of long names", ours.printed())
    text = ours.text()
    check(text.count("\nmember: ") == MOST_PORTS and " distributed " in text.splitlines()[-1], "the status as text is whole", text[-500:])
    path = ours.socket()
    slow = json.loads(read_slowly(path, b"json\n"))
    check([port["interface"] for port in slow["ports"]] == names, "as JSON, for one who reads slowly", slow["ports"][-1:])
    metrics = read_slowly(path, b"metrics\n")
    values = [line for line in metrics.splitlines() if not line.startswith("#")]
    whole = metrics.endswith("\n") and f'{{bundle="{"b" * 127}",interface="{names[-1]}",port="64"}} ' in values[-1]
    check(whole and sum('port="64"' in line for line in values) == sum('port="1"' in line for line in values) > 20,
          f"and {len(metrics)} octets of metrics", metrics[-500:])


def build_flood(folder: str) -> str:
    """Builds the program that floods; answers its path."""
    made = os.path.join(folder, "flood")
    built = command(*COMPILER, "-O2", "-std=c11", "-Wall", "-Wextra", "-Werror", "-o", made, f"{MAINTAIN}/live.d/flood.c")
    if built.returncode:
        raise Failed(f"{CC} builds flood", built.stderr)
    return made


def memory(daemon: Daemon) -> int:
    """How many octets of memory a daemon has."""
    return int(read_text(f"/proc/{daemon.process.pid}/statm").split()[1]) * os.sysconf("SC_PAGE_SIZE")


def rubbish(part: Part) -> None:
    """As many frames of rubbish a second as the machine makes, on one of two ports."""
    flood = build_flood(part.folder)
    ours, theirs = pair_up(part)
    before, sent, waited = memory(ours), ours.count("a1", "lacpdus_sent"), 0.0
    ways: list[tuple[str, str, list[str]]] = [(THEIRS, "b0", []), (OURS, "a0", ["received"]), (OURS, "a0", ["received"])]
    floods = [subprocess.Popen(["ip", "netns", "exec", space, flood, name, str(FLOODED), *more], stdout=subprocess.PIPE, text=True)
              for space, name, more in ways]
    begin, holds, looks = time.monotonic(), 0, 0
    while any(it.poll() is None for it in floods):
        asked = time.monotonic()
        port = ours.port("a1")
        waited = max(waited, time.monotonic() - asked)
        holds, looks = holds + (port["status"] == "it distributes"), looks + 1
        time.sleep(0.2)
    rate = sum(int(it.communicate()[0] or 0) for it in floods) / (time.monotonic() - begin)
    taken = sum(count for name, count in ours.port("a0")["counters"].items() if name.endswith("_received"))
    check(looks > 5 and holds == looks, f"beside {rate / 1e6:.2f} million frames of rubbish a second on one port the other one distributes", holds, looks, ours.text())
    check(taken > 10000, f"{taken} of them were taken", ours.text())
    check(ours.count("a1", "lacpdus_sent") >= sent + FLOODED - 2, "LACPDUs are sent on time", ours.text())
    check(waited < 2, f"and a status comes within {waited:.2f} s")
    check(memory(ours) < before + GROWTH or part.sanitized, "the daemon does not grow", before, memory(ours))
    both_up(ours, theirs, "then both links distribute again")


def stop_for_a_minute(part: Part) -> None:
    """Two daemons are stopped for a minute: the peer of the first one waits for 90 s, that of the second one for 3 s."""
    patient, other = part.theirs("b0", options=["--timeout", "long"]), part.theirs("b1")
    ours, second = part.ours("a0"), part.start(OURS, OTHER.replace("bb", "ab"), KEY, "a1")
    up = lambda: ours.distributes("a0", "a1") and ours.says_it_distributes("a0") and patient.distributes("b0", "b1")
    check(within(COMES_UP, up), "two bundles distribute", ours.text(), patient.text())
    lines, sent = ours.lines("a0"), second.count("a1", "lacpdus_sent")
    for daemon in ours, second:
        daemon.process.send_signal(signal.SIGSTOP)
    time.sleep(A_MINUTE)
    check(patient.distributes("b0") and not other.distributes("b1"), "a minute later the patient peer still waits, the other one does not", patient.text())
    for daemon in ours, second:
        daemon.process.send_signal(signal.SIGCONT)
    within(ENDS, ours.ports)
    check(ours.distributes("a0") and ours.lines("a0") == lines, "the first bundle is as before", ours.printed())
    again = second.count("a1", "lacpdus_sent") - sent
    check(again <= 6, "what was missed is not sent at once", again)
    check(within(COMES_UP, up), "and the second one comes up again", ours.text(), patient.text())


def folder_goes(part: Part) -> None:
    """The folder of the status socket is removed: the bundle goes on."""
    ours, theirs = pair_up(part)
    shutil.rmtree(ours.folder)
    told = inside(OURS, ours.program, "--folder", ours.folder, "--status")
    check(told.returncode == 1 and told.stderr.startswith("lagd: no lagd answers in: "), "without its folder nobody answers", told.stderr)
    time.sleep(4)
    lines = [ours.last_line(name) for name in ("a0", "a1")]
    check(ours.process.poll() is None and all(line.startswith("it distributes,") for line in lines), "and both links still distribute", ours.printed())


PARTS = {
    "a hundred bundles": many_bundles,
    "the status of 64 ports": whole_status,
    "rubbish on one port": rubbish,
    "a minute's stop": stop_for_a_minute,
    "a folder that goes": folder_goes,
}
