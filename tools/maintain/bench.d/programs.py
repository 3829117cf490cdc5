"""The built program beside tcpdump and tshark: `check` and `capture` of 100,000 frames, `replay` of 100,000 events. What each prints is
compared with what it should print, worked out here. A time is the CPU time of the process, the least of some runs."""

from __future__ import annotations

import itertools
import os
import shutil
import struct
import subprocess
from typing import Callable, Iterator, Optional

from repository import PROGRAM

COUNT = 100_000
# A row of the table: a program, its seconds if it is here, and how many runs were wrong.
Row = tuple[str, Optional[float], int]
HEADER = bytes.fromhex("0180c20000020200000000098809")
# tcpdump gives up root only if it is not told to keep it.
AS_ROOT = ["-Z", "root"] if os.geteuid() == 0 else []
RUNS = 5
# The first entries of a script, and their replies: two switches with two cables come up.
COMING_UP = [
    ("sense 1 1", "up"), ("sense 1 2", "up"), ("sense 2 1", "up"), ("sense 2 2", "up"),
    ("tick 1 10", "ticked"), ("tick 2 10", "ticked"),
    ("emit 1 1", "lacpdu c5 sent"), ("emit 1 2", "lacpdu c5 sent"), ("deliver 1 2", "took"), ("deliver 2 2", "took"),
    ("emit 2 1", "lacpdu 05 sent"), ("emit 2 2", "lacpdu 05 sent"), ("deliver 1 1", "took"), ("deliver 2 1", "took"),
    ("tick 1 20", "ticked"), ("tick 2 20", "ticked"),
    ("emit 1 1", "lacpdu 0d sent"), ("emit 1 2", "lacpdu 0d sent"), ("deliver 1 2", "took"), ("deliver 2 2", "took"),
    ("emit 2 1", "lacpdu 3d sent"), ("emit 2 2", "lacpdu 3d sent"), ("deliver 1 1", "took"), ("deliver 2 1", "took"),
    ("emit 1 1", "lacpdu 3d sent"), ("deliver 1 2", "took"), ("emit 1 2", "lacpdu 3d sent"), ("deliver 2 2", "took"),
]
# Once in 100 entries: 30 seconds pass, and each port sends its LACPDU.
KEEPING_UP = [
    ("tick 1 300", "ticked"), ("tick 2 300", "ticked"),
    ("emit 1 1", "lacpdu 3d sent"), ("deliver 1 2", "took"), ("emit 1 2", "lacpdu 3d sent"), ("deliver 2 2", "took"),
    ("emit 2 1", "lacpdu 3d sent"), ("deliver 1 1", "took"), ("emit 2 2", "lacpdu 3d sent"), ("deliver 2 1", "took"),
]
SYSTEM = """[[system]]
mac = "02-00-00-00-00-0{}"
aggregators = [1]
[[system.port]]
number = 1
key = 1
short = false
[[system.port]]
number = 2
key = 1
short = false
"""
CABLES = "[[cable]]\nends = [1, 1]\n[[cable]]\nends = [2, 2]\n"


def end_of(system: int, port: int) -> bytes:
    return struct.pack(">H6sHHHB", 0x8000, bytes([2, 0, 0, 0, 0, system]), 1, 128, port, 0x3D)


def lacpdu(port: int, system: int = 9, partner: int = 1) -> bytes:
    parts = bytes([1, 1, 1, 20]) + end_of(system, port) + bytes(3) + bytes([2, 20]) + end_of(partner, port) + bytes(3) + bytes([3, 16])
    return parts.ljust(110, b"\0")


def marker(kind: int, port: int, number: int, system: int = 9) -> bytes:
    return struct.pack(">BBBBH6sI", 2, 1, kind, 16, port, bytes([2, 0, 0, 0, 0, system]), number).ljust(110, b"\0")


def frames() -> Iterator[tuple[str, bytes]]:
    """Of ten frames eight LACPDUs, a marker and a response; each with its word."""
    for number in range(COUNT):
        port, tenth = 1 + number % 64, number % 10
        if tenth == 8:
            yield "marker", HEADER + marker(1, port, number)
        elif tenth == 9:
            yield "marker-response", HEADER + marker(2, port, number)
        else:
            yield "lacpdu", HEADER + lacpdu(port)


def write_frames(folder: str) -> str:
    """Writes the frames as lines and as a capture; answers what `check` should print."""
    told = []
    with open(f"{folder}/frames.hex", "w") as lines, open(f"{folder}/frames.pcap", "wb") as capture:
        capture.write(struct.pack("<IHHiIII", 0xA1B2C3D4, 2, 4, 0, 0, 65535, 1))
        for number, (word, frame) in enumerate(frames()):
            lines.write(frame.hex() + "\n")
            capture.write(struct.pack("<IIII", number // 1000, number % 1000 * 1000, len(frame), len(frame)) + frame)
            told.append(f"{number + 1} {word}\n")
    return "".join(told) + f"checked {COUNT} faults 0\n"


def header(system: int, port: int) -> bytes:
    return HEADER[:6] + bytes([2, 0, 0, 0, system, port]) + HEADER[12:]


def record(microseconds: int, frame: bytes) -> bytes:
    return struct.pack("<IIII", *divmod(microseconds, 1_000_000), len(frame), len(frame)) + frame


def on_links() -> Iterator[bytes]:
    """Two links of two systems: four LACPDUs a second, and in each fifth second a marker and its response on each link."""
    for second in itertools.count():
        for port in (1, 2):
            now = second * 1_000_000 + port * 1000
            if second % 5 == 4:
                yield record(now, header(1, port) + marker(1, port, second, 1))
                yield record(now + 10, header(9, port) + marker(2, port, second, 1))
            for system, partner in ((1, 9), (9, 1)):
                yield record(now + 20 + system, header(system, port) + lacpdu(port, system, partner))


def write_capture(file: str, records: Iterator[bytes]) -> None:
    with open(file, "wb") as capture:
        capture.write(struct.pack("<IHHiIII", 0xA1B2C3D4, 2, 4, 0, 0, 65535, 1))
        capture.writelines(itertools.islice(records, COUNT))


def entries() -> Iterator[tuple[str, str]]:
    """The entries of the script, each with its reply: frames of two conversations, and what keeps the links up."""
    yield from COMING_UP
    number = serial = 0
    while True:
        if number % 46 == 45:
            yield from KEEPING_UP
        else:
            port = 1 + serial % 2
            yield f"offer 1 1 02000000002{port - 1}0200000000100800", f"port {port} serial {serial // 2} sent"
            yield f"deliver {port} 2", "up 1"
            serial += 1
        number += 1


def write_script(folder: str) -> str:
    """Writes the script; answers what `replay` should print."""
    played = [it for it, _ in zip(entries(), range(COUNT))]
    listed = ",\n".join(f'    "{entry}"' for entry, _ in played)
    with open(f"{folder}/events.toml", "w") as it:
        it.write(f"events = [\n{listed}\n]\n" + SYSTEM.format(1) + SYSTEM.format(2) + CABLES)
    told = [f"{number} {entry} -> {reply}\n" for number, (entry, reply) in enumerate(played, 1)]
    told += [f"cable {cable} agreement same\n" for cable in (1, 2)]
    for port, conversation in ((1, 48), (2, 49)):
        sent = sum(entry.startswith("offer") and reply.startswith(f"port {port} ") for entry, reply in played)
        took = sum(entry == f"deliver {port} 2" and reply == "up 1" for entry, reply in played)
        told.append(f"flow 1/1/{conversation} sent {sent} collected {' '.join(map(str, range(took)))}\n")
    return "".join(told)


def timed(words: list[str]) -> tuple[float, str]:
    """Runs the words; answers their CPU seconds, and what they print."""
    with subprocess.Popen(words, stdout=subprocess.PIPE, stderr=subprocess.DEVNULL) as ran:
        printed = ran.stdout.read() if ran.stdout else b""
        _, status, used = os.wait4(ran.pid, 0)
        ran.returncode = os.waitstatus_to_exitcode(status)
    return used.ru_utime + used.ru_stime, printed.decode()


def least(words: list[str], is_right: Callable[[str], bool], runs: int = RUNS) -> tuple[float, int]:
    """The least CPU time of some runs, and how many printed something wrong."""
    ended = [timed(words) for _ in range(runs)]
    return min(time for time, _ in ended), sum(not is_right(printed) for _, printed in ended)


def beside(words: list[str], is_right: Callable[[str], bool]) -> tuple[float | None, int]:
    """The same of another program; no time where that is not in PATH."""
    return least(words, is_right, 3) if shutil.which(words[0]) else (None, 0)


def measure(cache: str) -> list[Row]:
    """Rows of the program: name, seconds, wrong runs; the seconds of a program that is not here are None."""
    folder = f"{cache}/frames"
    os.makedirs(folder, exist_ok=True)
    checked, replayed = write_frames(folder), write_script(folder)
    write_capture(f"{folder}/links.pcap", on_links())
    what, last = f"{COUNT:,} frames", f"packets {COUNT} slow {COUNT} ends 4 findings 0"
    rows: list[Row] = [(f"lagtool check of {what}", *least([PROGRAM, "check", f"{folder}/frames.hex"], lambda it: it == checked))]
    frames, links = [*AS_ROOT, "-r", f"{folder}/frames.pcap"], [*AS_ROOT, "-r", f"{folder}/links.pcap"]
    # tcpdump and tshark print a line for each frame.
    rows.append((f"tcpdump -vv of {what}", *beside(["tcpdump", "-vv", *frames], lambda it: it.count("LACPv1,") == COUNT * 8 // 10)))
    rows.append((f"tshark of {what}", *beside(["tshark", *frames[-2:]], lambda it: it.count("\n") == COUNT)))
    rows.append((f"lagtool capture of {what}, two links", *least([PROGRAM, "capture", links[-1]], lambda it: it.endswith(f"\n{last}\n"))))
    rows.append(("tcpdump -n of it", *beside(["tcpdump", "-n", *links], lambda it: it.count("\n") == COUNT)))
    replay = least([PROGRAM, "replay", f"{folder}/events.toml"], lambda it: it == replayed)
    return rows + [(f"lagtool replay of {COUNT:,} events", *replay)]
