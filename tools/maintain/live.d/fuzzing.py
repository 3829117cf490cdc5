"""Fuzzes the parsers of the daemon with libFuzzer: files, frames, their auxiliary data, questions at the status socket, what the last
daemon left, and messages of the kernel."""

from __future__ import annotations

import os
import re
import shutil
import struct

from checking import check, command
from linking import DAEMON, INCLUDE, STANDING_IN, STRICT, daemon_sources
from repository import MAINTAIN, daemon_words, write_bytes
from spaces import GROUP, SLOW_PROTOCOLS, lacpdu, octets

# A message that an interface is there, with its name, the count of its losses, and an alternative name.
ATTRIBUTES = struct.pack("=HH6sxx", 10, 3, b"fuzz0") + struct.pack("=HHI", 8, 36, 3) + struct.pack("=HHHH8s", 16, 52 | 0x8000, 12, 53, b"fuzz1")
MESSAGE = struct.pack("=IHHII", 32 + len(ATTRIBUTES), 16, 0, 0, 0) + struct.pack("=BBHiII", 0, 0, 1, 5, 0x11043, 0) + ATTRIBUTES
# That there is no error; and one option of the team driver, with an answer that has ended.
ACKNOWLEDGED = struct.pack("=IHHIIi", 36, 2, 0, 0, 0, 0) + struct.pack("=IHHII", 52, 18, 5, 0, 0)
OPTION = struct.pack("=HH5sxxx", 9, 1, b"mode") + struct.pack("=HHB3x", 5, 3, 5) + struct.pack("=HH12s", 16, 4, b"loadbalance")
LIST = struct.pack("=HHHH", len(OPTION) + 8, 2 | 0x8000, len(OPTION) + 4, 1 | 0x8000) + OPTION
OPTIONS = struct.pack("=IHHII", len(LIST) + 20, 30, 2, 0, 0) + bytes([2, 1, 0, 0]) + LIST + struct.pack("=IHHIIi", 20, 3, 2, 0, 0, 0)
# An answer that ends with a number that no error has.
WRONG_END = struct.pack("=IHHIIi", 20, 2, 0, 0, 0, -(2**31))
FRAME = octets(GROUP) + octets("02:00:00:00:00:77") + SLOW_PROTOCOLS.to_bytes(2, "big") + lacpdu("02:00:00:00:00:cc", 1)
# A control message of level SOL_PACKET and type PACKET_AUXDATA: its head, and a struct tpacket_auxdata without a VLAN tag.
AUXILIARY = struct.pack("=QII", 36, 263, 8) + struct.pack("=IIIHHHH", 1, 124, 124, 0, 14, 0, 0) + bytes(4)
WRAPPED = [f"-Wl,--wrap={name}" for name in ("recvmsg", "mnl_socket_sendto", "mnl_socket_recvfrom")]
SEEDS = [
    b"\0[Bundle]\nkey=7\nsystem=1,02:00:00:00:00:01\npartner=first\n[Port a0]\ntimeout=long\n",
    b"\1" + FRAME,
    b"\2" + bytes([2, len(AUXILIARY)]) + AUXILIARY + FRAME,
    *(b"\3" + bytes([at]) + question + b"\n" for at, question in enumerate((b"text", b"json", b"metrics", b"watch", b"watch-json"))),
    b"\4way 0,02:00:00:00:00:00/-/layer2/plain\nmarker 7\nbundle 2 1 5\ntap 3 1 0 2\non 5 1\nlink 0 00:00:00:00:00:00 0 1 5 5 " + FRAME.hex().encode() + b"\nend\n",
    b"\5" + MESSAGE,
    b"\6" + MESSAGE + ACKNOWLEDGED,
    b"\6" + OPTIONS,
    b"\6" + MESSAGE + WRONG_END,
]


def fuzz(folder: str, libraries: list[str], seconds: int) -> None:
    """Builds the fuzzer, with ASan and UBSan, and runs it for so many seconds."""
    if not shutil.which("clang"):
        print("skipped: fuzzing: no command clang (Debian: clang, libclang-rt-14-dev)", flush=True)
        return
    compiled, linked = daemon_words()
    sources = [path for path in daemon_sources() if path != os.path.join(DAEMON, "main.c")]
    made, seeds = os.path.join(folder, "fuzz"), os.path.join(folder, "seeds")
    words = ["-g", "-O1", "-fsanitize=fuzzer,address,undefined", "-fno-sanitize-recover=undefined", *STRICT, STANDING_IN, *compiled, f"-I{DAEMON}", INCLUDE]
    built = command("clang", *words, *WRAPPED, "-o", made, *sources, f"{MAINTAIN}/live.d/fuzz.c", *libraries, *linked)
    if built.returncode and "libclang_rt" not in built.stderr:
        check(False, "clang builds the fuzzer", built.stderr[-3000:])
        return
    if built.returncode:
        print(f"skipped: fuzzing: clang has no libFuzzer: {built.stderr.strip()[-400:]}", flush=True)
        return
    os.mkdir(seeds)
    for number, seed in enumerate(SEEDS):
        write_bytes(os.path.join(seeds, str(number)), seed)
    words = [f"-max_total_time={seconds}", "-max_len=2048", "-print_final_stats=1", f"-artifact_prefix={folder}/", seeds]
    ran = command(made, *words, cwd=folder)
    times = (re.findall(r"number_of_executed_units: (\d+)", ran.stderr) or ["no"])[0]
    check(ran.returncode == 0, f"fuzzed for {seconds} s, {times} times, the parsers of the daemon have no fault", ran.stderr[-3000:])
