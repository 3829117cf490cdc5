"""Streams of TCP between two devices, by iperf3."""

from __future__ import annotations

import json
import shutil
import subprocess
from dataclasses import dataclass
from typing import Sequence

from bonds import DEVICE
from checking import Failed, Skipped, command, within
from spaces import OURS, THEIRS, inside

ADDRESSES = ("198.51.100.1", "198.51.100.2")
# How long the first packet may take until it comes.
REACHES = 10


@dataclass
class Stream:
    bits: float  # a second, as the receiver had them
    retransmits: int


def give_addresses(devices: Sequence[str]) -> None:
    for space, device, address in zip((OURS, THEIRS), devices, ADDRESSES):
        command("ip", "-n", space, "address", "replace", f"{address}/24", "dev", device)


def run_stream(seconds: float, *, devices: Sequence[str] = (DEVICE, DEVICE), streams: int = 1, to: str = "") -> Stream:
    """One or several streams from our end to the other one; `to` is an address that this has already."""
    if not shutil.which("iperf3"):
        raise Skipped("there is no iperf3 (Debian: iperf3)")
    if not to:
        give_addresses(devices)
    server = subprocess.Popen(["ip", "netns", "exec", THEIRS, "iperf3", "-s", "-1"], stdout=subprocess.DEVNULL, stderr=subprocess.DEVNULL)
    try:
        words = ["iperf3", "-c", to or ADDRESSES[1], "-t", str(seconds), "-P", str(streams), "-J"]
        told: list[str] = []

        def is_told() -> bool:
            told.append(inside(OURS, *words, timeout=seconds + 30).stdout)
            return '"end"' in told[-1] and "sum_received" in told[-1]

        if not within(REACHES, is_told):
            raise Failed("a stream of TCP runs", *told[-1:])
        end = json.loads(told[-1])["end"]
        return Stream(end["sum_received"]["bits_per_second"], end["sum_sent"].get("retransmits", 0))
    finally:
        server.kill()
        server.wait()
