"""The answers of the module beside those of lagtool: status, what is printed and what is said, over the captures and scripts of examples/, the
frames in them, and over what is made of these by chance."""

from __future__ import annotations

import base64
import json
import os
import random
import subprocess
from typing import Any, Callable, NamedTuple

import packing
from repository import TOP, Missing, read_bytes, read_text, want, write_bytes, write_text

EXAMPLES = os.path.join(TOP, "examples")
# Each way to explain a capture: the options of the program, and those of the page.
WAYS: list[tuple[list[str], dict[str, bool]]] = [
    ([], {}),
    (["--all"], {"all": True}),
    (["--no-frames"], {"frames": False}),
    (["--json"], {"json": True}),
    (["--json", "--no-frames"], {"json": True, "frames": False}),
]
SLOW = bytes.fromhex("0180c2000002")  # with what the frames of the slow protocols begin
FRAME = 124  # octets of one
CHANCES = 150
MAC = b"0200000000ff"
# Words that are no octets, and some that are.
WORDS = [b"", b"0", b"zz", b"00g0", "é0".encode(), b"\xff", b"01 01", b"0101", b"0A0b"]


class Job(NamedTuple):
    """A job: its name, what it is given, and its options, for the page; and the words of the program. A file is called as the page calls it."""

    name: str
    texts: list[bytes]
    options: dict[str, bool]
    words: list[bytes]
    file: str = ""


Answer = tuple[Any, str, str]


def changed(octets: bytes, chance: random.Random) -> bytes:
    """A file with some octets changed, and at times cut or with a piece twice."""
    made = bytearray(octets)
    for _ in range(chance.randint(1, 8)):
        made[chance.randrange(len(made))] = chance.choice([0, 1, 255, chance.randrange(256)])
    at = chance.randrange(len(made))
    cut: list[Callable[[], bytearray]] = [lambda: made, lambda: made, lambda: made[:at], lambda: made[:at] + made[at // 2 :]]
    return bytes(chance.choice(cut)())


def read(folder: str, kinds: tuple[str, ...]) -> list[bytes]:
    return [read_bytes(os.path.join(folder, name)) for name in sorted(os.listdir(folder)) if name.endswith(kinds)]


def frames_in(captures: list[bytes], chance: random.Random, count: int) -> list[bytes]:
    """Frames of the slow protocols, as they stand and changed."""
    whole = [it[at : at + FRAME] for it in captures for at in range(len(it)) if it.startswith(SLOW, at)]
    chosen = [chance.choice(whole) for _ in range(count)]
    return [it if number % 2 else changed(it, chance) for number, it in enumerate(chosen)]


def all_jobs() -> list[Job]:
    """The jobs, of which CHANCES captures, scripts and frames each are made by chance."""
    chance = random.Random(1)
    captures, scripts = read(os.path.join(EXAMPLES, "captures"), (".pcap", ".pcapng")), read(EXAMPLES, (".toml",))
    frames = frames_in(captures, chance, CHANCES)
    captures += [changed(chance.choice(captures), chance) for _ in range(CHANCES)]
    scripts += [changed(chance.choice(scripts), chance) for _ in range(CHANCES)]
    jobs = [Job("vectors", [], {}, [b"vectors"])]
    for octets in captures:
        for words, options in WAYS:
            told = [*(it.encode() for it in words), b"capture", b"capture"]
            jobs.append(Job("capture", [octets], options, told, "capture"))
    jobs += [Job("replay", [octets], {}, [b"--explain", b"replay", b"script"], "script") for octets in scripts]
    for hex in [*WORDS, *(it[14:].hex().encode() for it in frames)]:
        jobs.append(Job("decode", [hex], {}, [b"--explain", b"decode", hex]))
    for mac, hex in [*((it, b"00") for it in WORDS), *((MAC, it) for it in WORDS), *((MAC, it.hex().encode()) for it in frames)]:
        jobs.append(Job("respond", [mac, hex], {}, [b"--explain", b"respond", mac, hex]))
    return jobs


def of_program(lagtool: str, job: Job, folder: str) -> Answer:
    """What the program says: each line on standard error without its name, and that of a capture left out."""
    if job.file:
        write_bytes(os.path.join(folder, job.file), job.texts[0])
    ended = subprocess.run([lagtool, *job.words], stdin=subprocess.DEVNULL, capture_output=True, cwd=folder)
    said = [it.removeprefix("lagtool: ") for it in ended.stderr.decode().removesuffix("\n").split("\n")]
    return ended.returncode, ended.stdout.decode(), "\n".join(said).replace("cannot read capture: ", "cannot read: ")


def of_module(octets: bytes, jobs: list[Job], folder: str) -> list[Answer]:
    want("node")
    at = {name: os.path.join(folder, name) for name in ("answers.mjs", "module.wasm", "jobs.json", "answers.json")}
    driver = read_text(os.path.join(os.path.dirname(os.path.realpath(__file__)), "answers.js"))
    write_text(at["answers.mjs"], packing.text_of("module.js") + driver)
    write_bytes(at["module.wasm"], octets)
    with open(at["jobs.json"], "w", encoding="utf-8") as out:
        json.dump([[it.name, [base64.b64encode(text).decode() for text in it.texts], it.options] for it in jobs], out)
    ended = subprocess.run(["node", at["answers.mjs"], at["module.wasm"], at["jobs.json"], at["answers.json"]], capture_output=True, text=True)
    if ended.returncode:
        raise Missing(f"node failed: {ended.stderr.strip()[-800:]}")
    return [(status, printed, said) for status, printed, said in json.loads(read_text(at["answers.json"]))]


def compared(octets: bytes, lagtool: str, folder: str) -> tuple[int, list[str]]:
    """How many answers are equal, and which are not."""
    if not os.access(lagtool, os.X_OK):
        raise Missing(f"there is no program {lagtool}: tools/lagtool --prove makes it, and LAGTOOL may name it")
    jobs = all_jobs()
    other = []
    for number, (job, came) in enumerate(zip(jobs, of_module(octets, jobs, folder), strict=True)):
        wanted = of_program(lagtool, job, folder)
        if came != wanted:
            other.append(f"job {number}, {job.name} {job.options or ''}: {came[0]} {came[2][:80]!r} in place of {wanted[0]} {wanted[2][:80]!r}")
    return len(jobs) - len(other), other
