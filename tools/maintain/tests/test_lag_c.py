"""tools/maintain/lag-c: the C of each instruction computes what node does, over values at the edges; memory has the octets of a number from low to
high; and what C is not made of is refused."""

from __future__ import annotations

import json
import pathlib
import shutil
import subprocess
import sys
from typing import Any

import pytest

import loading
from repository import COMPILER, Missing

loading.module("interface.d", "sources")
functions: Any = loading.module("lag-c.d", "functions")
text: Any = loading.module("lag-c.d", "text")
# The one that the other modules import.
wasm: Any = sys.modules["wasm"]
HEAD = pathlib.Path(text.HEAD).read_text(encoding="utf-8")
needs_node = pytest.mark.skipif(not shutil.which("node"), reason="there is no node")

I32, I64 = 0x7F, 0x7E
# The instructions of numbers by what they take and give: those of one operand, and those of two.
ONE = {0x45: (I32, I32), 0x50: (I64, I32), 0x67: (I32, I32), 0x68: (I32, I32), 0x69: (I32, I32), 0x79: (I64, I64), 0x7A: (I64, I64), 0x7B: (I64, I64),
       0xA7: (I64, I32), 0xAC: (I32, I64), 0xAD: (I32, I64), 0xC0: (I32, I32), 0xC1: (I32, I32), 0xC2: (I64, I64), 0xC3: (I64, I64), 0xC4: (I64, I64)}
TWO = {**{it: (I32, I32) for it in range(0x46, 0x50)}, **{it: (I64, I32) for it in range(0x51, 0x5B)}, **{it: (I32, I32) for it in range(0x6A, 0x79)},
       **{it: (I64, I64) for it in range(0x7C, 0x8B)}}
# Division, which has no answer for 0, and of signed numbers none for the least by -1.
DIVIDES = {0x6D, 0x6E, 0x6F, 0x70, 0x7F, 0x80, 0x81, 0x82}
EDGES = (0, 1, 2, 5, 31, 32, 33, 63, 64, 65, 127, 128, 255, 256, 32767, 32768, 65535, 65536, 2**31 - 1, 2**31, 2**31 + 1, 2**32 - 1, 2**32, 2**32 + 7,
         2**63 - 1, 2**63, 2**63 + 1, 2**64 - 2, 2**64 - 1, 0x0123456789ABCDEF)


BY_NODE = """const fs = require("fs"), { exports } = new WebAssembly.Instance(new WebAssembly.Module(fs.readFileSync("module.wasm"))), lines = [];
const edges = JSON.parse(fs.readFileSync("edges.json")).map(BigInt);
for (const [name, count, isShort, divides] of JSON.parse(fs.readFileSync("jobs.json"))) {
    const bits = isShort ? 32 : 64, as = (it) => isShort ? Number(BigInt.asIntN(32, it)) : BigInt.asIntN(64, it);
    const tell = (...given) => {
        const told = exports[name](...given.map(as));
        lines.push(typeof told === "bigint" ? BigInt.asUintN(64, told) : told >>> 0);
    };
    for (const a of edges) {
        if (count === 1) tell(a);
        else for (const b of edges) {
            const [left, right] = [a, b].map((it) => BigInt.asUintN(bits, it));
            if (divides && (!right || (left === 1n << BigInt(bits - 1) && right === (1n << BigInt(bits)) - 1n))) continue;
            tell(a, b);
        }
    }
}
process.stdout.write(lines.join("\\n") + "\\n");"""


def number(value: int) -> bytes:
    """An unsigned number, seven bits an octet."""
    out = []
    while True:
        out.append(value & 127 | (128 if value > 127 else 0))
        value >>= 7
        if not value:
            return bytes(out)


def section(which: int, items: list[bytes]) -> bytes:
    body = number(len(items)) + b"".join(items)
    return bytes([which]) + number(len(body)) + body


def of(jobs: dict[str, tuple[list[int], int, bytes]], more: bytes = b"") -> bytes:
    """A module of functions: what each takes and gives, and its instructions."""
    kinds = [b"\x60" + number(len(given)) + bytes(given) + b"\x01" + bytes([told]) for given, told, _ in jobs.values()]
    exports = [number(len(name)) + name.encode() + b"\0" + number(at) for at, name in enumerate(jobs)]
    codes = [number(len(body) + 2) + b"\0" + body + b"\x0b" for _, _, body in jobs.values()]
    listed = [section(1, kinds), section(3, [number(at) for at in range(len(jobs))]), section(7, exports), section(10, codes)]
    return b"\0asm\1\0\0\0" + listed[0] + more + b"".join(listed[1:])


def jobs_of_numbers() -> dict[str, tuple[list[int], int, bytes]]:
    jobs = {f"one_{code:x}": ([given], told, b"\x20\x00" + bytes([code])) for code, (given, told) in ONE.items()}
    jobs.update({f"two_{code:x}": ([given, given], told, b"\x20\x00\x20\x01" + bytes([code])) for code, (given, told) in TWO.items()})
    return jobs


def compiled(folder: pathlib.Path, source: str, *words: str) -> pathlib.Path:
    (folder / "job.c").write_text(source, encoding="utf-8")
    include = f"{loading.TOOLS}/../crates/lagffi/include"
    subprocess.run([*COMPILER, *words, "-w", "-I", include, "-o", str(folder / "job"), str(folder / "job.c")], check=True)
    return folder / "job"


@needs_node
@pytest.mark.parametrize("level", ["-O0", "-O2"])
def test_each_instruction_of_numbers_computes_what_node_does(level: str, tmp_path: pathlib.Path) -> None:
    octets = of(jobs_of_numbers())
    (tmp_path / "module.wasm").write_bytes(octets)
    (tmp_path / "jobs.json").write_text(json.dumps([(name, len(given), given[0] == I32, body[-1] in DIVIDES) for name, (given, _, body) in jobs_of_numbers().items()]))
    (tmp_path / "edges.json").write_text(json.dumps([str(it) for it in EDGES]))
    wanted = subprocess.run(["node", "-e", BY_NODE], cwd=tmp_path, capture_output=True, text=True, check=True).stdout
    rows = []
    for name, (given, _, body) in jobs_of_numbers().items():
        least = f"1ull << {31 if given[0] == I32 else 63}"
        kind = "u32" if given[0] == I32 else "u64"
        skips = f"if (!({kind})b || (({kind})a == ({least}) && ({kind})b == ({kind})-1)) continue;" if body[-1] in DIVIDES else ""
        loops = "EACH(a)" + (f" EACH(b) {{ {skips}" if len(given) == 2 else " {")
        rows.append(f'    {loops} printf("%llu\\n", (unsigned long long)its_{name}({", ".join(f"({kind}){it}" for it in "ab"[:len(given)])})); }}')
    each = "#define EACH(it) for (u64 at_##it = 0, it; at_##it < sizeof edges / sizeof *edges && (it = edges[at_##it], 1); at_##it++)"
    edges = f"static const volatile u64 edges[] = {{{', '.join(f'{it}ull' for it in EDGES)}}};"
    main = ["#include <stdio.h>", "static const ARRAY(data, 1);", edges, each, *functions.written(wasm.Module(octets)), "int main(void) {", *rows, "    return 0;\n}\n"]
    assert subprocess.run([str(compiled(tmp_path, "\n".join([HEAD, *main]), level))], capture_output=True, text=True).stdout == wanted


def test_memory_has_the_octets_of_a_number_from_low_to_high(tmp_path: pathlib.Path) -> None:
    at, value = b"\x20\x00", b"\x20\x01"
    puts = ((0x36, I32, 32), (0x37, I64, 64), (0x3A, I32, 8), (0x3B, I32, 16), (0x3C, I64, 8), (0x3D, I64, 16), (0x3E, I64, 32))
    jobs = {f"put_{code:x}": ([I64, kind], I32, at + value + bytes([code, 0, 3]) + b"\x41\x00") for code, kind, _ in puts}
    jobs.update({f"get_{code:x}": ([I64], kind, at + bytes([code, 0, 3])) for code, kind in
                 ((0x28, I32), (0x29, I64), (0x2C, I32), (0x2D, I32), (0x2E, I32), (0x2F, I32), (0x30, I64), (0x31, I64), (0x32, I64), (0x33, I64), (0x34, I64), (0x35, I64))})
    memory = section(2, [b"\x03env\x06memory\x02\x04\x01"])
    lines = ["    unsigned char m[16];"]
    for code, kind, bits in puts:
        lines += ["    memset(m, 7, 16);", f"    its_put_{code:x}(AT(m), {'0x8182838485868788ull' if kind == I64 else '0x85868788u'});"]
        lines += [f"    for (int i = 0; i < 16; i++) if (m[i] != (i >= 3 && i < {3 + bits // 8} ? 0x88 - (i - 3) : 7)) return 1;"]
    lines += ["    for (int i = 0; i < 16; i++) m[i] = (unsigned char)(0x88 - (i - 3));"]
    wanted = {0x28: 0x85868788, 0x29: 0x8182838485868788, 0x2C: 0xFFFFFF88, 0x2D: 0x88, 0x2E: 0xFFFF8788, 0x2F: 0x8788, 0x30: 2**64 - 0x78, 0x31: 0x88,
              0x32: 2**64 - 0x7878, 0x33: 0x8788, 0x34: 2**64 - 0x7A797878, 0x35: 0x85868788}
    lines += [f"    if (its_get_{code:x}(AT(m)) != {told}ull) return {code};" for code, told in wanted.items()]
    source = "\n".join([HEAD, "static const ARRAY(data, 1);", *functions.written(wasm.Module(of(jobs, memory))), "int main(void) {", *lines, "    return 0;\n}\n"])
    assert subprocess.run([str(compiled(tmp_path, source, "-O2"))]).returncode == 0


@pytest.mark.parametrize("told, octets", [
    ("no module", b"ELF"),
    ("type 0x7d", of({"f": ([0x7D], I32, b"\x41\x00")})),
    ("an instruction 0x3f", of({"f": ([I32], I32, b"\x3f\x00")})),
    ("not 64 bits", of({"f": ([I32], I32, b"\x41\x00")}, section(2, [b"\x03env\x06memory\x02\x00\x01"]))),
    ("calls outside", of({"f": ([I32], I32, b"\x10\x00")}, section(2, [b"\x03env\x07outside\x00\x00"]))),
    ("section 4", of({"f": ([I32], I32, b"\x41\x00")}, section(4, [b"\x70\x00\x01"]))),
])
def test_what_c_is_not_made_of_is_refused(told: str, octets: bytes) -> None:
    with pytest.raises(Missing, match=told):
        functions.written(wasm.Module(octets))
