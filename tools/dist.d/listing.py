"""Says of what was made: its checksums, and what is in it (SPDX 2.3)."""

from __future__ import annotations

import hashlib
import json
import os
import re
from datetime import datetime, timezone

from building import Parts, version
from counting import Count, ran
from library import SONAME, printed
from packing import date
from repository import RT, TOP, lines, read_bytes, write_bytes, write_text

# What a relation is called between the whole and a part of it.
INSIDE, LOADED, MADE = "STATIC_LINK", "DYNAMIC_LINK", "BUILD_TOOL_OF"


def sum_of(octets: bytes) -> str:
    """The SHA-256 of a file."""
    return hashlib.sha256(octets).hexdigest()


def sums(files: list[str]) -> str:
    """Lines for `sha256sum --check`, in the order of the names."""
    return "".join(f"{sum_of(read_bytes(file))}  {os.path.basename(file)}\n" for file in sorted(files, key=os.path.basename))


def identifier(name: str) -> str:
    """A name as an identifier of SPDX has it: another one for each name. What it may not have is its number between hyphens, and a hyphen is two."""
    marks = (it if re.match(r"[A-Za-z0-9.]", it) else "--" if it == "-" else f"-{ord(it):x}-" for it in name)
    return "SPDXRef-" + "".join(marks)


def checksums(octets: bytes) -> list[dict[str, str]]:
    """The checksums of a file: SPDX 2.3 (8.4) wants the SHA-1 of each."""
    sums_of = {"SHA1": hashlib.sha1(octets).hexdigest(), "SHA256": sum_of(octets)}
    return [{"algorithm": name, "checksumValue": it} for name, it in sums_of.items()]


def package(name: str, of: str) -> dict[str, object]:
    """A part, whose licence this project does not say."""
    silent = dict.fromkeys(("downloadLocation", "licenseConcluded", "licenseDeclared", "copyrightText"), "NOASSERTION")
    return {"SPDXID": identifier(name), "name": name, "versionInfo": of, "filesAnalyzed": False, **silent}


def of_toolchain() -> list[str]:
    """The libraries of the toolchain that the crates use."""
    rows = lines()
    return sorted({it for row in rows.values() for it in row.partition(":")[2].split()} - set(rows))


def loaded(parts: Parts, folder: str) -> list[str]:
    """The libraries that the installed programs load, by the names that the linker looks for."""
    found, file = set(), os.path.join(folder, "program")
    for part in (*parts.archive, *parts.instead):
        if part.octets.startswith(b"\x7fELF"):
            write_bytes(file, part.octets)
            found |= set(re.findall(r"\(NEEDED\).*\[(.*)\]", printed("readelf", "--dynamic", "--wide", file)))
    return sorted(found - {SONAME})


def relation(one: str, kind: str, other: str) -> dict[str, str]:
    return {"spdxElementId": identifier(one), "relationshipType": kind, "relatedSpdxElement": identifier(other)}


def materials(parts: Parts, folder: str, tool: str) -> str:
    """What is in the archive: its files, and the libraries and the toolchain, of this version, that they were made of."""
    name = f"niwhopera-{parts.processor.machine}"
    inside, others = of_toolchain(), loaded(parts, folder)
    files = [
        {"SPDXID": identifier(f"file-{part.path}"), "fileName": f"./{part.path}", "checksums": checksums(part.octets)}
        for part in parts.archive
        if not part.link
    ]
    made = datetime.fromtimestamp(date(), timezone.utc).strftime("%Y-%m-%dT%H:%M:%SZ")
    commit = printed("git", "rev-parse", "HEAD", cwd=TOP).strip()
    whole = {
        "spdxVersion": "SPDX-2.3",
        "dataLicense": "CC0-1.0",
        "SPDXID": "SPDXRef-DOCUMENT",
        "name": f"{name}-{version()}",
        "documentNamespace": f"https://niwhopera.invalid/{commit}/{name}",
        "creationInfo": {"created": made, "creators": ["Organization: The founders of Niwhopera", "Tool: tools/dist"]},
        "packages": [package(name, version()), package("rattle", tool), *(package(it, tool) for it in inside), *(package(it, "NOASSERTION") for it in others)],
        "files": files,
        "relationships": [
            relation("DOCUMENT", "DESCRIBES", name),
            relation("rattle", MADE, name),
            *(relation(name, INSIDE, it) for it in inside),
            *(relation(name, LOADED, it) for it in others),
            *(relation("DOCUMENT", "DESCRIBES", f"file-{part.path}") for part in parts.archive if not part.link),
        ],
    }
    return json.dumps(whole, indent=1, sort_keys=True) + "\n"


def listed(parts: Parts, out: str, folder: str, files: list[str]) -> list[str]:
    """Writes both lists beside what was made; answers their files."""
    inside, checked = (os.path.join(out, f"niwhopera-{version()}-{parts.processor.machine}.{it}") for it in ("spdx.json", "sha256"))
    write_text(inside, materials(parts, folder, printed(RT, "version").split("\n")[0].strip()))
    write_text(checked, sums([*files, inside]))
    return [inside, checked]


def dangling(text: str) -> list[str]:
    """The ends of relations that the list does not have, or has more than once."""
    told = json.loads(text)
    there = [told["SPDXID"], *(it["SPDXID"] for kind in ("packages", "files") for it in told[kind])]
    ends = {it[end] for it in told["relationships"] for end in ("spdxElementId", "relatedSpdxElement")}
    return sorted(it for it in ends if there.count(it) != 1)


def tried(count: Count, files: list[str]) -> None:
    """Tries both lists as someone would who downloaded all."""
    *_, inside, checked = files
    ended = ran(["sha256sum", "--check", "--strict", "--quiet", os.path.basename(checked)], cwd=os.path.dirname(checked))
    count.add(f"sha256sum accepts {os.path.basename(checked)}", "" if ended.returncode == 0 else ended.stdout + ended.stderr)
    with open(checked, encoding="utf-8") as sums_file, open(inside, encoding="utf-8") as materials_file:
        named, text = {line.split()[1] for line in sums_file}, materials_file.read()
    missing = {os.path.basename(it) for it in files[:-1]} ^ named
    count.add(f"{os.path.basename(checked)} has each file", " ".join(sorted(missing)))
    count.add(f"each part that {os.path.basename(inside)} relates is in it once", "; ".join(dangling(text)[:9]))
