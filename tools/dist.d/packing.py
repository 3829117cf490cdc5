"""Packs files into an archive, so that equal files give equal octets."""

from __future__ import annotations

import gzip
import io
import os
import tarfile

from building import Parts, version
from library import printed
from repository import TOP, write_bytes


def date() -> int:
    """The time of the commit, which each file gets."""
    return int(printed("git", "log", "-1", "--format=%ct", cwd=TOP))


def archive(parts: Parts, out: str) -> str:
    """The archive: one folder with all files in the order of their names; answers its path."""
    name = f"niwhopera-{version()}-{parts.processor.machine}-linux"
    packed, made = io.BytesIO(), date()
    with tarfile.open(fileobj=packed, mode="w", format=tarfile.USTAR_FORMAT) as tar:
        for part in parts.archive:
            entry = tarfile.TarInfo(f"{name}/{part.path}")
            entry.size, entry.mtime, entry.mode = len(part.octets), made, 0o755 if part.is_program else 0o644
            if part.link:
                entry.type, entry.linkname = tarfile.SYMTYPE, part.link
            tar.addfile(entry, io.BytesIO(part.octets))
    os.makedirs(out, exist_ok=True)
    file = os.path.join(out, f"{name}.tar.gz")
    write_bytes(file, gzip.compress(packed.getvalue(), mtime=0))
    return file
