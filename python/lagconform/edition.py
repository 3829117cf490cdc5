"""What verdicts speak of: the edition of the standard that clauses are of, and that of the tests."""

from __future__ import annotations

import hashlib
from functools import lru_cache
from pathlib import Path

from niwhopera import __version__

STANDARD = "IEEE 802.1AX-2014"


@lru_cache(maxsize=None)
def checksum() -> str:
    """That of the sources, as the run began with them."""
    found = hashlib.sha256()
    folder = Path(__file__).parent
    for path in sorted(folder.rglob("*.py")):
        found.update(str(path.relative_to(folder)).encode() + b"\0" + path.read_bytes() + b"\0")
    return found.hexdigest()[:16]


def edition() -> dict[str, str]:
    """Both, as reports and the list have them. The tests have the sum of their sources, as those of a clone differ under one version."""
    return {"standard": STANDARD, "tests": f"lagconform {__version__}, SHA-256 {checksum()}"}
