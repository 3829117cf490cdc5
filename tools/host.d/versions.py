"""The versions of packages whose LACP is ours."""

from __future__ import annotations

import os

from repository import TOP, read_text


def ours(version: str) -> str:
    """Above the version of Debian, and below its next one."""
    return f"{version}+niw{read_text(os.path.join(TOP, 'VERSION')).strip()}"
