"""Tests of one's own: groups in a file of Python, which run beside those of the bench."""

from __future__ import annotations

import os
import re
import runpy

from .files import import_beside, unread
from .groups import GROUPS, TESTS
from .model import Group
from .refusals import MOST_LINKS, Refused

# A group has its reports and captures by this name, and a test by the number behind it.
NAME, NUMBER = re.compile("[A-Z][A-Z0-9]*"), re.compile("[0-9]+[a-z]?")


def load(path: str) -> None:
    """Puts the tests of a file among those of the bench."""
    import_beside(path)
    try:
        found = list(dict.fromkeys(it for it in runpy.run_path(path).values() if isinstance(it, Group) and it not in GROUPS))
    except (Exception, SystemExit) as why:
        if isinstance(why, OSError) and not os.path.exists(path):
            raise unread("--tests", path, why) from why
        raise Refused(f"--tests {path}: {type(why).__name__}: {why}") from why
    if not any(it.tests for it in found):
        raise Refused(f"--tests {path}: it has no lagconform.model.Group with a test")
    for group in found:
        check(path, group)
        GROUPS.append(group)
        TESTS.extend(sorted(group.tests, key=lambda it: it.id))


def check(path: str, group: Group) -> None:
    """Refuses a group whose tests would pass for others, or can't run."""
    if not NAME.fullmatch(group.name) or any(it.name == group.name for it in GROUPS):
        raise Refused(f"--tests {path}: a group has a name of its own, of A to Z and digits, and not {group.name}")
    names = [it.id for it in group.tests]
    for it in group.tests:
        if not NUMBER.fullmatch(it.id.partition("-")[2]) or names.count(it.id) > 1:
            raise Refused(f"--tests {path}: a test has a number of its own, as 01 or 02a, and not {it.id}")
        if not 1 <= it.links <= MOST_LINKS:
            raise Refused(f"--tests {path}: {it.id} wants {it.links} links; there are 1 to {MOST_LINKS}")
