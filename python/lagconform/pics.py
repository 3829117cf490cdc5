"""What a device claims of itself: a file with one `ITEM yes` or `ITEM no` a line, after the items of a statement of conformance.

A test that needs an item that the device claims not to have is not applicable, but for an item that the standard wants of every system: its tests
run, and MK-01 fails. FM-08 fails where the frames tell otherwise than the file. Of what stands in no file, the frames decide.
"""

from __future__ import annotations

from typing import Mapping

from niwhopera import State

# The items, and what each means.
ITEMS = {
    "active": "LACP_Activity of its ports is 1",
    "short-timeouts": "LACP_Timeout of its ports is 1: it asks for an LACPDU each second",
    "marker-responder": "it answers markers (6.2.6 wants it of every system)",
    "two-ports": "both links may join one aggregator: one key, one system",
}
EXAMPLE = "`marker-responder no`"
# What the standard wants of every system, and the items that a bit of an LACPDU tells.
MANDATORY = ("marker-responder",)
BITS = {"active": State.ACTIVITY, "short-timeouts": State.TIMEOUT}


class BadPics(Exception):
    """A file that is no statement: its text says which line and why."""


def parsed(text: str) -> dict[str, bool]:
    """The items of a file. What stands behind # is no part of a line."""
    claimed: dict[str, bool] = {}
    for number, line in enumerate(text.splitlines(), 1):
        words = line.partition("#")[0].split()
        if not words:
            continue
        if len(words) != 2 or words[1] not in ("yes", "no"):
            raise BadPics(f"line {number}: an item, and yes or no, as {EXAMPLE}; the items are {', '.join(ITEMS)}")
        if words[0] not in ITEMS:
            raise BadPics(f"line {number}: there is no item {words[0]}; the items are {', '.join(ITEMS)}")
        claimed[words[0]] = words[1] == "yes"
    return claimed


def lacking(needs: tuple[str, ...], claimed: Mapping[str, bool]) -> list[str]:
    """The items of a test that the device claims not to have, and need not have."""
    return [it for it in needs if claimed.get(it) is False and it not in MANDATORY]


def denied(claimed: Mapping[str, bool], state: State) -> list[str]:
    """What of the claims the state in an LACPDU of the device denies."""
    wrong = [it for it, bit in BITS.items() if it in claimed and claimed[it] != bool(state & bit)]
    wrong += ["two-ports"] if claimed.get("two-ports") and not state & State.AGGREGATION else []
    return [f"{it} {'yes' if claimed[it] else 'no'}" for it in wrong]
