"""The tests, one file a group."""

from ..model import Group, Test
from . import engine, fields, invariants, markers, mux, periodic, receive, robustness, selection, silence, transmit, versions

_FILES = (fields, receive, silence, versions, periodic, mux, transmit, markers, robustness, selection, engine, invariants)
# Two files may have one group.
GROUPS: list[Group] = list(dict.fromkeys(it.group for it in _FILES))
for _group in GROUPS:
    _group.tests.sort(key=lambda it: it.id)
TESTS: list[Test] = [test for group in GROUPS for test in group.tests]
