"""tools/maintain/measure: what a file counts as, and what its lines are."""

from __future__ import annotations

import pytest

import loading

measure = loading.program("measure")


@pytest.mark.parametrize(
    ("path", "kind"),
    [
        ("crates/low/src/a.rt", "code"),
        ("crates/tests_low/specs/A.antt", "tests"),
        ("crates/low/must-fail/a.edit", "edits"),
        ("tools/maintain/wrong-bodies.d/low.edits", "edits"),
        ("tools/maintain/live.d/a.c", "tools"),
        ("tools/maintain/tests/test_a.py", "tests of the tools"),
        ("tools/check", "tools"),
        ("tools/dist.d/abi.py", "tools of users"),
        ("tools/dist.d/debian/control", None),
        ("crates/lagffi/include/lag.h", "header"),
        ("c/head.c", "head of c/lag.c"),
        ("c/lag.c", None),
        ("crates/example_a/src/lib.rt", None),
        ("hosts/teamd/lacp_team.h", "hosts"),
        ("hosts/teamd/tests/kept.c", "tests of hosts"),
        ("hosts/README.md", None),
        ("python/lagconform/pics.py", "Python modules"),
        ("python/tests/conversations/ports.txt", None),
        ("python/tests/test_lines.py", "tests of Python"),
        ("page/parts/a.js", "page"),
        ("docs/USING.md", None),
    ],
)
def test_a_file_counts_by_its_place(path: str, kind: str | None) -> None:
    assert measure.kind_of(path) == kind


def test_the_product_stands_beside_what_checks_it() -> None:
    product = {"crates/low/src/a.rt": "1\n2\n3\n", "crates/lagtypes/src/a.rt": "1\n", "lagd/a.c": "4\n5\n"}
    told = measure.figures({**product, "tools/check": "1\n2\n3\n", "python/tests/test_a.py": "4\n", "docs/A.md": "5\n"})
    assert (told["lines: product"], told["lines: tests and tools"], told["tests and tools, a line of the product"]) == ("6", "4", "0.667")
    assert (told["lines: code"], told["lines: code, C library"]) == ("4", "1")
