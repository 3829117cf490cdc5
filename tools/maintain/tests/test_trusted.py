"""How tools/maintain/trusted reads a check."""

from __future__ import annotations

import loading

trusted = loading.program("trusted")

BELOW = "axioms std_io: used (3 of the 40 declared)\nlogic=proved functions=5 axioms=3 sum=x\n"
ABOVE = "axioms std_io: used (3 of the 40 declared)\naxioms libc: used (8 of the 90 declared)\nlogic=proved functions=7 axioms=11 sum=x\n"


def test_the_last_crate_of_a_check_counts() -> None:
    rows = ["axioms std_io: used (3 of the 40 declared)", "axioms libc: used (8 of the 90 declared)"]
    assert trusted.counted(BELOW + ABOVE) == (11, rows)


def test_a_crate_that_rests_on_none_has_no_count() -> None:
    assert trusted.counted(BELOW + "logic=proved functions=7 sum=x\n") == (0, [])


def test_a_check_that_proves_nothing_has_no_answer() -> None:
    assert trusted.counted("logic=open functions=7 axioms=11\n") is None
    assert trusted.counted(BELOW + "logic=open functions=7\n") is None


def test_the_page_counts_these_crates() -> None:
    assert set(trusted.claims()[1]) == {"lagffi", "lagtool", "example_moved_conversation"}


def test_a_page_says_which_toolchain_it_is() -> None:
    said = trusted.versions_said()
    assert len({it.split()[-1] for it in said}) == 1 and len(said[0].split()[-1]) == 16
