"""What tools/maintain/refuse-program says of a run that is not as wanted."""

from __future__ import annotations

from subprocess import CompletedProcess

import pytest

import loading

refuse = loading.program("refuse-program")

WHOLE = CompletedProcess([], 0, b"one\ntwo\n", b"")


@pytest.mark.parametrize(
    ("status", "printed", "said", "why"),
    [
        (2, b"one\n", b"lagtool: out of memory\n", None),
        (1, b"one\n", b"lagtool: out of memory\n", "status 1"),
        (2, b"one\n", b"lagtool: other\n", "standard error has"),
        (2, b"two\n", b"lagtool: out of memory\n", "standard output has"),
        (2, WHOLE.stdout, b"lagtool: out of memory\n", "standard output has"),
    ],
)
def test_a_refused_run_ends_with_its_text_and_a_part_of_the_output(status: int, printed: bytes, said: bytes, why: str | None) -> None:
    found = refuse.why_not(CompletedProcess([], status, printed, said), WHOLE, "out of memory")
    assert found == why if why is None else found.startswith(why)
