"""Plays the conversations of the folder `conversations` by lines, and tests how lines are read, and how the program ends.

A row is `LINE => ANSWER`, with `\\r` for a carriage return, and `{0*N}` for N zeros. An independent implementation made those of
`drawn.txt.xz`, of calls drawn at random; `xzcat` shows them. The others are worked by hand.
"""

from __future__ import annotations

import io
import lzma
import os
import re
import subprocess
import sys
from typing import Any, Iterator

import niwhopera
import pytest
from niwhopera import lines
from niwhopera.lines import Lines, Stopped

HERE = os.path.dirname(os.path.abspath(__file__))
FOLDER = os.path.join(HERE, "conversations")
TICKS = b"tick\ntick\n"
Rows = list[tuple[bytes, str]]


def row_of(text: str) -> tuple[bytes, str]:
    whole = re.sub(r"\{0\*(\d+)\}", lambda found: "0" * int(found[1]), text)
    line, answer = whole.split(" => ", 1)
    return line.replace("\\r", "\r").encode(), answer


def rows_of(text: str) -> Rows:
    return [row_of(row) for row in text.split("\n") if row and not row.startswith("#")]


def conversations() -> Iterator[tuple[str, Rows]]:
    """The conversations that are worked by hand, each with its title."""
    for name in sorted(os.listdir(FOLDER)):
        if name.endswith(".txt"):
            with open(os.path.join(FOLDER, name), encoding="utf-8", newline="") as file:
                for section in file.read().split("## ")[1:]:
                    title, rows = section.split("\n", 1)
                    yield title, rows_of(rows)


def compare(rows: Rows, answers: list[str]) -> None:
    assert len(answers) == len(rows)
    for place, ((line, wanted), answer) in enumerate(zip(rows, answers)):
        assert answer == wanted, (place, line)


class Given(io.RawIOBase):
    """A stream that gives at most so many octets in each read, and fails after so many reads."""

    def __init__(self, rest: bytes, size: int, reads: int = sys.maxsize) -> None:
        self.rest, self.size, self.reads = rest, size, reads

    def readable(self) -> bool:
        return True

    def readinto(self, buffer: Any) -> int:
        if not self.reads:
            raise OSError("no more reads")
        self.reads -= 1
        count = min(self.size, len(self.rest), len(buffer))
        buffer[:count], self.rest = self.rest[:count], self.rest[count:]
        return count


class Taken(io.BytesIO):
    """A stream that fails where it has no room, and knows how much was written at each flush."""

    def __init__(self, room: int = sys.maxsize) -> None:
        super().__init__()
        self.room, self.flushed = room, list[int]()

    def write(self, octets: Any) -> int:
        if self.tell() + len(octets) > self.room:
            raise OSError("no room")
        return super().write(octets)

    def flush(self) -> None:
        self.flushed.append(self.tell())


def said(octets: bytes, size: int = 4096) -> str:
    """What is answered to octets that come in pieces of this size."""
    taken = Taken()
    lines.serve(io.BufferedReader(Given(octets, size)), taken)
    return taken.getvalue().decode()


def program(*words: str, **how: Any) -> subprocess.Popen[bytes]:
    pipes: dict[str, Any] = {"stdin": subprocess.PIPE, "stdout": subprocess.PIPE, "stderr": subprocess.PIPE, **how}
    ran: subprocess.Popen[bytes] = subprocess.Popen([sys.executable, "-m", "niwhopera.lines", *words], **pipes)
    return ran


def ended(*words: str, **how: Any) -> tuple[int, str, str]:
    """The status of the program, and both of its texts."""
    with program(*words, **how) as ran:
        text, fault = ran.communicate(TICKS)
    return ran.returncode, (text or b"").decode(), fault.decode()


@pytest.mark.parametrize("rows", [pytest.param(rows, id=title.replace(" ", "-")) for title, rows in conversations()])
def test_a_conversation_is_answered_as_it_should_be(rows: Rows) -> None:
    answers = said(b"".join(line + b"\n" for line, _ in rows))
    compare(rows, answers.split("\n")[:-1])


def test_the_program_answers_all_that_was_drawn() -> None:
    with lzma.open(os.path.join(FOLDER, "drawn.txt.xz"), "rt", encoding="utf-8") as file:
        rows = rows_of(file.read())
    with program() as ran:
        answers, fault = ran.communicate(b"".join(line + b"\n" for line, _ in rows))
    assert (ran.returncode, fault, len(rows)) == (0, b"", 19162)
    compare(rows, answers.decode().split("\n")[:-1])


def test_each_answer_comes_before_the_next_line_is_read() -> None:
    with program() as ran:
        for line, answer in ((b"tick\n", b"fault no-system\n"), (b"\n", b"fault word\n")):
            source, sink = ran.stdin, ran.stdout
            assert source is not None and sink is not None
            source.write(line)
            source.flush()
            assert sink.readline() == answer
        ran.communicate()


def test_a_system_that_is_replaced_is_closed() -> None:
    engine, made = Lines(), b"system 1 020000000001 0 1 7 1:128:020000000001:7:1:1:1"
    assert [engine.answer(line) for line in (made, made, b"ports")] == ["ok", "ok", "ports: 1"]
    engine.close()


@pytest.mark.parametrize(
    "line, answer",
    [
        (b"tick\xff", "fault not-text"),
        (b"tick " + b"0" * 9000 + b"1", "fault no-system"),
        (b"tick " + b"9" * 9000, "fault number at word 2"),
        ("tick \u0661".encode(), "fault number at word 2"),
        (b"tick 1_0", "fault number at word 2"),
        (b"tick 1\n", "fault number at word 2"),
        (b"transmit 65536", "fault number at word 2"),
        (b"receive 1 0a\t0b", "fault hex at word 3"),
        ("receive 1 \u0661\u0662".encode(), "fault hex at word 3"),
        (b"receive 1 ", "fault no-system"),
        (b"receive 1 aBcD", "fault no-system"),
        (b"system 1 02:00:00:00:00:01 0 1 -", "fault mac at word 3"),
        (b"system 1 020000000001 0 1 - conversations", "fault count at word 7"),
    ],
)
def test_words_are_read_as_strictly_as_they_are_told(line: bytes, answer: str) -> None:
    assert Lines().answer(line) == answer


@pytest.mark.parametrize("count, answer", [(65536, "fault word"), (65537, "fault too-long"), (70000, "fault too-long"), (140000, "fault too-long")])
def test_the_longest_line(count: int, answer: str) -> None:
    assert said(b" " * count + b"\ntick\n") == f"{answer}\nfault no-system\n"
    assert said(b" " * count) == f"{answer}\n"


@pytest.mark.parametrize("size", [1, 3, 4096])
@pytest.mark.parametrize(
    "octets, answers",
    [(b"", ""), (b"\n", "fault word\n"), (b"tick", "fault no-system\n"), (b"tick\n\n", "fault no-system\nfault word\n")],
)
def test_the_end_of_the_input(octets: bytes, answers: str, size: int) -> None:
    assert said(octets, size) == answers


def test_each_answer_is_flushed() -> None:
    taken = Taken()
    lines.serve(io.BytesIO(b"tick\n\n"), taken)
    assert taken.flushed == [16, 27]


def test_a_reader_that_fails() -> None:
    taken = Taken()
    with pytest.raises(Stopped, match="^cannot read$"):
        lines.serve(io.BufferedReader(Given(TICKS, 5, reads=1)), taken)
    assert taken.getvalue() == b"fault no-system\n"


@pytest.mark.parametrize("room, written", [(0, b""), (15, b""), (16, b"fault no-system\n")])
def test_a_writer_that_fails(room: int, written: bytes) -> None:
    taken = Taken(room)
    with pytest.raises(Stopped, match="^cannot write$"):
        lines.serve(io.BytesIO(TICKS), taken)
    assert taken.getvalue() == written


@pytest.mark.parametrize("words", [["--help"], ["-h"], ["--help", "extra"]])
def test_the_help_names_each_request(words: list[str]) -> None:
    status, text, fault = ended(*words)
    named = re.split(r"[,.]\s+", text.split("Calls: ")[1].split("docs/")[0].replace("Readers: ", ""))
    assert (status, fault) == (0, "") and named[:2] == ["system", "tick [N]"]
    assert {*named[2:-1]} == {*lines.CALLS, *lines.READERS, "keep", "drive"}


def test_the_version() -> None:
    status, text, fault = told = ended("--version")
    first, second = text.splitlines()
    assert told == ended("-V") and (status, fault) == (0, "") and first == f"niwhopera.lines {niwhopera.__version__}"
    assert re.fullmatch(rf"with (native liblag|liblag of lag\.c), .*, (for lag\.h of )?{re.escape(niwhopera.__version__)}", second)


@pytest.mark.parametrize("words", [["help"], ["extra", "--help"], [""]])
def test_a_word_that_the_program_does_not_know(words: list[str]) -> None:
    assert ended(*words) == (2, "", f'niwhopera.lines: no such word: "{words[0]}"\n')


@pytest.mark.parametrize("words", [[], ["--help"]])
def test_an_output_that_is_full(words: list[str]) -> None:
    with open("/dev/full", "wb") as full:
        assert ended(*words, stdout=full) == (2, "", "niwhopera.lines: cannot write\n")


@pytest.mark.parametrize(("closed", "fault"), [("<&-", "cannot read"), (">&-", "cannot write")])
def test_a_stream_that_was_closed_before(closed: str, fault: str) -> None:
    run = subprocess.run(["sh", "-c", f'exec "$0" -m niwhopera.lines {closed}', sys.executable], capture_output=True, text=True)
    assert (run.returncode, run.stdout, run.stderr) == (2, "", f"niwhopera.lines: {fault}\n")


def test_a_library_that_is_not_there() -> None:
    status, text, fault = ended(env={**os.environ, "NIWHOPERA_LIBRARY": os.path.join(HERE, "none.so")})
    assert (status, text) == (2, "") and fault.startswith("niwhopera.lines: ") and "NIWHOPERA_LIBRARY" in fault
