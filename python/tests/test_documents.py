"""The programs that the documents print do what the documents say."""

from __future__ import annotations

import contextlib
import io
import os
import re

import niwhopera

PAGE = os.path.join(os.path.dirname(os.path.abspath(__file__)), "..", "..", "docs", "USING.md")


def printed(program: str) -> str:
    out = io.StringIO()
    with contextlib.redirect_stdout(out):
        exec(compile(program, "a page", "exec"), {})
    return out.getvalue().rstrip("\n")


def test_each_program_of_the_page_prints_what_the_page_says() -> None:
    with open(PAGE, encoding="utf-8") as it:
        text = it.read()
    programs = re.findall(r"^```python\n(.*?)^```$", text, re.M | re.S)
    assert len(programs) == 2
    for program in programs:
        assert f"It prints `{printed(program)}`" in text


def test_the_program_of_the_module_prints_an_lacpdu() -> None:
    program = (niwhopera.__doc__ or "").partition("\n\n    ")[2]
    assert printed("\n".join(line[4:] for line in f"    {program}".split("\n"))).startswith("1 LACPDU 0180c2000002020000000001880901010114")
