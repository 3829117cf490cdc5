"""From where packages come: the machine's own apt configuration."""

from __future__ import annotations

from pathlib import Path

import loading  # noqa: F401  (tools/ is looked up)
import mirrors

SOURCES = """Types: deb
URIs: http://mirror.example/debian
Suites: bookworm

Types: deb
Signed-By: /keys/other.gpg
URIs: http://other.example/debian
"""


def test_the_keys_are_those_of_the_entry(tmp_path: Path) -> None:
    many, lines = tmp_path / "a.sources", tmp_path / "a.list"
    many.write_text(SOURCES)
    lines.write_text("# none\ndeb [arch=amd64 signed-by=/keys/one.gpg] http://mirror.example/debian bookworm main\n")
    assert [mirrors.keys_of(f"{many}:{it}") for it in (1, 2, 3)] == ["", "/keys/other.gpg", ""]
    assert [mirrors.keys_of(f"{lines}:{it}") for it in (1, 2)] == ["", "/keys/one.gpg"] and mirrors.keys_of(f"{tmp_path}/none:1") == ""


def test_a_place_has_lines_for_other_releases() -> None:
    place = mirrors.Place("http://mirror.example/debian", "/keys/one.gpg", "bookworm")
    assert place.line("deb", "sid", "arch=amd64") == "deb [arch=amd64 signed-by=/keys/one.gpg] http://mirror.example/debian sid main\n"
    assert place._replace(keys="").line("deb-src", "sid") == "deb-src http://mirror.example/debian sid main\n"
