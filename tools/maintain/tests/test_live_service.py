"""tools/maintain/live.d/service.py: what the journal is handed, and the message ids of the documents."""

from __future__ import annotations

import socket
from pathlib import Path
from typing import Iterator

import pytest

import loading

service = loading.module("live.d", "service")

PAGE = """| line | id |
|---|---|
| a port changed | `0123456789abcdef0123456789abcdef` |
| the bundle is `up` | `fedcba9876543210fedcba9876543210` |
| no id | `0123` |
"""


class Printed:
    """A daemon that printed nothing."""

    def printed(self) -> str:
        return ""


@pytest.fixture
def journal(monkeypatch: pytest.MonkeyPatch) -> Iterator[tuple[socket.socket, socket.socket]]:
    """Who writes to the journal, and who listens; a sign comes at once or never."""
    monkeypatch.setattr(service, "ENDS", 0)
    writer, listener = socket.socketpair(socket.AF_UNIX, socket.SOCK_DGRAM)
    listener.setblocking(False)
    with writer, listener:
        yield writer, listener


def test_entries_are_the_fields_of_datagrams(journal: tuple[socket.socket, socket.socket], capsys: pytest.CaptureFixture[str]) -> None:
    writer, listener = journal
    writer.send(b"MESSAGE=port 1 a0: a=b\nPRIORITY=5\n")
    writer.send(b"MESSAGE=bundle a0: down\n")
    found = service.entries(listener, Printed(), 2)
    assert found == [{"MESSAGE": "port 1 a0: a=b", "PRIORITY": "5"}, {"MESSAGE": "bundle a0: down"}]
    assert capsys.readouterr().out == "passed: the journal hears 2 entries\n"


def test_fewer_entries_than_wanted_have_failed(journal: tuple[socket.socket, socket.socket], capsys: pytest.CaptureFixture[str]) -> None:
    writer, listener = journal
    writer.send(b"MESSAGE=ended\n")
    assert service.entries(listener, Printed(), 2) == [{"MESSAGE": "ended"}]
    assert capsys.readouterr().out.startswith("FAILED: the journal hears 2 entries\n")


def test_message_ids_are_read_from_the_rows_of_a_table(tmp_path: Path, monkeypatch: pytest.MonkeyPatch) -> None:
    (tmp_path / "docs").mkdir()
    (tmp_path / "docs" / "LAGD.md").write_text(PAGE)
    monkeypatch.setattr(service, "TOP", str(tmp_path))
    assert service.ids_of_lines() == {"a port changed": "0123456789abcdef" * 2, "the bundle is `up`": "fedcba9876543210" * 2}


def test_the_documents_have_the_line_of_the_bundle() -> None:
    assert service.BUNDLE_LINE in service.ids_of_lines()
