"""What a crate's proofs import: names that several files take stand once, in proofs/Common."""

from __future__ import annotations

from pathlib import Path

import pytest

import loading

tool = loading.program("proof-imports")

ONE = """-- One.
use Rattle.std.proofs.Common.{List, map}
use Rattle.low.specs.Texts.{text as name, other}
use Rattle.low.specs.declared.fault.Fault.TheVariants as fault

one : List
"""
TWO = """use Rattle.std.proofs.Common.{map, ap}
use Rattle.low.specs.Texts.{other}
use Rattle.high.proofs.One.{one}

two : one
unfolding other
"""


@pytest.fixture
def proofs(tmp_path: Path, monkeypatch: pytest.MonkeyPatch) -> Path:
    folder = tmp_path / "crates" / "high" / "proofs"
    folder.mkdir(parents=True)
    (folder / "Lib.antt").write_text("mod One\nmod Two\n")
    (folder / "One.antt").write_text(ONE)
    (folder / "Two.antt").write_text(TWO)
    (tmp_path / "crates.txt").write_text("high: low\nlow:\n")
    monkeypatch.setattr(tool, "CRATES", tmp_path / "crates")
    monkeypatch.setattr(tool.repository, "TOP", str(tmp_path))
    return folder


def test_a_common_place_that_saves_few_lines_is_removed(proofs: Path) -> None:
    for path, text in tool.Crate("high").with_common().items():
        path.write_text(text)
    written = tool.Crate("high").written()
    assert written[proofs / "Common.antt"] == ""
    assert written[proofs / "Lib.antt"] == "mod One\nmod Two\n"


def test_a_name_that_common_lacks_is_refused(proofs: Path) -> None:
    (proofs / "One.antt").write_text(ONE.replace("Rattle.std.proofs.Common", "Rattle.high.proofs.Common"))
    with pytest.raises(tool.Missing):
        tool.Crate("high")
