"""How tools/maintain/page packs the page."""

from __future__ import annotations

import re

import pytest

import loading

packing = loading.module("page.d", "packing")
module = loading.module("page.d", "module")


def test_a_page_keeps_its_module() -> None:
    octets = bytes(range(256)) * 3
    page = packing.packed(octets)
    assert packing.module_in(page) == octets
    assert packing.module_in("<p>none</p>") is None


def test_the_policy_names_the_script_and_the_style_that_are_there() -> None:
    page = packing.packed(b"")
    for kind in "style", "script":
        text = re.findall(rf"<{kind}(?: type=\"module\")?>(.*?)</{kind}>", page, re.S)[0]
        assert packing.digest(text) in page
    assert "import " not in packing.joined()


def test_an_import_of_what_no_module_before_has_is_refused(monkeypatch: pytest.MonkeyPatch) -> None:
    monkeypatch.setattr(packing, "text_of", lambda name: 'import { later } from "./page.js";\n')
    with pytest.raises(packing.Missing, match="no module before it has that"):
        packing.joined()


def test_a_module_for_another_processor_is_retargeted_or_refused() -> None:
    text = 'target datalayout = "e"\ntarget triple = "x86_64-unknown-linux-gnu"\nattributes #0 = { "target-cpu"="x86-64" }\n'
    made = module.retargeted(text)
    assert 'target triple = "wasm64-unknown-unknown"' in made and '"target-cpu"="lime1"' in made and "x86" not in made
    with pytest.raises(module.Missing, match="llvm.x86.sse2"):
        module.retargeted("call void @llvm.x86.sse2.pause()\n")


def numbers(text: str) -> list[int]:
    return sorted(int(it) for it in re.findall(r"\d+", text))


def remarks() -> list[str]:
    """The rules whose advice asks for nothing."""
    return re.findall(r"number: (\d+),[^{}]*advice: \"None is needed", loading.text_of("crates/findings/src/rule.rt"))


def test_trouble_ranks_findings_as_the_page_does() -> None:
    ranks = dict(re.findall(r"(LEADING|FOLLOWING) = \[([\d, ]+)\]", packing.text_of("causes.js")))
    page = " ".join(loading.text_of("docs/TROUBLE.md").split())
    told = re.search(r"Rules ([^.]*) explain others\. Those of ([^.]*) often follow[^.]*\. (.*?) are harmless:", page)
    assert told
    for text, rules in zip(told.groups(), (ranks["LEADING"], ranks["FOLLOWING"], " ".join(remarks()))):
        assert numbers(text) == numbers(rules), text


def test_trouble_says_of_each_rule_which_end_has_to_change() -> None:
    of_ends = set(numbers(" ".join(re.findall(r"number: (\d+),", loading.text_of("crates/findings/src/rule.rt")))))
    of_ends -= {28, *map(int, remarks())}  # 28 is of the capture
    table = loading.text_of("docs/TROUBLE.md").split("**Which end has to change?**")[1].split("\n\n")[1]
    assert numbers(" ".join(re.findall(r"^\|(\d[^|]*)\|", table, re.M))) == sorted(of_ends)
