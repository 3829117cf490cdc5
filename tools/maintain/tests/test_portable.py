"""tools/maintain/portable calls each function of lag.h, and wants values for each of its parameters."""

from __future__ import annotations

import re
from typing import Any

import pytest

import loading
from library import exports
from repository import Missing

sources: Any = loading.module("interface.d", "sources")
writing: Any = loading.module("portable.d", "writing")


def test_each_function_of_the_header_is_called() -> None:
    structs = sources.known_structs()
    text = writing.header(structs, sources.exports(sources.text_of_lagffi(), structs))
    assert sorted(set(re.findall(r"\bniw_(\w+)\(", text)) - {it for it in re.findall(r"mix_niw_(\w+)", text)}) == [it.removeprefix("lagffi_") for it in exports()]
    assert all(f"mix_{it}(" in text for it in structs.all if it not in ("niw_config", "niw_port", "niw_change", "niw_carried", "niw_saved"))


def test_a_parameter_without_values_is_refused() -> None:
    structs = sources.known_structs()
    strange = writing.Export("strange", [], [], "uint32_t", [writing.Field("uint16_t", "colour")])
    with pytest.raises(Missing, match="no values for the parameter colour of lagffi_strange"):
        writing.header(structs, [strange])


def test_a_build_by_cargo_is_compared_without_sizes() -> None:
    program = loading.program("portable")
    kept = "20000 calls, 9120 frames, cb8ee08436e4b32b"
    told = [f"{kept}, without sizes 0123456789abcdef", "20000 calls, 9120 frames, ffffffffffffffff, without sizes 0123456789abcdef"]
    wanted = [program.with_second(kept, told)]
    assert wanted == told[:1]
    assert program.with_second(kept, told[1:]) == kept
    of_c, of_cargo = program.Build("gcc", ["cc"]), program.Build("cargo", ["cc"], sizes=False)
    assert of_c.prints([""], wanted) == told[:1] != told[1:]
    assert of_cargo.prints([""], wanted) == [of_cargo.told(told[1])]
    assert of_cargo.prints([""], wanted) != [of_cargo.told(told[1].replace("0123", "0124"))]
