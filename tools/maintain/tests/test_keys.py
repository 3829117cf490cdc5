"""The keys of lagd's files and its options: an option is looked up by its letter, a key by its name, and the first row that has it is taken."""

from __future__ import annotations

import re

import loading

parts = loading.module("", "page_parts")


def table(file: str, name: str) -> str:
    """The rows of a table in C."""
    found = re.search(rf"\b{name}\[\] = \{{\n(.*?)\n\}};", loading.text_of(f"lagd/{file}"), re.S)
    assert found, name
    return found[1]


def test_letters_and_names_of_options_and_keys_stand_once() -> None:
    bundle = re.findall(r"^    \{\"([\w-]+)\", (?:'(\w)'|0), ", table("settings.c", "BUNDLE_KEYS"), re.M)
    others = re.findall(r"^    \{'(\w)', \"([\w-]+)\"", table("options.c", "OPTIONS"), re.M)
    ports = re.findall(r"^    \{\"([\w-]+)\"", table("settings.c", "PORT_KEYS"), re.M)
    assert len(bundle) > 25 and len(others) == 14 and len(ports) == 6
    for words in [letter for _, letter in bundle if letter] + [letter for letter, _ in others], [name for name, _ in bundle] + [name for _, name in others], ports:
        assert sorted(words) == sorted(set(words))


def test_the_page_has_each_key_and_whether_a_reload_changes_it() -> None:
    rows = re.findall(r"^    \{\"([\w-]+)\", (.*?)\},$", table("settings.c", "BUNDLE_KEYS"), re.M | re.S)
    found = parts.keys()
    assert [it.name for it in found] == [name for name, _ in rows] and {it.name for it in found if it.is_reloaded} == {name for name, row in rows if ".restart" not in row}
    usual = {it.name: it.usual for it in found}
    wanted = {"key": "needed", "port-priority": "32768", "timeout": "short", "min-links": "1", "select": "count", "revert": "no", "flight": "500", "carry": ""}
    assert {it: usual[it] for it in wanted} == wanted
    assert {it.name: it.values for it in found}["hash"] == "layer2, layer2+3, layer3+4, encap3+4, vlan+srcmac"
