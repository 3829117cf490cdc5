"""Writes calls.h: of the interface of the C library, a function that mixes each struct into the hash, and a random call of each function."""

from __future__ import annotations

import re

from repository import Missing
from sources import Export, Field, Structs

# What changes much is called seldom, and what a host calls most, more often than the rest: one call in so many, and so many calls.
SELDOM = {"new": 3, "free": 60, "restart": 60, "set_link": 12, "hold": 12, "set_mode": 20, "configure": 30, "set_max_links": 20,
          "set_in_use": 20, "ticks": 8,
          "queue_free": 8, "force_port": 8}
OFTEN = {"tick": 6, "receive": 10, "offer": 3, "offer_conversation": 6, "move_conversation": 3, "queue_put": 6}
# What asks for memory.
ALLOCATE = ("new", "resume", "queue_new")
# Parameters that are scalars, by their names.
SCALARS = {
    "port": "port_of()", "agg": "agg_of()", "conv": "conv_of()", "now": "agg_of()", "up": "!seldom(4)", "hold": "seldom(3)", "active": "!seldom(3)",
    "short_timeout": "!seldom(3)", "max_delay": "(uint16_t)any(65536)", "max_links": "(uint16_t)(seldom(3) ? any(70) : 0)", "in_use": "!seldom(3)", "what": "any(8)",
    "count": "seldom(60) ? 65536 + any(9) : any(seldom(40) ? 400 : 12)", "conversations": "(uint16_t)(seldom(4) ? any(5000) : 256)",
    "in_all": "any(60)", "each": "any(20)", "actor_state": "(uint8_t)any(256)", "partner_state": "(uint8_t)any(256)",
    "frame": "(uint64_t)any(1u << 31) << 20",
}
# Lists: what stands there, how many elements there are, and how they are mixed, if the function may write them.
LISTS = {
    "keys": ("keys_of_config", "count_of()", ""), "ports": ("ports_of_config", "count_of()", ""), "saved": ("to_resume", "seldom(6) ? any(MANY) : any(4)", ""),
    "carried": ("carried_list", "any(300)", ""), "numbers": ("number_list", "length_of(64)", "mix_numbers"), "views": ("view_list", "length_of(64)", "mix_views"),
    "changed": ("flags[0]", "length_of(256)", "mix_flags"), "busy": ("flags[0]", "length_of(256)", "mix_flags"), "freed": ("flags[1]", "length_of(256)", "mix_flags"),
    "response": ("octets[1]", "length_of(124)", "mix_octets"),
}
# Single values by the types that the pointers have.
SINGLE = {"niw_system": "system_of()", "niw_queue": "queue_of()", "niw_pdu": "pdu_of()", "niw_churn": "seldom(64) ? NULL : &churns[any(2)]",
          "niw_counters": "seldom(64) ? NULL : &counted[any(2)]"}


def mixing(structs: Structs, name: str) -> str:
    """The function that mixes a struct, field by field; of a handle whether it holds something."""
    rows = []
    for kind, field, many in structs.all[name]:
        if kind == "void *":
            continue
        if many:
            rows.append(f"    mix_octets(it->{field}, {many});")
        else:
            rows.append(f"    mix_{kind[7:]}(&it->{field});" if kind.startswith("struct ") else f"    mix(it->{field});")
    return "\n".join([f"static void mix_{name}(const struct {name} *it) {{", *rows, "}\n"])


def parameter(it: Field, count: Field | None, name: str) -> tuple[list[str], list[str], list[str]]:
    """What declares an argument, what it is called by, and what mixes it behind the call."""
    to = it.kind.removeprefix("const ").removesuffix("*").strip().removeprefix("struct ")
    if "*" not in it.kind:
        if it.name not in SCALARS:
            raise Missing(f"portable.d/writing.py has no values for the parameter {it.name} of lagffi_{name}")
        return [f"{it.kind} {it.name} = {SCALARS[it.name]};"], [it.name], []
    if to in SINGLE:
        mixes = [] if it.kind.startswith("const") else [f"if ({it.name}) mix_{to}({it.name});"]
        value = "empty_of()" if name in ("new", "resume") else SINGLE[to]
        return [f"{it.kind} {it.name} = {value};"], [it.name], mixes
    if to == "niw_config":
        return ["struct niw_config config = config_of();"], ["seldom(64) ? NULL : &config"], []
    if to == "niw_change":
        change = "{(uint16_t)(seldom(6) ? 8 : 7), (uint16_t)(seldom(3) ? any(65536) : 128), !seldom(8)}"
        return [f"struct niw_change change = {change};"], ["seldom(64) ? NULL : &change"], []
    if not count:
        raise Missing(f"portable.d/writing.py has no value for the parameter {it.name} of lagffi_{name}")
    if to == "uint8_t" and it.name in ("frame", "payload"):
        if it.kind.startswith("const"):
            offset = 14 if it.name == "payload" else 0
            given = [f"const uint8_t *{it.name} = frame_of();", f"size_t {count.name} = length_of({124 - offset});"]
            return given, [f"{it.name} ? {it.name} + {offset} : NULL", count.name], []
        room = "length_of(110)" if it.name == "payload" else "length_of(124)"
        return [f"size_t {count.name} = {room};"], [f"seldom(64) ? NULL : octets[1]", count.name], ["mix_octets(octets[1], 124);"]
    place, many, mix = LISTS[it.name]
    if it.name == "ports" and to == "uint16_t":
        place, many, mix = "number_list", "length_of(256)", "" if it.kind.startswith("const") else "mix_numbers"
    if it.name == "ports" and name == "next_move":
        many = "seldom(4) ? any(300) : any(9)"
    number = f"{it.name}_{count.name}"
    return [f"size_t {number} = {many};"], [f"seldom(64) ? NULL : {place}", number], [f"{mix}({place}, {number});"] if mix else []


def declared_sizes(rows: list[str]) -> set[str]:
    """The sizes of lists that these declare."""
    return set(re.findall(r"^size_t (\w+) = ", "\n".join(rows), re.M))


def call(it: Export, structs: Structs) -> str:
    """The block that calls a function once."""
    declared: list[str] = []
    given: list[str] = []
    mixed: list[str] = []
    skip = False
    for place, field in enumerate(it.given):
        if skip:
            skip = False
            continue
        after = it.given[place + 1] if place + 1 < len(it.given) else None
        count = after if after and after.kind == "size_t" and "*" in field.kind else None
        first, words, last = parameter(field, count, it.name)
        skip = count is not None
        # The order in which arguments are computed is the compiler's.
        for number, word in enumerate(words):
            if "seldom" in word:
                kind = field.kind
                first.append(f"{kind} given_{field.name} = {word};")
                words[number] = f"given_{field.name}"
        declared, given, mixed = declared + first, given + words, mixed + last
    told = f"mix_{it.answer[7:]}(&told);" if it.answer.startswith("struct ") else "mix(told);"
    fills = {"new": ["fill_config();"], "resume": ["fill_config();", "fill_saved();"]}.get(it.name, [])
    fills += ["fill_lists();"] if any(field.name in ("ports", "carried", "changed", "busy") for field in it.given) and not fills else []
    once = [f"if (!seldom({SELDOM[it.name]})) break;"] if it.name in SELDOM else []
    lists = " && ".join(f"{name} <= 64" for name in given if name in declared_sizes(declared)) or "true"
    arms = ([f"refuse({lists});"], ["granted = -1;"]) if it.name in ALLOCATE else ([], [])
    rows = [*once, *fills, *declared, *arms[0], f"{it.answer} told = niw_{it.name}({', '.join(given)});", *arms[1], told, *mixed, "break;"]
    return "\n".join(f"        {row}" for row in rows)


def header(structs: Structs, exports: list[Export]) -> str:
    """The whole file."""
    order: list[str] = []

    def add(name: str) -> None:
        for field in structs.all[name]:
            if field.kind.startswith("struct "):
                add(field.kind[7:])
        if name not in order:
            order.append(name)

    for name in structs.all:
        if name not in ("niw_config", "niw_port", "niw_change", "niw_carried", "niw_saved"):
            add(name)
    parts = [mixing(structs, name) for name in order]
    parts.append("static void mix_views(const struct niw_view *from, size_t count) {\n    for (size_t at = 0; at < count; at++) mix_niw_view(&from[at]);\n}\n")
    cases: list[str] = []
    for it in exports:
        labels = " ".join(f"case {len(cases) + at}:" for at in range(OFTEN.get(it.name, 1)))
        block = f"    {labels} {{\n{call(it, structs)}\n    }}"
        cases += [block, *[""] * (OFTEN.get(it.name, 1) - 1)]
    parts.append(f"enum {{ CALLS = {len(cases)} }};\n")
    parts.append("static void one_call(uint32_t which) {\n    switch (which) {\n" + "\n".join(filter(None, cases)) + "\n    }\n}\n")
    return "\n".join(parts)
