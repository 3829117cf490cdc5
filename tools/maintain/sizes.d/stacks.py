"""The stack of functions, by the graph of calls that gcc writes with -fcallgraph-info=su."""

from __future__ import annotations

import re

from repository import Missing


def deepest(graph: str, names: list[str]) -> int:
    """The stack of the deepest chain of calls from these functions, by the graph that gcc writes."""
    sizes = {name: int(octets) for name, octets in re.findall(r'node: \{ title: "([^"]+)"[^}]*?\\n(\d+) bytes', graph)}
    calls: dict[str, list[str]] = {}
    for source, target in re.findall(r'edge: \{ sourcename: "([^"]+)" targetname: "([^"]+)"', graph):
        calls.setdefault(source, []).append(target)
    found: dict[str, int] = {}

    def of(name: str, above: tuple[str, ...]) -> int:
        if name in above:
            raise Missing(f"{name} calls itself")
        if name not in found:
            found[name] = sizes.get(name, 0) + max((of(it, (*above, name)) for it in calls.get(name, [])), default=0)
        return found[name]

    return max(of(next((it for it in sizes if it.split(":")[-1] == name), name), ()) for name in names)
