"""Loads tools for their tests: a program without its last line, which runs it, and a module by its path."""

from __future__ import annotations

import ast
import importlib.util
import os
import sys
from types import ModuleType

MAINTAIN = os.path.dirname(os.path.dirname(os.path.abspath(__file__)))
TOOLS = os.path.dirname(MAINTAIN)
sys.path[:0] = [MAINTAIN, TOOLS]


def text_of(path: str) -> str:
    """A text of the repository."""
    with open(os.path.join(os.path.dirname(TOOLS), path), encoding="utf-8") as it:
        return it.read()


def place_of(name: str) -> str:
    """A file or folder of tools/maintain/, or where it has none of this name, of tools/."""
    path = os.path.join(MAINTAIN, name)
    return path if os.path.exists(path) else os.path.join(TOOLS, name)


def program(name: str) -> ModuleType:
    """A program, without its last line."""
    path = place_of(name)
    with open(path, encoding="utf-8") as it:
        tree = ast.parse(it.read(), path)
    tree.body.pop()
    made = ModuleType(name.replace("-", "_"))
    made.__file__ = path
    # dataclasses looks the module of a class up in sys.modules.
    sys.modules[made.__name__] = made
    exec(compile(tree, path, "exec"), made.__dict__)
    return made


def module(folder: str, name: str) -> ModuleType:
    """A module of a folder. Two folders may have modules of one name, so none is kept under it."""
    place = os.path.dirname(place_of(os.path.join(folder, f"{name}.py")))
    if place not in sys.path:
        sys.path.append(place)
    spec = importlib.util.spec_from_file_location(f"{folder.replace('.', '_')}_{name}", os.path.join(place, f"{name}.py"))
    assert spec and spec.loader
    made = importlib.util.module_from_spec(spec)
    sys.modules[spec.name] = made
    spec.loader.exec_module(made)
    return made
