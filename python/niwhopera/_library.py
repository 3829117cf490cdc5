"""The C library, which is loaded when the first system is made."""

from __future__ import annotations

import ctypes
import functools
import os

from ._numbers import VERSION_TEXT, Functions

# The name by which the dynamic linker finds the library; the variable NIWHOPERA_LIBRARY names another file.
SONAME = "liblag.so.0"
# What the libraries of c/lag.c and by cargo show, and the native one does not.
MARKS = "niw_lag_c", "niw_lag_rust"


def _name() -> str:
    """The library to load: the one that is named, or in a clone that which make built there, or the one that the system has."""
    top = os.path.dirname(os.path.dirname(os.path.dirname(os.path.abspath(__file__))))
    built = os.path.join(top, "out", "lib", SONAME)
    in_clone = os.path.exists(os.path.join(top, "crates", "lagffi", "include", "lag.h")) and os.path.exists(built)
    return os.environ.get("NIWHOPERA_LIBRARY") or (built if in_clone else SONAME)


@functools.lru_cache(maxsize=None)
def _loaded() -> ctypes.CDLL:
    try:
        return ctypes.CDLL(_name())
    except OSError as why:
        raise ImportError(f"{why}: the package liblag0 has it, `make library` builds it in a clone, and NIWHOPERA_LIBRARY may name another file") from None


@functools.lru_cache(maxsize=None)
def functions() -> Functions:
    """The functions of the library; ImportError where it is not found, or is older than this module."""
    try:
        return Functions(_loaded())
    except AttributeError as why:
        raise ImportError(f"{_name()} is older than this module: {why}") from None


def library_text() -> str:
    """Which library runs: the native one, that of c/lag.c or that by cargo; or why none does."""
    try:
        library = _loaded()
    except ImportError as why:
        return f"without liblag: {why}"
    mark = next((it for it in MARKS if hasattr(library, it)), None)
    if mark is None:
        return f"with native liblag, {_name()}, for lag.h of {VERSION_TEXT}"
    text = ctypes.string_at(ctypes.addressof(ctypes.c_char.in_dll(library, mark))).decode()
    return f"with liblag of {text.partition(' ')[0]}, {_name()}, {text.partition(' ')[2]}"
