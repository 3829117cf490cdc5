"""What a system and held frames have in common: a handle of the C library, which is closed by the thread that made it."""

from __future__ import annotations

import ctypes
import threading
import warnings
from types import TracebackType
from typing import Any, NoReturn, Optional, Type, TypeVar, Union

from ._library import functions
from ._numbers import NiwQueue, NiwSystem
from .errors import check

_Self = TypeVar("_Self", bound="Handle")


class Handle:
    """A handle of the C library. Only the thread that made it calls it."""

    def __init__(self, handle: Union[NiwSystem, NiwQueue]) -> None:
        self._handle = handle
        self._thread = threading.get_ident()
        self._c = functions()

    def close(self) -> None:
        """Gives its memory back. Of one that is closed this does nothing."""
        if self._handle.live:
            check(self._free())

    @property
    def closed(self) -> bool:
        """Whether it was closed."""
        return not self._handle.live

    def __enter__(self: _Self) -> _Self:
        return self

    def __exit__(self, kind: Optional[Type[BaseException]], why: Optional[BaseException], trace: Optional[TracebackType]) -> None:
        self.close()

    def __del__(self) -> None:
        handle = getattr(self, "_handle", None)
        if handle is None or not handle.live:
            return
        warnings.warn(f"a {type(self).__name__} was not closed", ResourceWarning, source=self)
        if threading.get_ident() == self._thread:
            self.close()

    def __reduce__(self) -> NoReturn:
        raise TypeError(f"{type(self).__name__} is not copied")

    def _at(self) -> Any:
        """The handle, by reference; RuntimeError in another thread than the one that made it."""
        if threading.get_ident() != self._thread:
            raise RuntimeError(f"only the thread that made a {type(self).__name__} calls it")
        return ctypes.byref(self._handle)

    def _free(self) -> int:
        """Frees what stands behind the handle; answers the status."""
        raise NotImplementedError
