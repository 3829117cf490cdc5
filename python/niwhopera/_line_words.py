"""The words of a line: each is read by a reader of its kind, which is told its place in the line, from 1."""

from __future__ import annotations

import binascii
import re
from typing import Optional

from .values import Mac

_DIGITS = re.compile(r"[0-9]+")
_ADDRESS = re.compile(r"[0-9a-fA-F]{12}")


class Fault(Exception):
    """Why a line is no request: a cause, and the place of the word that is at fault, if it is one word."""

    def __init__(self, cause: str, place: Optional[int] = None) -> None:
        super().__init__(cause if place is None else f"{cause} at word {place}")


def _number(place: int, word: str, least: int, most: int) -> int:
    digits = word.lstrip("0") or "0"
    if not _DIGITS.fullmatch(word) or len(digits) > 10 or not least <= int(digits) <= most:
        raise Fault("number", place)
    return int(digits)


def number(place: int, word: str) -> int:
    """A number from 0 to 65535, in decimal digits."""
    return _number(place, word, 0, 0xFFFF)


def long_number(place: int, word: str) -> int:
    """A number from 0 to 4294967295, in decimal digits."""
    return _number(place, word, 0, 0xFFFFFFFF)


def ticks(place: int, word: str) -> int:
    """A number of ticks, 1 to 65535."""
    return _number(place, word, 1, 0xFFFF)


def numbers(place: int, word: str) -> list[int]:
    """Numbers from 0 to 65535, joined by commas, or a dash for none."""
    return [] if word == "-" else [number(place, it) for it in word.split(",")]


def mac(place: int, word: str) -> Mac:
    """A MAC address of twelve hexadecimal digits."""
    if not _ADDRESS.fullmatch(word):
        raise Fault("mac", place)
    return Mac(word)


def hexadecimal(place: int, word: str) -> bytes:
    """Octets in hexadecimal digits."""
    try:
        return binascii.unhexlify(word)
    except ValueError:
        raise Fault("hex", place) from None


def _one_of(place: int, word: str, cause: str, true: str, false: str) -> bool:
    if word not in (true, false):
        raise Fault(cause, place)
    return word == true


def flag(place: int, word: str) -> bool:
    """`1` for true, `0` for false."""
    return _one_of(place, word, "flag", "1", "0")


def link(place: int, word: str) -> bool:
    """Whether a link is up: `up` or `down`."""
    return _one_of(place, word, "link", "up", "down")


def kind(place: int, word: str) -> bool:
    """Whether a port is `aggregatable` or `individual`."""
    return _one_of(place, word, "kind", "aggregatable", "individual")
