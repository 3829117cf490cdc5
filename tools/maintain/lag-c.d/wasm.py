"""Reads a module of WebAssembly: as far as clang and wasm-ld write one of the library, with memory of 64 bits and no floating point."""

from __future__ import annotations

from typing import Any, Iterator, NamedTuple

from repository import Missing

TYPES = {0x7E: "u64", 0x7F: "u32"}
# The sections by their numbers; the others hold nothing that C wants, or may not be there.
CUSTOM, TYPE, IMPORT, FUNCTION, EXPORT, CODE, DATA, COUNT = 0, 1, 2, 3, 7, 10, 11, 12


class Signature(NamedTuple):
    """The types of what a function takes, and of what it answers."""

    given: list[str]
    told: list[str]


class Imported(NamedTuple):
    """A function that the module has not in it."""

    name: str
    kind: Signature


class Function(NamedTuple):
    """A function: its signature, the types of its locals without its parameters, and its instructions."""

    kind: Signature
    locals: list[str]
    body: bytes


class Instruction(NamedTuple):
    """An instruction: its number, those behind 0xFC from 0x100 on, and its operands."""

    code: int
    words: tuple[Any, ...]


class Reader:
    """Octets that are read from front to end."""

    def __init__(self, octets: bytes) -> None:
        self.octets, self.at = octets, 0

    def octet(self) -> int:
        self.at += 1
        return self.octets[self.at - 1]

    def take(self, count: int) -> bytes:
        self.at += count
        return self.octets[self.at - count : self.at]

    def number(self) -> int:
        """An unsigned number, seven bits an octet."""
        value = shift = 0
        while True:
            octet = self.octet()
            value |= (octet & 127) << shift
            shift += 7
            if octet < 128:
                return value

    def signed(self) -> int:
        """The same, of two's complement."""
        began = self.at
        value = self.number()
        bits = 7 * (self.at - began)
        return value - (1 << bits) if value >> (bits - 1) else value

    def text(self) -> str:
        return self.take(self.number()).decode()

    def types(self) -> list[str]:
        return [self.type() for _ in range(self.number())]

    def type(self) -> str:
        code = self.octet()
        if code not in TYPES:
            raise Missing(f"the module has values of type {code:#x}, not of 32 or 64 bits")
        return TYPES[code]


def offset_of(reader: Reader) -> int:
    """Where a segment of data stands, behind the place that the module's data has: an expression of it and numbers."""
    value = 0
    while True:
        code = reader.octet()
        if code == 0x0B:
            return value
        if code == 0x42:
            value += reader.signed()
        elif code == 0x23:
            reader.number()
        elif code != 0x7C:
            raise Missing(f"a segment of data stands at an expression with {code:#x}")


class Module:
    """A module: what it imports and exports, its functions by their numbers, and its data."""

    def __init__(self, octets: bytes) -> None:
        if octets[:8] != b"\0asm\1\0\0\0":
            raise Missing("this is no module of WebAssembly")
        self.kinds: list[Signature] = []
        self.functions: list[Imported | Function] = []
        self.globals: list[str] = []
        self.exports: dict[str, int] = {}
        self.data = bytearray()
        self.size = 0
        self.declared: list[int] = []
        whole = Reader(octets[8:])
        while whole.at < len(whole.octets):
            number, length = whole.octet(), whole.number()
            self.section(number, Reader(whole.take(length)))
        self.data += bytes(self.size - len(self.data))

    def section(self, number: int, it: Reader) -> None:
        if number == CUSTOM:
            self.custom(it)
        elif number == TYPE:
            for _ in range(it.number()):
                if it.octet() != 0x60:
                    raise Missing("the module has types that are no functions")
                self.kinds.append(Signature(it.types(), it.types()))
        elif number == IMPORT:
            for _ in range(it.number()):
                self.imported(it)
        elif number == FUNCTION:
            self.declared = [it.number() for _ in range(it.number())]
        elif number == EXPORT:
            for _ in range(it.number()):
                name, kind, which = it.text(), it.octet(), it.number()
                if kind == 0:
                    self.exports[name] = which
        elif number == CODE:
            for kind in self.declared[: it.number()]:
                self.functions.append(self.function(self.kinds[kind], Reader(it.take(it.number()))))
        elif number == DATA:
            for _ in range(it.number()):
                self.segment(it)
        elif number != COUNT:
            raise Missing(f"the module has a section {number}, of which C is not made: tables, globals of its own or a start")

    def custom(self, it: Reader) -> None:
        """The size of the data."""
        name = it.text()
        while name == "dylink.0" and it.at < len(it.octets):
            part, length = it.octet(), it.number()
            inner = Reader(it.take(length))
            if part == 1:
                self.size = inner.number()

    def imported(self, it: Reader) -> None:
        _, name, kind = it.text(), it.text(), it.octet()
        if kind == 0:
            self.functions.append(Imported(name, self.kinds[it.number()]))
        elif kind == 2:
            flags = it.octet()
            if flags != 4:
                raise Missing("the memory of the module has not 64 bits")
            it.number()
        elif kind == 3:
            it.type()
            it.octet()
            self.globals.append(name)
        else:
            raise Missing(f"the module imports {name}, which is neither memory, number nor function")

    def function(self, kind: Signature, it: Reader) -> Function:
        found: list[str] = []
        for _ in range(it.number()):
            many = it.number()
            found += [it.type()] * many
        return Function(kind, found, it.octets[it.at :])

    def segment(self, it: Reader) -> None:
        if it.number() != 0:
            raise Missing("a segment of data has not its place in it")
        at = offset_of(it)
        found = it.take(it.number())
        self.data += bytes(max(0, at - len(self.data)))
        self.data[at : at + len(found)] = found


def block_type(it: Reader, module: Module) -> Signature:
    code = it.octets[it.at]
    if code == 0x40 or code in TYPES:
        it.at += 1
        return Signature([], [] if code == 0x40 else [TYPES[code]])
    return module.kinds[it.signed()]


def words_of(code: int, it: Reader, module: Module) -> tuple[Any, ...]:
    """The operands of an instruction."""
    if code in (0x02, 0x03, 0x04):
        return (block_type(it, module),)
    if code in (0x0C, 0x0D, 0x10) or 0x20 <= code <= 0x24:
        return (it.number(),)
    if code == 0x0E:
        return (tuple(it.number() for _ in range(it.number() + 1)),)
    if 0x28 <= code <= 0x3E:
        return (it.number(), it.number())
    if code in (0x41, 0x42):
        return (it.signed(),)
    if code == 0x10A:
        return (it.octet(), it.octet())
    if code == 0x10B:
        return (it.octet(),)
    if code in (0x00, 0x01, 0x05, 0x0B, 0x0F, 0x1A, 0x1B) or 0x45 <= code <= 0xC4:
        return ()
    raise Missing(f"the module has an instruction {code:#x}, of which C is not made")


def instructions(body: bytes, module: Module) -> Iterator[Instruction]:
    """The instructions of a function, in their order."""
    it = Reader(body)
    while it.at < len(body):
        code = it.octet()
        if code == 0xFC:
            code = 0x100 + it.number()
        yield Instruction(code, words_of(code, it, module))
