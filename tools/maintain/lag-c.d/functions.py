"""Writes the functions of a module of WebAssembly as functions of C: an instruction gives an expression or a statement, and its addresses are
those of the program.

What an instruction reads is kept as an expression as long as no later one may change it: a store or a call what is read from memory, an
assignment what is read from its variable. The stack of the module's own is no part of C: what a function takes of it is an array of that function.
"""

from __future__ import annotations

import re
from typing import NamedTuple

from repository import Missing
from wasm import Function, Imported, Instruction, Module, Signature, instructions

BLOCK, LOOP, IF, ELSE, END, BR, BR_IF, BR_TABLE, RETURN, CALL = 0x02, 0x03, 0x04, 0x05, 0x0B, 0x0C, 0x0D, 0x0E, 0x0F, 0x10
DROP, SELECT, GET, SET, TEE, GLOBAL_GET, GLOBAL_SET = 0x1A, 0x1B, 0x20, 0x21, 0x22, 0x23, 0x24
CONST32, CONST64, ADD64, SUB64, COPY, FILL = 0x41, 0x42, 0x7C, 0x7D, 0x10A, 0x10B
# Comparisons, by their places behind `eqz`; those of signed numbers cast first.
COMPARED = ("==", "!=", "<s", "<", ">s", ">", "<=s", "<=", ">=s", ">=")
# What has two operands, by its place behind `popcnt`; the rest are functions.
COUNTED = ("clz", "ctz", "popcnt")
COMPUTED = ("+", "-", "*", "/s", "/", "%s", "%", "&", "|", "^", "<<", ">>s", ">>", "rotl", "rotr")
# Loads and stores: the type of the value, the bits in memory, and whether a sign goes on.
LOADS = {0x28: ("u32", 32, False), 0x29: ("u64", 64, False), 0x2C: ("u32", 8, True), 0x2D: ("u32", 8, False), 0x2E: ("u32", 16, True),
         0x2F: ("u32", 16, False), 0x30: ("u64", 8, True), 0x31: ("u64", 8, False), 0x32: ("u64", 16, True), 0x33: ("u64", 16, False),
         0x34: ("u64", 32, True), 0x35: ("u64", 32, False)}
STORES = {0x36: ("u32", 32), 0x37: ("u64", 64), 0x3A: ("u32", 8), 0x3B: ("u32", 16), 0x3C: ("u64", 8), 0x3D: ("u64", 16), 0x3E: ("u64", 32)}
EXTENDED = {0xC0: ("u32", 8), 0xC1: ("u32", 16), 0xC2: ("u64", 8), 0xC3: ("u64", 16), 0xC4: ("u64", 32)}
# No function has so large an array.
MOST_OF_ARRAY = 1 << 20
# What the library asks of the program that it is in.
FROM_OUTSIDE = ("rattle_alloc", "rattle_realloc", "rattle_dealloc")


class Value(NamedTuple):
    """An expression: its text, its type, whether it has operators, which variables it reads, whether it reads memory, whether it is a
    condition, an int of 0 or 1, its number if it is a constant, and its place in the function's array if it is the address of one."""

    text: str
    kind: str
    has_operators: bool = False
    reads: frozenset[int] = frozenset()
    is_loaded: bool = False
    is_condition: bool = False
    number: int | None = None
    place: int | None = None

    @property
    def plain(self) -> str:
        """The expression as a number of its type."""
        return f"(u32)({self.text})" if self.is_condition else self.text

    @property
    def operand(self) -> str:
        """The same, as the operand of an operator."""
        return f"({self.text})" if self.has_operators and not self.is_condition else self.plain


class Block(NamedTuple):
    """A block that is open: what it began with, its number, what it leaves, the variables for that, how high the stack was, and where it began."""

    code: int
    number: int
    kind: Signature
    results: list[str]
    height: int
    line: int


def of_number(value: int, kind: str) -> Value:
    value &= (1 << int(kind[1:])) - 1
    text = f"{value}u" if value < 1 << 16 else f"{value:#x}u" if value < 1 << 32 else f"{value:#x}u" + "ll"
    return Value(text, kind, number=value)


def of_place(place: int) -> Value:
    """The address of a place in the function's array."""
    return Value(f"AT({in_array(place)})", "u64", place=place)


def in_array(place: int) -> str:
    return f"frame + {place}" if place else "frame"


def pointer(it: Value) -> str:
    """An address as a pointer: the array is named, so that a compiler sees what may change it."""
    return in_array(it.place) if it.place is not None else f"P({it.plain})"


def accessed(word: str, bits: int, it: Value) -> tuple[str, str]:
    """The function that loads or stores at an address, and what it is given."""
    return (f"{word}{bits}_in", in_array(it.place)) if it.place is not None else (f"{word}{bits}", it.plain)


def signed(it: Value) -> str:
    return f"(s{it.kind[1:]}){it.operand}"


def of_both(text: str, kind: str, *parts: Value, is_condition: bool = False) -> Value:
    """An expression that has these in it."""
    reads = frozenset[int]().union(*(it.reads for it in parts))
    return Value(text, kind, True, reads, any(it.is_loaded for it in parts), is_condition)


def called(text: str, kind: str, *parts: Value) -> Value:
    """The same, where no operator stands outside of brackets."""
    return of_both(text, kind, *parts)._replace(has_operators=False)


def cast(text: str, kind: str, *parts: Value) -> Value:
    return called(f"({kind}){text}", kind, *parts)


def computed(word: str, left: Value, right: Value) -> Value:
    """What an operator of two numbers gives."""
    kind, bits = left.kind, int(left.kind[1:])
    if word == "+" and left.place is not None and right.number is not None and right.number < MOST_OF_ARRAY:
        return of_place(left.place + right.number)
    if word.startswith("rot"):
        return called(f"{word}{bits}({left.plain}, {right.plain})", kind, left, right)
    if word.endswith("s"):
        count = signed(right) if word != ">>s" else counted(right, bits)
        return cast(f"({signed(left)} {word[:-1]} {count})", kind, left, right)
    if word == "+" and right.number is not None and right.number >> (bits - 1):
        word, right = "-", of_number(-right.number, kind)
    before = f"({kind}){left.operand}" if left.number is not None else left.operand
    if word in ("<<", ">>"):
        return of_both(f"{before} {word} {counted(right, bits)}", kind, left, right)
    return of_both(f"{before} {word} {right.operand}", kind, left, right)


def counted(count: Value, bits: int) -> str:
    """By how many bits is shifted."""
    return count.operand if count.number is not None and count.number < bits else f"({count.operand} & {bits - 1}u)"


def compared(word: str, left: Value, right: Value) -> Value:
    if word.endswith("s"):
        return of_both(f"{signed(left)} {word[:-1]} {signed(right)}", "u32", left, right, is_condition=True)
    return of_both(f"{left.operand} {word} {right.operand}", "u32", left, right, is_condition=True)


def is_zero(it: Value) -> Value:
    return of_both(f"!({it.text})" if it.has_operators else f"!{it.plain}", "u32", it, is_condition=True)


def loaded(code: int, hint: int, offset: int, at: Value) -> Value:
    kind, bits, has_sign = LOADS[code]
    place = computed("+", at, of_number(offset, "u64")) if offset else at
    name, given = accessed("ld" if 1 << hint >= bits // 8 else "ud", bits, place)
    text = f"{name}({given})"
    if has_sign:
        text = f"({kind})(s{kind[1:]})(s{bits}){text}"
    elif kind == "u64" and bits < 64:
        text = f"(u64){text}"
    return called(text, kind, place)._replace(is_loaded=True)


def without_stack(name: str, found: list[Instruction]) -> tuple[int, list[Instruction]]:
    """The octets that a function takes of the module's own stack, and its instructions without those that say so. What is left of the stack
    is a pseudo instruction: the place of the function's array."""
    kept: list[Instruction] = []
    size, at = 0, 0
    codes = [it.code for it in found]
    while at < len(found):
        one = found[at]
        if one.code == GLOBAL_GET and one.words[0] == 0:
            if size or codes[at + 1 : at + 3] != [CONST64, SUB64] or codes[at + 3] not in (SET, TEE):
                raise Missing(f"{name} takes its stack in a way that is not known")
            size = found[at + 1].words[0]
            kept += [Instruction(GLOBAL_GET, (0,)), Instruction(SET, found[at + 3].words)]
            at += 4
            if codes[at - 1] == TEE and codes[at] == GLOBAL_SET:
                at += 1
            elif codes[at - 1] == TEE:
                kept[-1] = found[at - 1]
        elif codes[at : at + 4] == [GET, CONST64, ADD64, GLOBAL_SET] and found[at + 1].words[0] == size and found[at + 3].words[0] == 0:
            at += 4
        elif one.code == GLOBAL_SET:
            raise Missing(f"{name} gives its stack back in a way that is not known")
        else:
            kept.append(one)
            at += 1
    return size, kept


class Writer:
    """The text of a function, as far as it is written."""

    def __init__(self, module: Module, number: int, function: Function) -> None:
        self.module, self.function, self.name = module, function, name_of(module, number)
        self.size, self.found = without_stack(self.name, list(instructions(function.body, module)))
        self.kinds = [*function.kind.given, *function.locals]
        self.stack: list[Value] = []
        self.blocks = [Block(BLOCK, 0, Signature([], function.kind.told), [], 0, 0)]
        self.lines: list[str] = []
        self.declared: list[tuple[str, str]] = []
        self.used: set[int] = set()
        self.array = self.array_only()
        self.labels = self.depth = self.at = 0

    def array_only(self) -> int:
        """The variable that is the address of the function's array, and nothing else; -1 if there is none."""
        named = [self.found[at + 1].words[0] for at, it in enumerate(self.found[:-1])
                 if it.code == GLOBAL_GET and self.module.globals[it.words[0]] == "__stack_pointer" and self.found[at + 1].code in (SET, TEE)]
        written = [it.words[0] for it in self.found if it.code in (SET, TEE)]
        return named[0] if len(named) == 1 and written.count(named[0]) == 1 else -1

    def say(self, line: str) -> None:
        self.lines.append("\t" * (self.depth + 1) + line)

    def pop(self) -> Value:
        return self.stack.pop()

    def variable(self, kind: str) -> str:
        name = f"t{len(self.declared)}"
        self.declared.append((kind, name))
        return name

    def settle(self, *, memory: bool = False, variable: int = -1, all_of: bool = False) -> None:
        """Computes what is on the stack, and would change."""
        for place, it in enumerate(self.stack):
            if it.number is None and it.place is None and (all_of or memory and it.is_loaded or variable in it.reads) and not re.fullmatch(r"t\d+", it.text):
                name = self.variable(it.kind)
                self.say(f"{name} = {it.plain};")
                self.stack[place] = Value(name, it.kind)

    def assign(self, which: int, text: str) -> None:
        self.settle(variable=which)
        if which == self.array:
            return
        if text != f"l{which}":
            self.say(f"l{which} = {text};")

    def local(self, which: int) -> Value:
        if which == self.array:
            return of_place(0)
        return Value(f"l{which}", self.kinds[which], reads=frozenset({which}))

    def leave(self, depth: int) -> str:
        """The statement that goes to the end of a block, or to the start of a loop; what the block leaves is on the stack."""
        block = self.blocks[-1 - depth]
        if len(self.blocks) - 1 == depth:
            return f"return{' ' + self.stack[-1].plain if block.kind.told else ''};"
        self.used.add(block.number)
        told = [] if block.code == LOOP else [f"{name} = {it.plain};" for name, it in zip(block.results, self.stack[len(self.stack) - len(block.results) :])]
        return " ".join([*told, f"goto L{block.number};"])

    def open(self, code: int, kind: Signature) -> None:
        if kind.given or (code == LOOP and kind.told):
            raise Missing(f"{self.name} has a block that takes values, or a loop that leaves some")
        condition = self.pop().text if code == IF else ""
        self.settle(all_of=True)
        self.labels += 1
        self.blocks.append(Block(code, self.labels, kind, [self.variable(it) for it in kind.told], len(self.stack), len(self.lines)))
        if code == IF:
            self.say(f"if ({condition}) {{")
            self.depth += 1

    def results(self, block: Block) -> None:
        for name, it in zip(block.results, self.stack[block.height :]):
            self.say(f"{name} = {it.plain};")

    def otherwise(self, is_reached: bool) -> None:
        block = self.blocks[-1]
        if is_reached:
            self.results(block)
        del self.stack[block.height :]
        self.depth -= 1
        self.say("} else {")
        self.depth += 1

    def close(self, is_reached: bool) -> None:
        block = self.blocks.pop()
        if not self.blocks:
            if is_reached and self.stack:
                self.say(f"return {self.stack[-1].plain};")
            return
        if is_reached:
            self.results(block)
        del self.stack[block.height :]
        if block.code == IF:
            self.depth -= 1
            self.say("}")
        if block.number in self.used:
            label = f"L{block.number}:;"
            self.lines.insert(block.line, label) if block.code == LOOP else self.lines.append(label)
        self.stack += [Value(name, kind) for name, kind in zip(block.results, block.kind.told)]

    def call(self, which: int) -> None:
        kind = self.module.functions[which].kind
        count = len(kind.given)
        given = self.stack[len(self.stack) - count :]
        del self.stack[len(self.stack) - count :]
        self.settle(memory=True)
        text = f"{name_of(self.module, which)}({', '.join(it.plain for it in given)})"
        if not kind.told:
            self.say(f"{text};")
        elif self.found[self.at + 1].code in (SET, TEE):
            self.at += 1
            after = self.found[self.at]
            self.assign(after.words[0], text)
            if after.code == TEE:
                self.stack.append(self.local(after.words[0]))
        else:
            name = self.variable(kind.told[0])
            self.say(f"{name} = {text};")
            self.stack.append(Value(name, kind.told[0]))

    def table(self, places: tuple[int, ...]) -> None:
        on = self.pop()
        self.say(f"switch ({on.plain}) {{")
        ways: dict[int, list[int]] = {}
        for number, depth in enumerate(places[:-1]):
            if depth != places[-1]:
                ways.setdefault(depth, []).append(number)
        for depth, numbers in ways.items():
            self.say(" ".join(f"case {it}:" for it in numbers) + f" {self.leave(depth)}")
        self.say(f"default: {self.leave(places[-1])}")
        self.say("}")

    def skip(self) -> None:
        """Past what is never reached, up to the end of its block."""
        depth = 0
        while True:
            self.at += 1
            code = self.found[self.at].code
            if depth == 0 and code in (ELSE, END):
                return
            depth += (code in (BLOCK, LOOP, IF)) - (code == END)

    def step(self, code: int, words: tuple) -> None:  # type: ignore[type-arg]
        """An instruction that goes on to the next one."""
        if code in (BLOCK, LOOP, IF):
            self.open(code, words[0])
        elif code == BR_IF:
            on = self.pop()
            told = self.leave(words[0])
            self.say(f"if ({on.text}) {told}" if told.count(";") == 1 else f"if ({on.text}) {{ {told} }}")
        elif code == CALL:
            self.call(words[0])
        elif code == DROP:
            self.pop()
        elif code == SELECT:
            on, no, yes = self.pop(), self.pop(), self.pop()
            self.stack.append(of_both(f"{on.operand if not on.is_condition else f'({on.text})'} ? {yes.operand} : {no.operand}", yes.kind, on, yes, no))
        elif code == GET:
            self.stack.append(self.local(words[0]))
        elif code in (SET, TEE):
            self.assign(words[0], self.pop().plain)
            if code == TEE:
                self.stack.append(self.local(words[0]))
        elif code == GLOBAL_GET:
            if self.module.globals[words[0]] == "__stack_pointer":
                self.stack.append(of_place(0))
            elif self.module.globals[words[0]] == "__memory_base":
                self.stack.append(Value("AT(data)", "u64"))
            else:
                raise Missing(f"{self.name} reads {self.module.globals[words[0]]}")
        elif code in (CONST32, CONST64):
            self.stack.append(of_number(words[0], "u32" if code == CONST32 else "u64"))
        elif code in LOADS:
            self.stack.append(loaded(code, words[0], words[1], self.pop()))
        elif code in STORES or code in (COPY, FILL):
            self.store(code, words)
        elif code != 0x01:
            self.stack.append(self.expression(code))

    def store(self, code: int, words: tuple) -> None:  # type: ignore[type-arg]
        if code in (COPY, FILL):
            length, value, to = self.pop(), self.pop(), self.pop()
            self.settle(memory=True)
            what = pointer(value) if code == COPY else f"(int)({value.operand} & 255u)"
            self.say(f"{'memmove' if code == COPY else 'memset'}({pointer(to)}, {what}, (size_t){length.operand});")
            return
        value, at = self.pop(), self.pop()
        kind, bits = STORES[code]
        place = computed("+", at, of_number(words[1], "u64")) if words[1] else at
        self.settle(memory=True)
        narrow = value.plain if int(kind[1:]) == bits else f"(u{bits}){value.operand}"
        name, given = accessed("st" if 1 << words[0] >= bits // 8 else "us", bits, place)
        self.say(f"{name}({given}, {narrow});")

    def expression(self, code: int) -> Value:
        if code in EXTENDED:
            kind, bits = EXTENDED[code]
            it = self.pop()
            return cast(f"(s{kind[1:]})(s{bits}){it.operand}", kind, it)
        if code in (0x45, 0x50):
            return is_zero(self.pop())
        if code == 0xA7:
            it = self.pop()
            return cast(it.operand, "u32", it)
        if code in (0xAC, 0xAD):
            it = self.pop()
            if it.is_condition:
                return cast(f"({it.text})", "u64", it)
            return cast(f"(s64){signed(it)}" if code == 0xAC else it.operand, "u64", it)
        for first, kind in (0x67, "u32"), (0x79, "u64"):
            if first <= code < first + 3:
                it = self.pop()
                told = called(f"{COUNTED[code - first]}{kind[1:]}({it.plain})", "u32", it)
                return told if kind == "u32" else cast(told.text, "u64", told)
            if first + 3 <= code < first + 18:
                right, left = self.pop(), self.pop()
                return computed(COMPUTED[code - first - 3], left, right)
        for first in 0x46, 0x51:
            if first <= code < first + 10:
                right, left = self.pop(), self.pop()
                return compared(COMPARED[code - first], left, right)
        raise Missing(f"{self.name} has an instruction {code:#x}, of which C is not made")

    def text(self) -> str:
        """The whole function."""
        while self.at < len(self.found):
            code, words = self.found[self.at]
            is_reached = True
            if code in (BR, RETURN, BR_TABLE, 0x00):
                if code == BR_TABLE:
                    self.table(words[0])
                else:
                    self.say("trap();" if code == 0x00 else self.leave(words[0] if code == BR else len(self.blocks) - 1))
                self.skip()
                code, is_reached = self.found[self.at].code, False
            if code == ELSE:
                self.otherwise(is_reached)
            elif code == END:
                self.close(is_reached)
            elif is_reached:
                self.step(code, words)
            self.at += 1
        beyond = [it for line in self.lines for it in re.findall(r"\bframe \+ (\d+)", line) if int(it) > self.size]
        if beyond:
            raise Missing(f"{self.name} has an address behind its array")
        return "\n".join([f"{head(self.module, self.name, self.function.kind, True)} {{", *self.variables(), *self.lines, "}"]) + "\n"

    def variables(self) -> list[str]:
        """What the function declares."""
        found = [f"\tARRAY(frame, {self.size});"] if self.size else []
        body = "\n".join(self.lines)
        first = len(self.function.kind.given)
        named = [(kind, f"l{first + at}", " = 0") for at, kind in enumerate(self.function.locals)]
        named += [(kind, name, "") for kind, name in self.declared]
        for wanted in "u32", "u64":
            rows = [f"{name}{value}" for kind, name, value in named if kind == wanted and re.search(rf"\b{name}\b", body)]
            found += [f"\t{wanted} {', '.join(rows)};"] if rows else []
        return found


def name_of(module: Module, number: int) -> str:
    """The name of a function in C."""
    it = module.functions[number]
    if isinstance(it, Imported):
        if it.name not in FROM_OUTSIDE:
            raise Missing(f"the module calls {it.name}, which is none of its own")
        return it.name
    exported = [name for name, which in module.exports.items() if which == number]
    return f"its_{exported[0].removeprefix('lagffi_')}" if exported else f"f{number}"


def head(module: Module, name: str, kind: Signature, has_names: bool) -> str:
    """What a function begins with."""
    if len(kind.told) > 1:
        raise Missing(f"{name} answers more than one value")
    given = [f"{it} l{at}" if has_names else it for at, it in enumerate(kind.given)]
    return f"static {kind.told[0] if kind.told else 'void'} {name}({', '.join(given) or 'void'})"


def written(module: Module) -> list[str]:
    """The prototypes of all functions of the module, and then their bodies."""
    own = [(number, it) for number, it in enumerate(module.functions) if isinstance(it, Function) and len(it.body) > 1]
    heads = [f"{head(module, name_of(module, number), it.kind, False)};" for number, it in own]
    return ["\n".join(heads) + "\n", *(Writer(module, number, it).text() for number, it in own)]
