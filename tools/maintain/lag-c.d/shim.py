"""Writes the functions of lag.h over those of the module: what a program has in its own layout goes into that of the module, field by field,
and out again.

The module's layout is that of Linux on x86-64. Where the program's is the same, the module is given its structs as they are: the compiler knows which.
"""

from __future__ import annotations

from repository import Missing
from sources import Export, Field, Structs
from wasm import Module

BITS = {"uint8_t": 8, "bool": 8, "uint16_t": 16, "uint32_t": 32, "uint64_t": 64, "size_t": 64, "void *": 64}
# A list that has another layout, and no more than so many elements, is copied to the stack; a longer one to memory.
FEW = 64
# The lists of a configuration: a longer one is refused by its length, before an element of it is read, so it is not copied.
OF_CONFIGURATION = "keys", "ports"
# The functions that take a configuration. What they refuse of it comes before a long list behind it is copied.
CONFIGURED = "new", "resume"


class Call:
    """A call of the module: what is given, what stands before it and behind it, the lists that may want memory, and how they are copied."""

    def __init__(self) -> None:
        self.given: list[str] = []
        self.declared: list[str] = []
        self.before: list[str] = []
        self.copied: list[str] = []
        self.after: list[str] = []
        self.lists: list[str] = []


class Shim:
    """The text of the functions, by the structs of the interface and the module."""

    def __init__(self, structs: Structs, module: Module) -> None:
        self.structs, self.module = structs, module
        self.read: list[str] = []
        self.written: list[str] = []
        self.turned: list[str] = []

    def fields(self, kind: str, before: str = "", at: int = 0) -> list[tuple[Field, int]]:
        """The fields of a struct, those of structs in it too, each with its place in the module's layout."""
        found: list[tuple[Field, int]] = []
        offsets = self.structs.layout(kind)[2]
        for field in self.structs.all[kind]:
            place = at + offsets[field.name]
            if field.kind.startswith("struct "):
                found += self.fields(field.kind[7:], f"{before}{field.name}.", place)
            else:
                found.append((field._replace(name=before + field.name), place))
        return found

    def size(self, kind: str) -> int:
        return self.structs.layout(kind)[0] if kind in self.structs.all else BITS[kind] // 8

    def same(self, kind: str) -> str:
        """A macro: whether what the program has of a type is what the module has of it."""
        if kind not in self.structs.all:
            return f"#define SAME_{kind} !IS_BIG"
        told = ["!IS_BIG", f"sizeof(struct {kind}) == {self.size(kind)}", f"_Alignof(struct {kind}) == {self.structs.layout(kind)[1]}"]
        for field, at in self.fields(kind):
            told.append(f"offsetof(struct {kind}, {field.name}) == {at}")
            if field.kind in ("void *", "size_t"):
                told.append(f"sizeof({field.kind}) == 8")
        return f"#define SAME_{kind} ({' && '.join(told)})"

    def into(self, kind: str) -> str:
        """The function that writes a value of the program in the module's layout."""
        if kind not in self.structs.all:
            return f"static void in_{kind}(u64 to, const {kind} *from) {{\n    st{BITS[kind]}(to, *from);\n}}\n"
        rows = []
        for field, at in self.fields(kind):
            value = f"AT(from->{field.name})" if field.kind == "void *" else f"from->{field.name}"
            rows.append(f"    COPY(P(to + {at}), {value}, {field.many});" if field.many else f"    st{BITS[field.kind]}(to + {at}, {value});")
        return "\n".join([f"static void in_{kind}(u64 to, const struct {kind} *from) {{", *rows, "}\n"])

    def out(self, kind: str) -> str:
        """The function that reads a struct of the module's layout."""
        rows = []
        for field, at in self.fields(kind):
            cast = "P" if field.kind == "void *" else f"({field.kind})"
            value = f"ld{BITS[field.kind]}(from + {at})"
            told = f"{value} != 0" if field.kind == "bool" else f"P({value})" if cast == "P" else cast + value
            rows.append(f"    COPY(to->{field.name}, P(from + {at}), {field.many});" if field.many else f"    to->{field.name} = {told};")
        return "\n".join([f"static void out_{kind}(struct {kind} *to, u64 from) {{", *rows, "}\n"])

    def turn(self, kind: str) -> str:
        """The function that turns the octets of each number in a list, which is of the module's layout but for that."""
        size, named = self.size(kind), f"struct {kind}" if kind in self.structs.all else kind
        rows = [f"static void turn_{kind}({named} *list, size_t count) {{", f"    ARRAY(one, {size});"]
        rows += ["    for (size_t at = 0; IS_BIG && at < count; at++) {", f"        in_{kind}(AT(one), &list[at]);"]
        return "\n".join([*rows, f"        COPY(&list[at], one, {size});", "    }", "}\n"])

    def function(self, it: Export) -> str:
        """A function of lag.h."""
        kind = self.module.functions[self.module.exports[f"lagffi_{it.name}"]].kind
        told = it.answer.removeprefix("struct ") if it.answer.startswith("struct ") else ""
        call = Call()
        if told:
            self.written += [told] if told not in self.written else []
            call.declared += [f"    {it.answer} told;", f"    ARRAY(told_, {-(-self.size(told) // 16) * 16});"]
            # Small structs are told in a register of 64 bits; for others the place is given first, and may be told, too.
            call.given += ["AT(told_)"] if len(kind.given) > len(it.given) else []
        for place, field in enumerate(it.given):
            after = it.given[place + 1] if place + 1 < len(it.given) else None
            self.parameter(field, after.name if after and after.kind == "size_t" and "*" in field.kind else "", call, it.name in CONFIGURED)
        is_small = bool(told) and len(kind.given) == len(it.given)
        if len(call.given) != len(kind.given) or (is_small and (kind.told != ["u64"] or self.size(told) > 8)):
            raise Missing(f"lagffi_{it.name} is another function in the module than its source says")
        head = f"{it.answer} lagffi_{it.name}({it.parameters()}) {{"
        return "\n".join([head, *call.declared, *call.before, *self.first(it, call), *call.copied, *self.refusal(it, call), *self.body(it, call, told, is_small), "}\n"])

    def first(self, it: Export, call: Call) -> list[str]:
        """The refusal of a configuration, before a long list behind it is copied: the call without its elements tells it."""
        if it.name not in CONFIGURED or not call.lists:
            return []
        listed, many = it.given[-2:]
        kind = listed.kind.removeprefix("const struct ").removesuffix("*").strip()
        called = f"its_{it.name}({', '.join([*call.given[:-2], f'AT({listed.name}_)', '0'])});"
        rows = [called, f"out_{it.answer[7:]}(&told, AT(told_));", "if (told.status != NIW_OK) return told;", f"its_free({call.given[1]});"]
        return [f"    if (!(SAME_{kind}) && {many.name} > {FEW}) {{", *(f"        {row}" for row in rows), "    }"]

    def body(self, it: Export, call: Call, told: str, is_small: bool) -> list[str]:
        """The call, and what follows it."""
        called = f"its_{it.name}({', '.join(call.given)})"
        if told:
            first = f"    st64(AT(told_), {called});" if is_small else f"    {called};"
            return [first, f"    out_{told}(&told, AT(told_));", *call.after, "    return told;"]
        return [f"    u32 told = {called};", *call.after, "    return told;"] if call.after else [f"    return {called};"]

    def refusal(self, it: Export, call: Call) -> list[str]:
        """What is answered where a list of another layout gets no memory."""
        if not call.lists:
            return []
        zeros = f"({it.answer}){{.status = NIW_NO_MEMORY}}" if it.answer.startswith("struct ") else "NIW_NO_MEMORY"
        freed = [line for line in call.after if "free_of" in line]
        return [f"    if ({' || '.join(call.lists)}) {{", *(f"    {line}" for line in freed), f"        return {zeros};", "    }"]

    def parameter(self, field: Field, many: str, call: Call, is_configured: bool) -> None:
        """How a parameter goes in, and out again; `many` names the number of its elements."""
        name, is_const = field.name, field.kind.startswith("const ")
        to = field.kind.removeprefix("const ").removesuffix("*").strip().removeprefix("struct ")
        if "*" not in field.kind:
            call.given.append(f"(u{64 if BITS[to] == 64 else 32}){name}")
        elif to in ("uint8_t", "bool"):
            call.given.append(f"AT({name})")
        elif many and is_const:
            self.copied_list(name, to, many, call, is_configured and name in OF_CONFIGURATION)
        elif many:
            self.turned += [to] if to not in self.turned else []
            self.read += [to] if to not in self.read else []
            call.before.append(f"    turn_{to}({name}, {many});")
            call.after.append(f"    turn_{to}({name}, {many});")
            call.given.append(f"AT({name})")
        else:
            self.read += [to] if to not in self.read else []
            call.declared.append(f"    ARRAY({name}_, {self.size(to)});")
            call.before.append(f"    if (!(SAME_{to})) in_{to}(AT({name}_), {name});")
            call.given.append(f"SAME_{to} ? AT({name}) : AT({name}_)")
            if not is_const:
                self.written += [to] if to not in self.written else []
                call.after.append(f"    if (!(SAME_{to})) out_{to}({name}, AT({name}_));")

    def copied_list(self, name: str, to: str, many: str, call: Call, is_short: bool) -> None:
        """A list that the module reads alone: of another layout it is copied. One that is to be short is given as it is where it is not."""
        size = self.size(to)
        self.read += [to] if to not in self.read else []
        call.declared += [f"    ARRAY({name}_, SAME_{to} ? 1 : {FEW * size});", f"    u64 {name}_at = AT({name});"]
        if is_short:
            call.before.append(f"    if (!(SAME_{to}) && {many} <= {FEW}) {name}_at = AT({name}_);")
            call.before.append(f"    for (size_t at = 0; !(SAME_{to}) && {many} <= {FEW} && at < {many}; at++) in_{to}({name}_at + {size} * at, &{name}[at]);")
            call.given.append(f"{name}_at")
            return
        call.copied.append(f"    if (!(SAME_{to})) {name}_at = {many} <= {FEW} ? AT({name}_) : list_of({many}, {size});")
        call.copied.append(f"    for (size_t at = 0; !(SAME_{to}) && {name}_at && at < {many}; at++) in_{to}({name}_at + {size} * at, &{name}[at]);")
        call.after.append(f"    if (!(SAME_{to}) && {many} > {FEW}) free_of(P({name}_at));")
        call.lists.append(f"(!(SAME_{to}) && !{name}_at)")
        call.given.append(f"{name}_at")

    def text(self, exports: list[Export]) -> str:
        """All functions, behind what they use."""
        functions = [self.function(it) for it in exports]
        kinds = list(dict.fromkeys(self.read))
        listed = ["static u64 list_of(size_t count, size_t size) {", "    return count <= SIZE_MAX / size ? AT(malloc_of(count * size)) : 0;", "}\n"]
        sizes = [f'_Static_assert(sizeof(struct {it}) == {self.size(it)}, "lists of it are used as they are");' for it in self.turned if it in self.structs.all]
        sizes.append('_Static_assert(sizeof(bool) == 1, "lists of it are used as they are");')
        parts = ["\n".join([*map(self.same, kinds), *sizes]) + "\n", "\n".join(listed), *map(self.into, self.read), *map(self.out, self.written)]
        return "\n".join([*parts, *map(self.turn, self.turned), *functions])
