"""tools/maintain/interface: exports, structs, enums and numbers of sources, and what becomes of them in C, in Python and in docs/USING.md."""

from __future__ import annotations

from typing import Callable

import pytest

import loading
from repository import Missing

sources = loading.module("interface.d", "sources")
numbering = loading.module("interface.d", "numbering")
lag_h = loading.module("interface.d", "lag_h")
memory = loading.module("interface.d", "memory")
bindings = loading.module("interface.d", "bindings")
elsewhere = loading.module("interface.d", "elsewhere")
rust = loading.module("interface.d", "rust")

SOURCE = """
#[repr(C)]
pub struct Lag {
    live: bool,
    pub(crate) held: Held,
    ghost tells: { live },
}
#[repr(C)]
pub struct Held {
    kept: *mut u8,
    alloc: Global,
}
#[repr(C)]
#[derive(Clone, Copy)]
pub struct LagEnd {
    pub what: u8,
    pub mac: [u8; 6],
    pub count: u32,
    pub port: u16,
}
#[repr(C)]
pub struct LagSystemFault {
    pub up: bool,
    pub end: LagEnd,
    pub at: usize,
}
/// Tells the end of a port,
/// and no more.
/// Refuses: NIW_BUFFER, NIW_NO_SYSTEM,
/// NIW_NO_PORT.
#[unsafe(no_mangle)]
pub extern "C" fn lagffi_tell(alloc: Global, lag: &mut Lag, keys: &[u16], response: &mut [u8], end: &mut LagEnd, port: u16) -> LagEnd
    ensures room { result ≡ refused wrong_buffer_length }
    ensures answers { result ≡ refused no_system }
{
}
/// One tick.
/// Refuses: NIW_NO_SYSTEM.
#[unsafe(no_mangle)]
pub extern "C" fn lagffi_tick(lag: &mut Lag) -> u32
    ensures { result ≡ no_system }
{
}
"""
STRUCTS = sources.Structs(SOURCE)
TELL, TICK = sources.exports(SOURCE, STRUCTS)
HEADER = """struct niw_end lagffi_tell(void);
uint32_t lagffi_gone(void);

static inline uint32_t niw_null_status(void) {
    return NIW_NULL;
}

/* Old
 * words. */
static inline struct niw_end niw_tell(void) {
    return 0;
}

/* By hand. */
"""
WRITTEN = """struct niw_end lagffi_tell(struct niw_system *handle, const uint16_t *keys, size_t key_count, uint8_t *response,
    size_t room, struct niw_end *end, uint16_t port);
uint32_t lagffi_tick(struct niw_system *handle);

static inline uint32_t niw_null_status(void) {
    return NIW_NULL;
}

/* Tells the end of a port,
 * and no more. */
static inline struct niw_end niw_tell(struct niw_system *handle, const uint16_t *keys, size_t key_count, uint8_t *response,
    size_t room, struct niw_end *end, uint16_t port) {
    struct niw_end refused = NIW_ZEROS;
    if (handle && keys && response && end) return lagffi_tell(handle, keys, key_count, response, room, end, port);
    refused.status = NIW_NULL;
    return refused;
}

/* One tick. */
static inline uint32_t niw_tick(struct niw_system *handle) {
    return handle ? lagffi_tick(handle) : niw_null_status();
}

/* By hand. */
"""
ENUM = """/// Why.
pub enum SystemFault {
    /// 1: there is no road.
    NoRoad,
    /// 2: the bridge is shut.
    /// It opens at noon.
    BridgeShut,
    /// 4: this is wrong.
    Other(u8),
}
match self {
    SystemFault::BridgeShut => 2,
    SystemFault::NoRoad => 1,
    SystemFault::Other(_) => 4,
}
match self {
    SystemFault::NoRoad => f.write_str("no road"),
    SystemFault::BridgeShut => {
        f.write_str("the bridge is shut")
    }
    SystemFault::Other(what) => write!(f, "{what}"),
}
"""
KNOWN = [
    numbering.Variant("NoRoad", 1, "there is no road.", "no road"),
    numbering.Variant("BridgeShut", 2, "the bridge is shut.", "the bridge is shut"),
    numbering.Variant("Other", 4, "this is wrong.", None),
]
BODY = """    NIW_OK = 0,
    NIW_OLD = 9, /* it is gone */
    NIW_NO_ROAD = 7, /* by hand,
                        in two lines */
    NIW_MORE = 6 /* of C */
"""
WRITTEN_ENUM = """    NIW_OK = 0,
    NIW_NO_ROAD = 1,     /* by hand,
                            in two lines */
    NIW_BRIDGE_SHUT = 2, /* the bridge is shut */
    NIW_OTHER = 4,       /* this is wrong */
    NIW_MORE = 6         /* of C */
"""


@pytest.mark.parametrize(
    ("old", "new", "told"),
    [
        ("/// Refuses: NIW_NO_SYSTEM.\n", "", "has not its sentence"),
        ("Refuses: NIW_NO_SYSTEM.", "Refuses: NIW_NO_SYSTEM, NIW_BUFFER.", "refuses NIW_BUFFER by its contract alone, or"),
        ("    ensures { result ≡ no_system }\n", "", "refuses NIW_NO_SYSTEM by its contract alone, or"),
        ('extern "C" fn lagffi_tick', 'extern "C" fn tick', "an export of lagffi is not written as"),
    ],
)
def test_an_export_without_its_lines_is_refused(old: str, new: str, told: str) -> None:
    assert SOURCE.count(old) == 1
    with pytest.raises(sources.Missing, match=told):
        sources.exports(SOURCE.replace(old, new), STRUCTS)


def test_functions_are_written_in_their_places_and_new_ones_behind_the_one_before() -> None:
    assert lag_h.with_functions(HEADER, [TELL, TICK]) == WRITTEN
    assert lag_h.with_functions(WRITTEN, [TELL, TICK]) == WRITTEN


def test_structs_and_numbers_that_differ_are_told_by_their_names() -> None:
    structs = "".join(f"struct {name} {{ {' '.join(f'{it.declared()};' for it in body)}\n}};\n" for name, body in STRUCTS.all.items())
    assert list(lag_h.differences(structs + "#define NIW_ROOM 24\n", STRUCTS, {"NIW_ROOM": 24})) == []
    struct, number = lag_h.differences(structs.replace("mac[6]", "mac[5]") + "#define NIW_ROOM 24\n", STRUCTS, {"NIW_ROOM": 25})
    assert struct.startswith("struct niw_end: ") and number == "number NIW_ROOM: the sources have 25; the header has 24"


@pytest.mark.parametrize(("old", "new"), [("NoRoad => 1", "NoRoad => 2"), ("::Other(_) => 4,", ""), ("    /// 4: this is wrong.\n", "")])
def test_an_enum_that_is_read_in_part_is_refused(old: str, new: str) -> None:
    with pytest.raises(numbering.Missing):
        numbering.variants(ENUM.replace(old, new), "SystemFault")


def test_an_enum_keeps_the_comments_behind_its_names(monkeypatch: pytest.MonkeyPatch) -> None:
    monkeypatch.setitem(lag_h.MORE, "SystemFault", ["NIW_OK", "NIW_MORE"])
    named = lag_h.enumerators("SystemFault", KNOWN, BODY)
    said = {"NIW_NO_ROAD": "there is no road", "NIW_BRIDGE_SHUT": "the bridge is shut", "NIW_OTHER": "this is wrong"}
    assert lag_h.written_enum(BODY, named, said) == WRITTEN_ENUM
    assert lag_h.written_enum(WRITTEN_ENUM, named, said) == WRITTEN_ENUM


@pytest.mark.parametrize("body", ["NIW_MORE = 4", "NIW_OK = 0"])
def test_two_names_of_one_number_and_a_missing_one_are_refused(monkeypatch: pytest.MonkeyPatch, body: str) -> None:
    monkeypatch.setitem(lag_h.MORE, "SystemFault", ["NIW_MORE"])
    with pytest.raises(lag_h.Missing):
        lag_h.enumerators("SystemFault", KNOWN, body)


def test_the_page_has_what_functions_refuse_and_what_each_status_means() -> None:
    header = "\n/* The statuses. 1 is one. */\nenum {\n    NIW_OK = 0,\n    NIW_SHUT = 3, /* niw_go: the bridge is shut: wait,\n        or go back */\n};\nenum { NIW_A = 1 };\n"
    text = "a\n<!-- written by: tools/maintain/interface -->\n\n|old|\n\n<!-- end -->\nb\n"
    made = elsewhere.using(text, [TELL, TICK], header)
    refuses = "|`niw_tell`|`NIW_BUFFER`, `NIW_NO_SYSTEM`, `NIW_NO_PORT`|\n|`niw_tick`|`NIW_NO_SYSTEM`|\n"
    tables = f"|functions|refusals, in this order|\n|---|---|\n{refuses}\n|number|status|means|\n|---:|---|---|\n|3|`NIW_SHUT`|niw_go: the bridge is shut|\n"
    assert made == text.replace("|old|\n", tables) and elsewhere.using(made, [TELL, TICK], header) == made


def test_a_symbol_keeps_its_version_and_a_new_one_has_that_of_the_release() -> None:
    old = "liblag.so.0 liblag0\n LAG_0@LAG_0 0.1.0\n lagffi_gone@LAG_0 0.1.0\n lagffi_tick@LAG_0 0.1.0\n"
    made = elsewhere.symbols(old, [TELL, TICK], "0.2.0")
    head = "liblag.so.0 liblag0\n LAG_0@LAG_0 0.1.0\n LAG_1@LAG_1 0.2.0\n"
    assert made == f"{head} lagffi_tell@LAG_1 0.2.0\n lagffi_tick@LAG_0 0.1.0\n"
    assert elsewhere.symbols(made, [TELL, TICK], "0.3.0") == made


def test_one_more_symbol_of_a_release_has_its_version() -> None:
    old = "liblag.so.0 liblag0\n LAG_0@LAG_0 0.1.0\n LAG_1@LAG_1 0.2.0\n lagffi_tick@LAG_0 0.1.0\n"
    assert " lagffi_tell@LAG_1 0.2.0\n" in elsewhere.symbols(old, [TELL, TICK], "0.2.0")
    assert " LAG_2@LAG_2 0.3.0\n lagffi_tell@LAG_2 0.3.0\n" in elsewhere.symbols(old, [TELL, TICK], "0.3.0")


def test_the_release_is_written_where_it_stands_once() -> None:
    text = 'name = "a"\nversion = "0.1.0"\nneeds = "0.1.0"\n'
    assert elsewhere.released(text, '\nversion = "', "0.12.3") == text.replace('version = "0.1.0"', 'version = "0.12.3"')
    with pytest.raises(lag_h.Missing, match="not found once"):
        elsewhere.released(text, 'edition = "', "0.2.0")


# What is written of lag.h for Python and Rust `tools/maintain/interface --check` compares whole; it has no such names and types.
def test_a_word_of_rust_gets_its_mark() -> None:
    export = sources.Export("new", [], [], "struct niw_made", [sources.Field("size_t", "type")])
    told = rust.module("struct niw_group_id {\n    uint16_t where;\n};\n", [export])
    assert "    pub r#where: u16,\n" in told and "    pub fn lagffi_new(r#type: usize) -> Made;\n" in told


TAKES = """
static void rattle_alloc(u64 answer, u64 size, u64 aligned) {
    answer_memory(answer, malloc_of((size_t)size));
}

static void f4(u64 l0) {
\trattle_alloc(l0, 8, 8);
}

static u64 list_of(size_t count, size_t size) {
    return AT(malloc_of(count * size));
}

uint8_t lagffi_new(struct niw_system *handle) {
    f4(AT(handle));
    return 0;
}

uint8_t lagffi_tick(struct niw_system *handle) {
    return CALL;
}

uint8_t lagffi_next_move(struct niw_system *handle) {
    return (uint8_t)list_of(2, 2);
}
"""
SAYS_MEMORY = "NIW_NO_MEMORY = 12, /* memory was refused; only niw_new\n answers it; of lag.c, where it has lists, niw_next_move, too */"


def test_what_takes_memory_is_what_the_header_names() -> None:
    assert list(memory.differences(TAKES.replace("CALL", "0"), SAYS_MEMORY)) == []
    told = list(memory.differences(TAKES.replace("CALL", "f4(1), 0"), SAYS_MEMORY))
    assert [it.partition(":")[0] for it in told] == ["niw_tick", "niw_tick"]
    assert len(list(memory.differences(TAKES.replace("CALL", "0"), SAYS_MEMORY.replace("niw_new", "niw_renew")))) == 4
    assert any("pointer" in it for it in memory.differences(TAKES.replace("CALL", "(*told)(1)"), SAYS_MEMORY))


REFUSED: dict[str, tuple[Callable[..., object], tuple[object, ...], str]] = {
    "a type that C has not": (sources.Structs, ("#[repr(C)]\npub struct LagText {\n    pub text: String,\n}\n",), "no type of C for String"),
    "an enumerator that stands twice": (numbering.of_header, ("enum { NIW_FIRST };\nenum { NIW_FIRST };\n",), "NIW_FIRST stands twice in the header"),
    "a constant of two numbers":
        (numbering.of_sources, ("const NOT_HERE: u32 = 7;\nconst NOT_HERE: u32 = 8;", {}), "NIW_NOT_HERE has two numbers in the sources"),
    "a number without a text": (lag_h.written_texts, ({"NIW_OK": 0, "NIW_NEW": 1}, {"NIW_OK": "done"}), "no text of NIW_NEW"),
    "an enum that Python has not": (bindings.enum_class, ("NIW_NEW = 1",), ""),
    "a type that ctypes has not": (bindings.in_ctypes, ("long double",), ""),
    "a type that Rust has not": (rust.in_rust, ("float",), ""),
}


@pytest.mark.parametrize(("read", "given", "told"), REFUSED.values(), ids=REFUSED)
def test_what_cannot_be_written_is_refused(read: Callable[..., object], given: tuple[object, ...], told: str) -> None:
    with pytest.raises(Missing, match=told):
        read(*given)
