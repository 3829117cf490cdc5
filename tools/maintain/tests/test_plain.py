"""What goes of a proved source and what stays, what is refused with its line, and that an eraser which takes too much is seen."""

from __future__ import annotations

import pytest

import loading

PLAIN = loading.program("plain")
erasing = loading.module("plain.d", "erasing")


def left(text: str) -> str:
    """What is left of a text, with runs of spaces as one."""
    plain = erasing.Source(text, "a.rt").left()
    assert plain.count("\n") == text.count("\n")
    return " ".join(plain.split())


@pytest.mark.parametrize(
    "text, plain",
    [
        ("fn f(a: u8) -> u8\n    requires { a < 3 }\n    ensures one { result ≡ a }\n{ a }", "fn f(a: u8) -> u8 { a }"),
        ("fn f() ensures { x' ≡ codes \"}\" -- }\n } {}", "fn f() {}"),
        ("fn f() ensures { a'{b}' } {}", "fn f() {}"),
        ("ghost use a.b.{◌≡◌, c};\nuse d;", "use d;"),
        ("struct S {\n    a: u8,\n    /// Told.\n    pub(crate) ghost b: { ℕ } by { c },\n}", "struct S { a: u8, }"),
        ("impl M for S {\n    ghost v = { λ s. s.0 };\n    fn f() {}\n}", "impl M for S { fn f() {} }"),
        ("#![tactic(auto)]\n#[tactic(auto, using(crate::a::b))]\nfn f() {}", "fn f() {}"),
        ('#[unsafe(no_mangle)]\npub extern "C" fn f() {}', "pub fn f() {}"),
        ("fn fmt<W: fmt::Write>(&self, f: &mut Formatter<W>) -> R {}", "fn fmt (&self, f: &mut Formatter ) -> R {}"),
        ("/// Told.\nimpl Drop for S { fn drop(self) requires { ⊤ } { let S { a: _ } = self; } } fn f() {}", "fn f() {}"),
    ],
)
def test_what_only_the_prover_reads_goes(text: str, plain: str) -> None:
    assert left(text) == plain


def test_words_of_clauses_in_texts_and_comments_stay() -> None:
    text = "fn f() { let a = \"requires { x }\"; g('}', b'{', r#\"ghost { \"#); } // ghost use a;"
    assert left(text) == text


@pytest.mark.parametrize(
    "text, why",
    [
        ("fn f() {}\nfn g() { ≡ }", "a.rt:2: '≡' is no Rust"),
        ("fn f()\n    ensures { (a }", None),
        ("fn f()\n    ensures { a", "a.rt:2: 'ensures' begins no clause that ends"),
        ("let requires = 3;", "a.rt:1: 'requires' begins no clause that ends"),
        ("\nimpl Drop for S { fn drop(self) { close(); } }", "a.rt:2: this drop does more than to take the value apart"),
    ],
)
def test_what_is_no_known_form_is_refused_with_its_line(text: str, why: str | None) -> None:
    if why is None:
        assert left(text) == "fn f()"
        return
    with pytest.raises(erasing.NotPlain) as refused:
        erasing.Source(text, "a.rt")
    assert str(refused.value) == why


def test_too_much_is_seen(monkeypatch: pytest.MonkeyPatch) -> None:
    text = "fn f()\n    ensures { a }\n{\n    launch();\n}\n"
    right = erasing.Source(text, "a.rt").left()
    assert PLAIN.is_left_of(text, right)
    of_clause = erasing.past_term

    def past_code(text: str, at: int) -> int | None:
        end = of_clause(text, at)
        return None if end is None else text.index("}", end) + 1

    monkeypatch.setattr(erasing, "past_term", past_code)
    assert erasing.Source(text, "a.rt").left() != right
    assert not PLAIN.is_left_of(text, right.replace("launch", "lurch"))
