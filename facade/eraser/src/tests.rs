//! What goes and what stays, and what is refused with its line.
use crate::{Fault, erased};

/// What is left, with runs of spaces as one.
fn left(text: &str) -> String {
    let plain = erased(text).expect("a source");
    assert_eq!(plain.matches('\n').count(), text.matches('\n').count());
    plain.split_whitespace().collect::<Vec<_>>().join(" ")
}

fn refused(text: &str) -> (usize, String) {
    let Fault { line, why } = erased(text).expect_err("a fault");
    (line, why)
}

#[test]
fn contracts_go() {
    assert_eq!(left("fn f(a: u8) -> u8\n    requires { a < 3 }\n    ensures one { result ≡ a }\n    ensures* two { ⊤ }\n{ a }\n"), "fn f(a: u8) -> u8 { a }");
    assert_eq!(left("trait T { fn f(&self) -> u8\n    ensures { true }; }"), "trait T { fn f(&self) -> u8 ; }");
}

#[test]
fn terms_end_where_the_prover_ends_them() {
    assert_eq!(left("fn f() ensures { x' ≡ codes \"}\" -- }\n } {}"), "fn f() {}");
    assert_eq!(left("fn f() ensures { {- } {- } -} } -} record { a = 1 } } {}"), "fn f() {}");
    assert_eq!(left("fn f() ensures { a'{b}' } {}"), "fn f() {}");
}

#[test]
fn ghosts_go_with_their_documentation() {
    assert_eq!(left("ghost use a.b.{◌≡◌, c};\nuse d;"), "use d;");
    assert_eq!(left("struct S {\n    a: Vec<(u8, u8)>,\n    /// Told.\n    pub(crate) ghost b: { ℕ } by { c },\n}"), "struct S { a: Vec<(u8, u8)>, }");
    assert_eq!(left("impl M for S {\n    ghost v = { λ s. s.0 };\n    /// Stays.\n    fn f() {}\n}"), "impl M for S { /// Stays. fn f() {} }");
    assert_eq!(left("trait T { ghost a: { Self → ℕ } = { λ _. 0 }; }"), "trait T { }");
}

#[test]
fn attributes_of_the_prover_and_of_c_go() {
    assert_eq!(left("#![tactic(auto)]\n#[tactic(auto, using(crate::a::b))]\nfn f() { #[tactic(none)] g(); }"), "fn f() { g(); }");
    assert_eq!(left("#[unsafe(no_mangle)]\npub extern \"C\" fn f() {}"), "pub fn f() {}");
    assert_eq!(left("#[repr(C)]\n#[inline]\nstruct S;"), "#[repr(C)] #[inline] struct S;");
}

#[test]
fn formatters_lose_their_writer() {
    assert_eq!(left("fn fmt<W: fmt::Write>(&self, f: &mut Formatter<W>) -> R {}"), "fn fmt (&self, f: &mut Formatter ) -> R {}");
    assert_eq!(left("fn f<A, W: fmt::Write>(a: A, f: &mut Formatter<W>) {}"), "fn f<A >(a: A, f: &mut Formatter ) {}");
    assert_eq!(left("fn f<W: fmt::Write, A>(a: A, f: &mut Formatter<W>) {}"), "fn f< A>(a: A, f: &mut Formatter ) {}");
    let other = "fn f<W: fmt::Write>(out: &mut W, f: &mut Formatter<W>) {}";
    assert_eq!(left(other), other);
}

#[test]
fn a_drop_that_takes_apart_goes_and_another_is_refused() {
    assert_eq!(left("/// Told.\nimpl Drop for S {\n    fn drop(self)\n        requires { ⊤ }\n    {\n        let S { a: _, b: _ } = self;\n    }\n}\nfn f() {}"), "fn f() {}");
    let (line, why) = refused("\nimpl Drop for S { fn drop(self) { close(); let S { a: _ } = self; } }");
    assert_eq!((line, why.contains("drop")), (2, true));
}

#[test]
fn words_of_clauses_in_code_are_no_clauses() {
    let text = "fn f() { let a = \"requires { x }\"; /* ensures { } */ g('}', b'{', r#\"ghost { \"#); } // ghost use a;";
    assert_eq!(left(text), text);
    for word in ["requires", "ensures"] {
        let (line, why) = refused(&format!("fn f() {{\n    {word} {{ launch() }};\n}}"));
        assert_eq!((line, why), (2, format!("'{word}' stands where no signature ends")));
    }
    assert_eq!(refused("const A: u8 = {\n ghost };").0, 2);
    assert_eq!(refused("mod a\n    requires { ⊤ }\n{}").0, 2);
}

#[test]
fn what_is_no_source_is_refused_with_its_line() {
    assert_eq!(refused("fn f() {}\nfn g() { ≡ }").0, 2);
    assert_eq!(refused("fn f()\n    ensures { (a }").0, 2);
    assert_eq!(refused("fn f() {\n    (\n}\n").0, 3);
    assert_eq!(refused("use a;\n}").0, 2);
    assert_eq!(refused("use a;\n+ b").0, 2);
    assert_eq!(refused("struct S {\n    ghost a { ℕ },\n}").0, 2);
}

#[test]
fn closures_and_numbers_are_read_as_rust_reads_them() {
    let text = "fn f<'a>(a: &'a [u8; 2]) -> impl Fn(u8) -> bool { for i in 0..1 { x[i..2].y(1.5, 'a', '\\'', \"\\\"{\") } move |b| -> bool { b as u32 >= 1 } }";
    assert_eq!(left(text), text);
    let macros = "macro_rules! m { ($a:expr) => {{ $a }}; } m! { a } b::n!(c);";
    assert_eq!(left(macros), macros);
}
