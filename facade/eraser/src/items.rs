//! Reads a file by the grammar of its items, and answers what of it goes.
use crate::lexer::{Kind, Token, token};
use crate::{Fault, antt, signature};
use std::ops::Range;

/// What goes of a file, in order; no two overlap.
pub(crate) fn spans(text: &str) -> Result<Vec<Range<usize>>, Fault> {
    let mut reader = Reader { text, at: 0, gone: Vec::new() };
    reader.items()?;
    if let Some(token) = reader.peek()? {
        return reader.fault(token.at.start, "no item begins here");
    }
    Ok(merged(reader.gone))
}

fn merged(mut spans: Vec<Range<usize>>) -> Vec<Range<usize>> {
    spans.sort_by_key(|it| it.start);
    let mut left: Vec<Range<usize>> = Vec::new();
    for span in spans {
        match left.last_mut() {
            Some(last) if span.start < last.end => last.end = last.end.max(span.end),
            _ => left.push(span),
        }
    }
    left
}

struct Reader<'t> {
    text: &'t str,
    at: usize,
    gone: Vec<Range<usize>>,
}

type Read<T> = Result<T, Fault>;

/// The words of clauses.
const CLAUSES: [&str; 2] = ["requires", "ensures"];

impl<'t> Reader<'t> {
    fn fault<T>(&self, at: usize, why: &str) -> Read<T> {
        Err(Fault { line: self.text[..at].matches('\n').count() + 1, why: why.to_string() })
    }

    /// The next token that is no comment; a comment of documentation is one.
    fn peek(&mut self) -> Read<Option<Token<'t>>> {
        loop {
            match token(self.text, self.at) {
                Ok(Some(found)) if found.kind == Kind::Comment => self.at = found.at.end,
                Ok(found) => return Ok(found),
                Err(at) => return self.fault(at, "this is no Rust"),
            }
        }
    }

    fn next(&mut self) -> Read<Token<'t>> {
        let Some(found) = self.peek()? else {
            return self.fault(self.text.len(), "the file ends too early");
        };
        self.at = found.at.end;
        Ok(found)
    }

    fn sees(&mut self, text: &str) -> Read<bool> {
        Ok(self.peek()?.is_some_and(|it| it.is(text)))
    }

    fn takes(&mut self, text: &str) -> Read<bool> {
        let is = self.sees(text)?;
        if is {
            self.next()?;
        }
        Ok(is)
    }

    fn wants(&mut self, text: &str) -> Read<()> {
        let found = self.next()?;
        if found.is(text) { Ok(()) } else { self.fault(found.at.start, &format!("'{text}' is wanted here")) }
    }

    fn wants_word(&mut self) -> Read<Token<'t>> {
        let found = self.next()?;
        if found.kind == Kind::Word { Ok(found) } else { self.fault(found.at.start, "a name is wanted here") }
    }

    fn goes(&mut self, start: usize) {
        self.gone.push(start..self.at);
    }

    /// Items, or members of a trait or an `impl`, to a brace that closes them or to the end.
    fn items(&mut self) -> Read<()> {
        loop {
            let start = self.head()?;
            match self.peek()? {
                Some(found) if !found.is("}") => self.item(start.unwrap_or(found.at.start))?,
                _ => return Ok(()),
            }
        }
    }

    /// The attributes and comments of documentation before an item, a member, a field or a statement; where they begin.
    fn head(&mut self) -> Read<Option<usize>> {
        let mut start = None;
        while let Some(found) = self.peek()? {
            if found.kind == Kind::Doc {
                self.next()?;
            } else if found.is("#") {
                self.attribute()?;
            } else {
                break;
            }
            start = start.or(Some(found.at.start));
        }
        Ok(start)
    }

    fn attribute(&mut self) -> Read<()> {
        let start = self.next()?.at.start;
        self.takes("!")?;
        self.wants("[")?;
        let is_tactic = self.sees("tactic")?;
        let inside = self.at;
        self.rest_of_group("]")?;
        if is_tactic || self.text[inside..self.at].trim() == "unsafe(no_mangle)]" {
            self.goes(start);
        }
        Ok(())
    }

    /// An item that begins at `start`, with what stands before it.
    fn item(&mut self, start: usize) -> Read<()> {
        if self.takes("pub")? && self.takes("(")? {
            self.rest_of_group(")")?;
        }
        let word = self.wants_word()?;
        match word.text {
            "ghost" => self.ghost(start),
            "use" | "static" | "type" => self.past_semicolon(),
            "const" if !self.sees("fn")? && !self.sees("unsafe")? && !self.sees("extern")? => self.past_semicolon(),
            "const" | "unsafe" | "final" => self.item(start),
            "extern" => self.foreign(start, &word),
            "fn" => self.function(),
            "mod" | "trait" => self.block_of_items(),
            "impl" => self.implementation(start),
            "struct" => self.structure(),
            "enum" => self.enumeration(),
            _ => self.macro_call(&word),
        }
    }

    /// `ghost use ..;`, or a ghost member of a trait or an `impl`.
    fn ghost(&mut self, start: usize) -> Read<()> {
        let name = self.wants_word()?;
        if name.is("use") {
            let Some(length) = self.text[self.at..].find(';') else {
                return self.fault(name.at.start, "this `ghost use` does not end");
            };
            self.at += length;
        } else {
            for mark in [":", "=", "by"] {
                if self.takes(mark)? {
                    self.term()?;
                }
            }
        }
        self.wants(";")?;
        self.goes(start);
        Ok(())
    }

    /// A term in braces.
    fn term(&mut self) -> Read<()> {
        let Some(brace) = self.peek()?.filter(|it| it.is("{")) else {
            return self.fault(self.at, "a term in braces is wanted here");
        };
        match antt::past_term(self.text, brace.at.start) {
            Some(end) => {
                self.at = end;
                Ok(())
            }
            None => self.fault(brace.at.start, "this term does not end"),
        }
    }

    /// Functions of C, or a function that C calls, which has that name on its wrapper.
    fn foreign(&mut self, start: usize, word: &Token<'t>) -> Read<()> {
        let abi = self.next()?;
        if abi.kind != Kind::Literal {
            return self.fault(abi.at.start, "the name of an ABI is wanted here");
        }
        if self.takes("{")? {
            self.items()?;
            return self.wants("}");
        }
        self.goes(word.at.start);
        self.item(start)
    }

    fn function(&mut self) -> Read<()> {
        self.wants_word()?;
        let mut tokens = Vec::new();
        loop {
            match self.peek()? {
                Some(found) if found.is("{") || found.is(";") || CLAUSES.contains(&found.text) || found.is("ghost") => break,
                Some(found) if found.is("(") || found.is("[") => self.group(&mut tokens)?,
                _ => tokens.push(self.next()?),
            }
        }
        self.gone.extend(signature::writers(&tokens));
        self.contract()?;
        if self.takes(";")? { Ok(()) } else { self.body() }
    }

    /// A group in parentheses or brackets, of which all tokens are kept.
    fn group(&mut self, tokens: &mut Vec<Token<'t>>) -> Read<()> {
        let opening = self.next()?;
        let closing = closing_of(&opening);
        tokens.push(opening);
        while !self.sees(closing)? {
            match self.peek()? {
                Some(found) if !closing_of(&found).is_empty() => self.group(tokens)?,
                _ => tokens.push(self.next()?),
            }
        }
        tokens.push(self.next()?);
        Ok(())
    }

    /// Each `requires`, then each `ensures`, with a name or none.
    fn contract(&mut self) -> Read<()> {
        for word in CLAUSES {
            while let Some(found) = self.peek()?.filter(|it| it.is(word)) {
                self.next()?;
                self.takes("*")?;
                if !self.sees("{")? {
                    self.wants_word()?;
                }
                self.term()?;
                self.goes(found.at.start);
            }
        }
        Ok(())
    }

    fn body(&mut self) -> Read<()> {
        self.wants("{")?;
        self.rest_of_group("}")
    }

    /// Tokens of code to this closing mark. A function in it may have a contract; nothing else may.
    fn rest_of_group(&mut self, closing: &str) -> Read<()> {
        loop {
            let Some(found) = self.peek()? else {
                return self.fault(self.text.len(), &format!("'{closing}' is wanted before the file ends"));
            };
            if found.is("#") {
                self.attribute_or_mark()?;
                continue;
            }
            self.next()?;
            let inner = closing_of(&found);
            if !inner.is_empty() {
                self.rest_of_group(inner)?;
            } else if found.is(closing) {
                return Ok(());
            } else if found.kind == Kind::Mark && [")", "]", "}"].contains(&found.text) {
                return self.fault(found.at.start, &format!("'{closing}' is wanted here"));
            } else if found.is("fn") && self.peek()?.is_some_and(|it| it.kind == Kind::Word) {
                self.function()?;
            } else if is_ghostly(&found) {
                return self.fault(found.at.start, &format!("'{}' stands where no signature ends", found.text));
            }
        }
    }

    fn attribute_or_mark(&mut self) -> Read<()> {
        let mark = self.at;
        let start = self.next()?.at.start;
        if self.sees("[")? {
            self.at = mark.max(start);
            return self.attribute();
        }
        Ok(())
    }

    /// The rest of an item without clauses, to its semicolon.
    fn past_semicolon(&mut self) -> Read<()> {
        loop {
            let found = self.next()?;
            let inner = closing_of(&found);
            if found.is(";") {
                return Ok(());
            }
            if !inner.is_empty() {
                self.rest_of_group(inner)?;
            } else if is_ghostly(&found) {
                return self.fault(found.at.start, &format!("'{}' stands where no signature ends", found.text));
            }
        }
    }

    /// The tokens to an opening brace or a semicolon, which stays.
    fn until_brace(&mut self) -> Read<Vec<Token<'t>>> {
        let mut tokens = Vec::new();
        while !self.sees("{")? && !self.sees(";")? {
            match self.peek()? {
                Some(found) if found.is("(") || found.is("[") => self.group(&mut tokens)?,
                Some(found) if is_ghostly(&found) => return self.fault(found.at.start, &format!("'{}' stands in the head of an item", found.text)),
                _ => tokens.push(self.next()?),
            }
        }
        Ok(tokens)
    }

    /// The rest of a module or a trait.
    fn block_of_items(&mut self) -> Read<()> {
        self.until_brace()?;
        if self.takes(";")? {
            return Ok(());
        }
        self.wants("{")?;
        self.items()?;
        self.wants("}")
    }

    fn implementation(&mut self, start: usize) -> Read<()> {
        let head = self.until_brace()?;
        let is_drop = head.iter().zip(head.iter().skip(1)).any(|(one, next)| one.is("Drop") && next.is("for"));
        let inside = self.at;
        self.wants("{")?;
        self.items()?;
        self.wants("}")?;
        if !is_drop {
            return Ok(());
        }
        let end = self.at;
        self.at = inside;
        if self.takes_apart()? && self.at == end {
            self.goes(start);
            return Ok(());
        }
        self.fault(start, "this drop does more than to take the value apart")
    }

    /// `{ fn drop(self) { let NAME { field: _, .. } = self; } }`, after an item has been read there; whether it is.
    fn takes_apart(&mut self) -> Read<bool> {
        for word in ["{", "fn", "drop", "(", "self", ")"] {
            if !self.takes(word)? {
                return Ok(false);
            }
        }
        self.contract()?;
        if !(self.takes("{")? && self.takes("let")?) {
            return Ok(false);
        }
        self.wants_word()?;
        if !self.takes("{")? {
            return Ok(false);
        }
        while !self.takes("}")? {
            self.wants_word()?;
            if !(self.takes(":")? && self.takes("_")?) {
                return Ok(false);
            }
            self.takes(",")?;
        }
        for word in ["=", "self", ";", "}", "}"] {
            if !self.takes(word)? {
                return Ok(false);
            }
        }
        Ok(true)
    }

    fn structure(&mut self) -> Read<()> {
        self.until_brace()?;
        if self.takes(";")? {
            return Ok(());
        }
        self.wants("{")?;
        loop {
            let start = self.head()?;
            if self.takes("}")? {
                return Ok(());
            }
            self.field(start)?;
        }
    }

    /// A field of a struct, to its comma or to the brace behind it.
    fn field(&mut self, start: Option<usize>) -> Read<()> {
        let start = match (start, self.peek()?) {
            (Some(start), _) => start,
            (None, Some(found)) => found.at.start,
            (None, None) => self.text.len(),
        };
        if self.takes("pub")? && self.takes("(")? {
            self.rest_of_group(")")?;
        }
        if self.takes("ghost")? {
            self.wants_word()?;
            self.wants(":")?;
            self.term()?;
            if self.takes("by")? {
                self.term()?;
            }
            self.takes(",")?;
            self.goes(start);
            return Ok(());
        }
        self.wants_word()?;
        self.wants(":")?;
        let mut depth = 0;
        loop {
            if self.sees("}")? || (depth == 0 && self.sees(",")?) {
                break;
            }
            let found = self.next()?;
            let inner = closing_of(&found);
            if !inner.is_empty() {
                self.rest_of_group(inner)?;
            }
            depth += i32::from(found.is("<")) - i32::from(found.is(">"));
        }
        self.takes(",")?;
        Ok(())
    }

    fn enumeration(&mut self) -> Read<()> {
        self.until_brace()?;
        self.body()
    }

    /// `path! { .. }` among items, or `macro_rules! name { .. }`.
    fn macro_call(&mut self, word: &Token<'t>) -> Read<()> {
        while self.takes("::")? {
            self.wants_word()?;
        }
        if !self.takes("!")? {
            return self.fault(word.at.start, "no item begins so");
        }
        if word.is("macro_rules") {
            self.wants_word()?;
        }
        let opening = self.next()?;
        let closing = closing_of(&opening);
        if closing.is_empty() {
            return self.fault(opening.at.start, "what a macro is given is wanted here");
        }
        self.rest_of_group(closing)?;
        self.takes(";")?;
        Ok(())
    }
}

fn closing_of(token: &Token<'_>) -> &'static str {
    match (token.kind, token.text) {
        (Kind::Mark, "(") => ")",
        (Kind::Mark, "[") => "]",
        (Kind::Mark, "{") => "}",
        _ => "",
    }
}

fn is_ghostly(token: &Token<'_>) -> bool {
    token.kind == Kind::Word && (token.is("ghost") || CLAUSES.contains(&token.text))
}
