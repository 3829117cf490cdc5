//! The signature of a function, of which the type parameters of formatters go.
use crate::lexer::{Kind, Token};
use std::ops::Range;

/// What goes of a signature, which is the tokens from behind the name of the function to its contract or body: each type parameter that is bound by
/// `fmt::Write` alone and used as `Formatter<W>` alone, with these uses.
pub(crate) fn writers(signature: &[Token<'_>]) -> Vec<Range<usize>> {
    if !signature.first().is_some_and(|it| it.is("<")) {
        return Vec::new();
    }
    let end = closing_angle(signature);
    let (parameters, rest) = (&signature[1..end], &signature[end + 1..]);
    let mut found = Vec::new();
    for part in split(parameters) {
        let texts: Vec<&str> = part.iter().map(|it| it.text).collect();
        let [name, ":", "fmt", "::", "Write"] = texts[..] else { continue };
        let Some(uses) = uses_in_formatters(rest, name) else { continue };
        found.push(place_of(signature, part, end));
        found.extend(uses);
    }
    found
}

/// Where the list of types ends that the first token begins.
fn closing_angle(tokens: &[Token<'_>]) -> usize {
    let mut depth = 0;
    for (at, token) in tokens.iter().enumerate() {
        match token.text {
            "<" => depth += 1,
            ">" if depth == 1 => return at,
            ">" => depth -= 1,
            _ => {}
        }
    }
    tokens.len() - 1
}

/// The parts between the commas that stand in no other list.
fn split<'s, 't>(tokens: &'s [Token<'t>]) -> Vec<&'s [Token<'t>]> {
    let (mut parts, mut start, mut depth) = (Vec::new(), 0, 0);
    for (at, token) in tokens.iter().enumerate() {
        match token.text {
            "<" | "(" | "[" => depth += 1,
            ">" | ")" | "]" => depth -= 1,
            "," if depth == 0 => {
                parts.push(&tokens[start..at]);
                start = at + 1;
            }
            _ => {}
        }
    }
    parts.push(&tokens[start..]);
    parts
}

/// The places of `<W>` in `Formatter<W>`; None if W is used otherwise, or not at all.
fn uses_in_formatters(rest: &[Token<'_>], name: &str) -> Option<Vec<Range<usize>>> {
    let mut uses = Vec::new();
    for (at, _) in rest.iter().enumerate().filter(|(_, it)| it.kind == Kind::Word && it.is(name)) {
        let around = rest.get(at.checked_sub(2)?..at + 2)?;
        if !(around[0].is("Formatter") && around[1].is("<") && around[3].is(">")) {
            return None;
        }
        uses.push(around[1].at.start..around[3].at.end);
    }
    if uses.is_empty() { None } else { Some(uses) }
}

/// What goes of the list of parameters: the whole list, or the parameter with a comma beside it.
fn place_of(signature: &[Token<'_>], part: &[Token<'_>], end: usize) -> Range<usize> {
    let (first, last) = (part[0].at.start, part[part.len() - 1].at.end);
    let before = signature.iter().rposition(|it| it.at.end <= first).unwrap_or(0);
    let behind = signature.iter().position(|it| it.at.start >= last).unwrap_or(end);
    match (before, behind) {
        (0, at) if at == end => signature[0].at.start..signature[end].at.end,
        (_, at) if at < end => first..signature[at].at.end,
        (at, _) => signature[at].at.start..last,
    }
}
