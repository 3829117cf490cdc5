//! The tokens of Rust, from a place of a text on.
use std::ops::Range;

#[derive(Clone, Copy, Debug, PartialEq, Eq)]
pub(crate) enum Kind {
    /// A comment, of no documentation.
    Comment,
    /// A comment of documentation of what stands behind it.
    Doc,
    Word,
    /// A number, a text, a sign or a lifetime.
    Literal,
    Mark,
}

#[derive(Clone, Debug)]
pub(crate) struct Token<'t> {
    pub(crate) kind: Kind,
    pub(crate) text: &'t str,
    pub(crate) at: Range<usize>,
}

impl Token<'_> {
    pub(crate) fn is(&self, text: &str) -> bool {
        self.text == text
    }
}

/// Marks of several signs that are one here: a `>` of these ends no list of types.
const LONG: [&str; 5] = ["->", "=>", "::", "<=", ">="];

/// The token at `at` or behind the spaces there. The error says where no token is.
pub(crate) fn token(text: &str, at: usize) -> Result<Option<Token<'_>>, usize> {
    let start = text.len() - text[at..].trim_start().len();
    let rest = &text[start..];
    let Some(sign) = rest.chars().next() else {
        return Ok(None);
    };
    let (kind, length) = if rest.starts_with("//") {
        (kind_of_comment(rest), rest.find('\n').unwrap_or(rest.len()))
    } else if rest.starts_with("/*") {
        (Kind::Comment, rest.find("*/").ok_or(start)? + 2)
    } else if let Some(length) = literal(rest) {
        (Kind::Literal, length)
    } else if sign.is_alphabetic() || sign == '_' {
        (Kind::Word, word(rest))
    } else if sign.is_ascii_punctuation() {
        (Kind::Mark, LONG.iter().find(|it| rest.starts_with(**it)).map_or(1, |it| it.len()))
    } else {
        return Err(start);
    };
    let at = start..start + length;
    Ok(Some(Token { kind, text: &text[at.clone()], at }))
}

fn kind_of_comment(rest: &str) -> Kind {
    if rest.starts_with("///") && !rest.starts_with("////") { Kind::Doc } else { Kind::Comment }
}

fn word(rest: &str) -> usize {
    rest.find(|it: char| !it.is_alphanumeric() && it != '_').unwrap_or(rest.len())
}

/// How long the literal is that a text begins with; None if it begins with none, or with one that does not end.
fn literal(rest: &str) -> Option<usize> {
    let bare = rest.strip_prefix('b').unwrap_or(rest);
    let before = rest.len() - bare.len();
    let hashes = bare.strip_prefix('r').map(|it| it.len() - it.trim_start_matches('#').len());
    if let Some(hashes) = hashes
        && bare[1 + hashes..].starts_with('"')
    {
        let closing = format!("\"{}", "#".repeat(hashes));
        let inside = 2 + hashes;
        return Some(before + inside + bare[inside..].find(&closing)? + closing.len());
    }
    match bare.chars().next()? {
        '"' => Some(before + quoted(bare, '"')?),
        '\'' => Some(before + sign_or_lifetime(bare)?),
        '0'..='9' if before == 0 => Some(number(bare)),
        _ => None,
    }
}

/// How long what stands between two of this quote is, with them.
fn quoted(rest: &str, quote: char) -> Option<usize> {
    let mut signs = rest.char_indices().skip(1);
    while let Some((at, sign)) = signs.next() {
        if sign == '\\' {
            signs.next()?;
        } else if sign == quote {
            return Some(at + 1);
        }
    }
    None
}

fn sign_or_lifetime(rest: &str) -> Option<usize> {
    let mut signs = rest.chars().skip(1);
    let (first, second) = (signs.next()?, signs.next());
    if first == '\\' || second == Some('\'') { quoted(rest, '\'') } else { Some(1 + word(&rest[1..])) }
}

/// A number with its suffix; of `1..2` it is the 1.
fn number(rest: &str) -> usize {
    let whole = word(rest);
    let mut behind = rest[whole..].chars();
    if behind.next() == Some('.') && behind.next().is_some_and(|it| it.is_ascii_digit()) { whole + 1 + word(&rest[whole + 1..]) } else { whole }
}
