//! Takes from a proved source what only the prover reads, and leaves Rust: each line keeps its number, and no word moves.
//!
//! It reads a file by the grammar of its items: what stands where no item, member, field or signature has it is a fault with its line, and no guess.
//! `tools/plain` does the same by another method, a filter of tokens, and the two are compared over all sources.
//!
//! | erased | what |
//! |---|---|
//! | contract | `requires` and `ensures` behind the signature of a function |
//! | ghost | `ghost use`, ghost members and ghost fields, with the comments of documentation before them |
//! | tactic | `#[tactic(..)]` and `#![tactic(..)]` |
//! | writer | the type parameter of a formatter, which that of core does not have: `<W: fmt::Write>` of a function and `<W>` of `Formatter<W>` |
//! | export | `#[unsafe(no_mangle)]` and `extern "C"` of a function that C calls: its wrapper in facade/lagc has them, with a pointer and a length for each slice |
//! | drop | an `impl Drop` whose `drop(self)` takes a value apart and binds nothing: no code |

mod antt;
mod items;
mod lexer;
mod place;
mod signature;
#[cfg(test)]
mod tests;
mod workspace;

pub use place::write_crate;
pub use workspace::{build, write_workspace};

use std::fmt;
use std::ops::Range;

/// Why a text is no source, and where.
#[derive(Clone, Debug, PartialEq, Eq)]
pub struct Fault {
    /// The line, from 1 on.
    pub line: usize,
    pub why: String,
}

impl fmt::Display for Fault {
    fn fmt(&self, f: &mut fmt::Formatter<'_>) -> fmt::Result {
        write!(f, "{}: {}", self.line, self.why)
    }
}

impl std::error::Error for Fault {}

/// The Rust that is left of a source: each sign that is erased is a space, and no line ends in spaces.
pub fn erased(text: &str) -> Result<String, Fault> {
    let spans = items::spans(text)?;
    let mut left = String::with_capacity(text.len());
    let mut signs = text.char_indices().peekable();
    let mut line_ends = 0;
    while let Some((at, sign)) = signs.next() {
        if sign == '\n' {
            left.truncate(line_ends);
            left.push('\n');
            line_ends = left.len();
        } else if sign.is_whitespace() || is_in(&spans, at) {
            left.push(if sign.is_whitespace() { sign } else { ' ' });
        } else {
            left.push(sign);
            line_ends = left.len();
        }
        if signs.peek().is_none() {
            left.truncate(line_ends);
        }
    }
    Ok(left)
}

fn is_in(spans: &[Range<usize>], at: usize) -> bool {
    let next = spans.partition_point(|it| it.end <= at);
    spans.get(next).is_some_and(|it| it.contains(&at))
}
