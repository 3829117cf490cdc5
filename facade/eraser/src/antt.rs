//! The terms of a clause: how far one goes. Their words are not Rust's: a name is a run of all signs but spaces and `( ) { } . ; , @ " « »`, so that it may
//! have a prime; a comment begins with `--` as a word, or with `{-`; a text ends on its line.

/// Where the term in braces ends that begins at `at`; None if it does not end.
pub(crate) fn past_term(text: &str, at: usize) -> Option<usize> {
    let mut at = at;
    let mut depth = 0usize;
    loop {
        let rest = &text[at..];
        let sign = rest.chars().next()?;
        if rest.starts_with("{-") {
            at = past_comment(text, at)?;
            continue;
        }
        match sign {
            '{' => depth += 1,
            '}' => depth = depth.checked_sub(1)?,
            '"' => {
                at = past_text(text, at)?;
                continue;
            }
            _ if is_part_of_name(sign) => {
                let word = rest.find(|it| !is_part_of_name(it)).unwrap_or(rest.len());
                at += if rest.starts_with("--") { rest.find('\n')? } else { word };
                continue;
            }
            _ => {}
        }
        at += sign.len_utf8();
        if depth == 0 {
            return Some(at);
        }
    }
}

fn is_part_of_name(sign: char) -> bool {
    !sign.is_whitespace() && !"(){}.;,@\"«»".contains(sign)
}

/// `{- .. -}`, in which others may stand.
fn past_comment(text: &str, at: usize) -> Option<usize> {
    let mut at = at + 2;
    let mut depth = 1;
    while depth > 0 {
        let rest = text.get(at..)?;
        if rest.starts_with("{-") || rest.starts_with("-}") {
            depth = if rest.starts_with('{') { depth + 1 } else { depth - 1 };
            at += 2;
        } else {
            at += rest.chars().next()?.len_utf8();
        }
    }
    Some(at)
}

fn past_text(text: &str, at: usize) -> Option<usize> {
    let mut signs = text[at + 1..].char_indices();
    while let Some((place, sign)) = signs.next() {
        match sign {
            '"' => return Some(at + 1 + place + 1),
            '\\' => {
                signs.next()?;
            }
            '\n' => return None,
            _ => {}
        }
    }
    None
}
