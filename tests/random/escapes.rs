// How many quotes of a token are escaped, told from its kind and its value alone and in another way than by walking: between the
// quotes no quote stands but in a pair.
use crate::calls::{PLACEHOLDER, STRING};

fn quotes(text: &str, quote: char) -> u64 {
    text.chars().filter(|c| *c == quote).count() as u64
}

// Each quote that is left stands behind a backslash, or another one behind it.
fn either(text: &str, quote: char) -> u64 {
    let Some(at) = text.find(quote) else { return 0 };
    let behind = if text[..at].ends_with('\\') { 1 } else { 2 };
    1 + either(&text[at + behind..], quote)
}

// What stands between the quotes, and the closing one.
fn inside(string: &str) -> Option<(&str, char)> {
    let quote = string.chars().last()?;
    let opener = if string.starts_with(['N', 'E']) { 2 } else { 1 };
    Some((string.get(opener..string.len() - 1)?, quote))
}

fn in_string(value: &str) -> u64 {
    match inside(value) {
        _ if value.starts_with(['x', 'X']) => 0,
        Some((text, quote @ ('`' | ']'))) => quotes(text, quote) / 2,
        Some((text, quote)) => either(text, quote),
        None => 0,
    }
}

fn in_placeholder(value: &str) -> u64 {
    let Some(string) = value.strip_prefix(['@', ':']) else { return 0 };
    match inside(string) {
        Some((text, quote @ ('`' | ']'))) => quotes(text, quote) / 2,
        Some((text, quote @ ('\'' | '"'))) => quotes(text, quote),
        _ => 0,
    }
}

pub fn escaped_in(kind: u32, value: &str) -> u64 {
    match kind {
        STRING => in_string(value),
        PLACEHOLDER => in_placeholder(value),
        _ => 0,
    }
}
