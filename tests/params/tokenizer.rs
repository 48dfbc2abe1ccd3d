// The token types that src/params.rs asks for, as the Rust's src/tokenizer.rs has them: what Params::get looks at, and no more.
use std::borrow::Cow;

pub(crate) struct Token<'a> {
    pub value: &'a str,
    pub key: Option<PlaceholderKind<'a>>,
}

pub(crate) enum PlaceholderKind<'a> {
    Named(Cow<'a, str>),
    ZeroIndexed(usize),
    OneIndexed(usize),
}

impl<'a> PlaceholderKind<'a> {
    pub fn named(&'a self) -> &'a str {
        match self {
            PlaceholderKind::Named(val) => val.as_ref(),
            _ => "",
        }
    }

    pub fn indexed(&self) -> Option<usize> {
        match self {
            PlaceholderKind::ZeroIndexed(val) => Some(*val),
            PlaceholderKind::OneIndexed(val) => Some(*val - 1),
            _ => None,
        }
    }
}
