// The list of tokens that a text has, as two lists are compared, and the refusals of a text.
#![allow(dead_code)]

use crate::calls::{self, Answer, Settings, DONE, LINE_COMMENT, MOST, NOT_UTF8, OVERLONG, RECORD, SETTING, WHITESPACE};

#[derive(Clone, PartialEq, Debug)]
pub enum Key {
    None,
    Named(Vec<u8>),
    ZeroIndexed(u64),
    OneIndexed(u64),
}

#[derive(Clone, Debug)]
pub struct Token {
    pub kind: u32,
    pub start: usize,
    pub len: usize,
    pub alias: usize,
    pub key: Key,
    // the key's words as they stand in the record
    pub key_words: [u32; 3],
    pub level: u32,
}

impl Token {
    pub fn value<'a>(&self, text: &'a [u8]) -> &'a [u8] {
        &text[self.start..self.start + self.len]
    }

    pub fn is_gap(&self) -> bool {
        self.kind == WHITESPACE
    }
}

// The refusal that all calls share, by document 01's table.
pub fn refusal(text: &[u8], [dialect, joins, named]: Settings) -> Option<Answer> {
    if dialect > 2 || joins > 1 || named > 1 {
        return Some((SETTING, 0));
    }
    if text.len() > MOST {
        return Some((OVERLONG, text.len() as u64));
    }
    let error = std::str::from_utf8(text).err()?;
    Some((NOT_UTF8, error.valid_up_to() as u64))
}

pub fn records(text: &[u8], settings: Settings) -> (Answer, Vec<u8>) {
    let mut table = vec![0; text.len() * RECORD];
    let answer = calls::tokenize(text, settings, &mut table);
    (answer, table)
}

// The text of a named key: where a backslash stands before a byte like the closing quote, it goes.
fn undone(key: &[u8], quote: u8) -> Vec<u8> {
    let mut text = Vec::new();
    let mut i = 0;
    while i < key.len() {
        if key[i] == b'\\' && key.get(i + 1) == Some(&quote) {
            i += 1;
        }
        text.push(key[i]);
        i += 1;
    }
    text
}

fn key(text: &[u8], kind: u32, a: u32, b: u32) -> Option<Key> {
    let number = (a as u64) << 32 | b as u64;
    let (from, to) = (a as usize, a as usize + b as usize);
    Some(match kind {
        0 if number == 0 => Key::None,
        1 => Key::Named(text.get(from..to)?.to_vec()),
        2 => Key::Named(undone(text.get(from..to)?, *text.get(to)?)),
        3 => Key::ZeroIndexed(number),
        4 => Key::OneIndexed(number),
        _ => return None,
    })
}

fn token(text: &[u8], record: &[u8]) -> Option<Token> {
    let word = |i: usize| u32::from_le_bytes(record[4 * i..4 * i + 4].try_into().unwrap());
    let key = key(text, word(4), word(5), word(6))?;
    Some(Token {
        kind: word(0),
        start: word(1) as usize,
        len: word(2) as usize,
        alias: word(3) as usize,
        key,
        key_words: [word(4), word(5), word(6)],
        level: word(7),
    })
}

// The tokens, gaps among them; none where the call is refused or a record makes no sense.
pub fn tokens(text: &[u8], settings: Settings) -> Option<Vec<Token>> {
    let ((number, count), table) = records(text, settings);
    if number != DONE {
        return None;
    }
    table.chunks(RECORD).take(count as usize).map(|record| token(text, record)).collect()
}

// A gap's sort: its first CR or LF is a CR without LF.
fn is_returning(gap: &[u8]) -> bool {
    let end = gap.iter().position(|b| *b == b'\r' || *b == b'\n').unwrap_or(gap.len());
    gap[end..].starts_with(b"\r") && !gap[end..].starts_with(b"\r\n")
}

// What must agree: the tokens without the gaps, and the places and sorts of the gaps that count. No gap does before the first
// token, and behind the last one only a gap that returns.
#[derive(PartialEq, Debug)]
pub struct List {
    pub tokens: Vec<(u32, Vec<u8>, usize, Key)>,
    gaps: Vec<(usize, bool)>,
}

pub fn list(text: &[u8], settings: Settings) -> Option<List> {
    let mut list = List { tokens: Vec::new(), gaps: Vec::new() };
    for token in tokens(text, settings)? {
        if token.is_gap() {
            list.gaps.push((list.tokens.len(), is_returning(token.value(text))));
        } else {
            list.tokens.push((token.kind, token.value(text).to_vec(), token.alias, token.key));
        }
    }
    let all = list.tokens.len();
    list.gaps.retain(|(place, returning)| *place != 0 && (*place != all || *returning));
    Some(list)
}

// Each value in order; a gap becomes one LF after a line comment, else `returned` where it returns, else one space. A gap
// before the first token goes, and so does one behind the last, unless it became a CR.
fn tight_where(text: &[u8], tokens: &[Token], returned: u8) -> Vec<u8> {
    let mut tight = Vec::new();
    let mut before: Option<u32> = None;
    let mut due = None;
    for token in tokens {
        if token.is_gap() {
            due = before.map(|kind| match (kind, is_returning(token.value(text))) {
                (LINE_COMMENT, _) => b'\n',
                (_, true) => returned,
                (_, false) => b' ',
            });
            continue;
        }
        tight.extend(due.take());
        tight.extend_from_slice(token.value(text));
        before = Some(token.kind);
    }
    tight.extend(due.filter(|b| *b == b'\r'));
    tight
}

pub fn tight_by_rule(text: &[u8], tokens: &[Token]) -> Vec<u8> {
    tight_where(text, tokens, b'\r')
}

// As if a gap that returns became a space, as others do.
pub fn tight_with_spaces(text: &[u8], tokens: &[Token]) -> Vec<u8> {
    tight_where(text, tokens, b' ')
}

// The tight text, never longer than the search; none where the call is refused.
pub fn tight(text: &[u8], settings: Settings) -> Option<Vec<u8>> {
    let mut output = vec![0; text.len()];
    let (number, length) = calls::tighten(text, settings, &mut output);
    output.truncate(length as usize);
    (number == DONE).then_some(output)
}
