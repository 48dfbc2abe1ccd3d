// Value sheets at random, most of them well formed, and searches to fill.
#![allow(dead_code)]

use crate::calls::MOST;
use crate::texts::{self, Chance};

pub const NONE: u8 = 0;
pub const NAMED: u8 = 1;
pub const INDEXED: u8 = 2;

// The entries of a well-formed sheet: names (empty where indexed) and values.
#[derive(Clone)]
pub struct Sheet {
    pub kind: u8,
    pub entries: Vec<(Vec<u8>, Vec<u8>)>,
}

impl Sheet {
    pub fn bytes(&self) -> Vec<u8> {
        let mut bytes = vec![self.kind];
        let put = |bytes: &mut Vec<u8>, n: usize| bytes.extend_from_slice(&(n as u16).to_le_bytes());
        put(&mut bytes, self.entries.len());
        for (name, value) in &self.entries {
            if self.kind == NAMED {
                put(&mut bytes, name.len());
            }
            put(&mut bytes, value.len());
        }
        for (name, value) in &self.entries {
            bytes.extend_from_slice(name);
            bytes.extend_from_slice(value);
        }
        bytes
    }

    // What the bytes mean; none where they are malformed.
    pub fn read(bytes: &[u8]) -> Option<Sheet> {
        if bytes.len() < 3 || bytes.len() > MOST || bytes[0] > INDEXED {
            return None;
        }
        let kind = bytes[0];
        let number = |at: usize| Some(u16::from_le_bytes(bytes.get(at..at + 2)?.try_into().unwrap()) as usize);
        let count = number(1)?;
        if kind == NONE && count > 0 {
            return None;
        }
        let each = if kind == NAMED { 2 } else { 1 };
        let mut body = 3 + 2 * each * count;
        let mut entries = Vec::new();
        for i in 0..count {
            let mut bodies = vec![Vec::new(); 3 - each];
            for k in 0..each {
                let end = body + number(3 + 2 * (i * each + k))?;
                let text = std::str::from_utf8(bytes.get(body..end)?).ok()?;
                bodies.push(text.as_bytes().to_vec());
                body = end;
            }
            let value = bodies.pop()?;
            entries.push((bodies.pop()?, value));
        }
        (body == bytes.len()).then_some(Sheet { kind, entries })
    }
}

const NAMES: &[&str] = &["", "a", "b", "c", "c d", "k", "k'k", "k\"", "k``", "k]]", "a.b", "1", "2a", "$", "é", "板"];
const VALUES: &[&str] = &["", "7", "8", "'F1'", "?", "35", "板坯", "é", "a value of some length", "$1"];

pub fn sheet(chance: &mut Chance) -> Vec<u8> {
    let kind = chance.pick(&[NONE, NAMED, NAMED, INDEXED, INDEXED, INDEXED]);
    let count = if kind == NONE { 0 } else { chance.below(6) };
    let entry = |chance: &mut Chance| {
        let name = if kind == NAMED { chance.pick(NAMES) } else { "" };
        (name.as_bytes().to_vec(), chance.pick(VALUES).as_bytes().to_vec())
    };
    let mut bytes = Sheet { kind, entries: (0..count).map(|_| entry(chance)).collect() }.bytes();
    if chance.one_in(8) {
        damage(chance, &mut bytes);
    }
    bytes
}

fn damage(chance: &mut Chance, sheet: &mut Vec<u8>) {
    let at = chance.below(sheet.len());
    match chance.below(5) {
        0 => sheet.truncate(at),
        1 => sheet[at] = chance.next() as u8,
        2 => sheet[at] = sheet[at].wrapping_add(1),
        3 => sheet.insert(at, chance.next() as u8),
        _ => sheet.resize(MOST - 1 + chance.below(4), b'v'),
    }
}

// A search in which placeholders are frequent.
pub fn search(chance: &mut Chance) -> Vec<u8> {
    let mut text = texts::search(chance);
    for _ in 0..chance.below(4) {
        let more = [" ?", " $1 ", " ?1 ", ",:a", " {c d}", " @'k\\'k' ", " @'' ", " $0 ", " ? "];
        text.extend_from_slice(chance.pick(&more).as_bytes());
    }
    text
}
