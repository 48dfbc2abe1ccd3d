// A search made from another by changing its gaps.
use crate::calls::Settings;
use crate::lists::{tokens, Token};
use crate::texts::{self, Chance};

// A place between two characters.
fn between_characters(chance: &mut Chance, text: &[u8]) -> usize {
    let mut at = chance.below(text.len() + 1);
    while at < text.len() && text[at] & 0xC0 == 0x80 {
        at -= 1;
    }
    at
}

fn insert(text: &mut Vec<u8>, at: usize, gap: &str) {
    text.splice(at..at, gap.bytes());
}

// Puts another gap, or none, in the place of one.
fn replace_gap(chance: &mut Chance, text: &mut Vec<u8>, tokens: &[Token]) {
    let gaps: Vec<&Token> = tokens.iter().filter(|token| token.is_gap()).collect();
    if gaps.is_empty() {
        return;
    }
    let gap = chance.pick(&gaps);
    let new = if chance.one_in(5) { String::new() } else { texts::gap(chance) };
    text.splice(gap.start..gap.start + gap.len, new.bytes());
}

fn insert_between_tokens(chance: &mut Chance, text: &mut Vec<u8>, tokens: &[Token]) {
    let at = if tokens.is_empty() { 0 } else { tokens[chance.below(tokens.len())].start };
    insert(text, at, &texts::gap(chance));
}

// Changes one blank wherever it stands, also within a string or a phrase.
fn replace_blank(chance: &mut Chance, text: &mut Vec<u8>) {
    let blanks: Vec<usize> = (0..text.len()).filter(|i| text[*i] == b' ' || text[*i] == b'\n').collect();
    if !blanks.is_empty() {
        let at = chance.pick(&blanks);
        text.splice(at..at + 1, texts::gap(chance).bytes());
    }
}

fn change_once(chance: &mut Chance, text: &mut Vec<u8>, settings: Settings) {
    let tokens = tokens(text, settings).unwrap_or_default();
    match chance.below(8) {
        0..=3 => replace_gap(chance, text, &tokens),
        4 => insert_between_tokens(chance, text, &tokens),
        5 => replace_blank(chance, text),
        6 => {
            let at = chance.pick(&[0, text.len()]);
            insert(text, at, &texts::gap(chance));
        }
        _ => {
            let at = between_characters(chance, text);
            insert(text, at, &texts::gap(chance));
        }
    }
}

pub fn changed(chance: &mut Chance, text: &[u8], settings: Settings) -> Vec<u8> {
    let mut other = text.to_vec();
    if std::str::from_utf8(text).is_ok() {
        for _ in 0..1 + chance.below(3) {
            change_once(chance, &mut other, settings);
        }
    }
    other
}
