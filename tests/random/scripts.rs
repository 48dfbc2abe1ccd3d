// Scripts of several searches at random: many `;`, and much that hides one or seems to.
use crate::texts::{self, Chance};

#[rustfmt::skip]
const PIECES: &[&str] = &[
    ";", ";", ";", ";", ";", ";", "'", "'", "\"", "`", "\\", "''", "';'", "'a;b'", "--", "#", "-", "/*", "*/", "/", "{", "}", "{;}",
    "\n", "\r\n", "\r", " ", "a", "b", "1", "?", "$1", "@", ":", "::", "[]", "=", "::::::", "x'", "x'\\';'", "N'", "E'", "[", "]", ".",
    "from", "SELECT", "é", "板", "；", "\u{37E}", "\0",
];

// Few pieces, three of them met more often.
fn small(chance: &mut Chance) -> Vec<u8> {
    let liked = [";", chance.pick(PIECES), chance.pick(PIECES), chance.pick(PIECES)];
    let most = chance.pick(&[3, 6, 12, 24]);
    let piece = |chance: &mut Chance| if chance.one_in(3) { chance.pick(PIECES) } else { chance.pick(&liked) };
    (0..chance.below(most + 1)).map(|_| piece(chance)).collect::<String>().into_bytes()
}

// Searches with a `;` between them.
fn joined(chance: &mut Chance) -> Vec<u8> {
    let searches: Vec<Vec<u8>> = (0..1 + chance.below(4)).map(|_| texts::search(chance)).collect();
    searches.join(&b';')
}

// One small script over and over, up to the longest text and beyond.
fn long(chance: &mut Chance) -> Vec<u8> {
    let mut part = small(chance);
    part.push(b';');
    let mut text = part.repeat(65600 / part.len() + 1);
    text.truncate(65536 - 20 + chance.below(40));
    text
}

fn damage(chance: &mut Chance, script: &mut Vec<u8>) {
    let places = [0, chance.below(script.len() + 1), script.len()];
    let at = chance.pick(&places);
    script.insert(at, chance.next() as u8 | 0x80);
}

pub fn script(chance: &mut Chance) -> Vec<u8> {
    if chance.one_in(20000) {
        return long(chance);
    }
    if chance.one_in(5) {
        return joined(chance);
    }
    let mut script = small(chance);
    if chance.one_in(50) {
        damage(chance, &mut script);
    }
    script
}
