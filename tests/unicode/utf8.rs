// UTF-8 validation and the character at a place, compared with rustc's own std::str::from_utf8 and str::chars.
mod unicode;

// Where from_utf8 stops; the length of a text that is well formed.
fn valid_up_to(text: &[u8]) -> usize {
    std::str::from_utf8(text).map_or_else(|e| e.valid_up_to(), |_| text.len())
}

fn same(text: &[u8]) -> bool {
    unicode::first_ill_formed(text) == valid_up_to(text)
}

// The sequence alone and inside longer texts: around the sixteen bytes that are passed as one block, between characters of
// two, three and four bytes, and at the text's end.
fn same_everywhere(sequence: &[u8]) -> bool {
    let contexts: [(&[u8], &[u8]); 8] = [
        (b"", b""),
        (b"a", b"z"),
        (b"0123456789abcde", b"f"),
        (b"0123456789abcdef", b"0123456789abcdef"),
        (b"0123456789abcdefg", b""),
        ("é".as_bytes(), "é".as_bytes()),
        ("漢".as_bytes(), "漢".as_bytes()),
        ("😀".as_bytes(), b"0123456789abcdef0123456789abcdef"),
    ];
    let mut text = [0u8; 64];
    contexts.iter().all(|(before, after)| {
        let (a, b) = (before.len(), before.len() + sequence.len());
        let end = b + after.len();
        text[..a].copy_from_slice(before);
        text[a..b].copy_from_slice(sequence);
        text[b..end].copy_from_slice(after);
        same(&text[..end])
    })
}

// Reads a text through as its tokenizer does, and compares each character with Rust's.
fn same_characters(text: &str) -> bool {
    let bytes = text.as_bytes();
    text.char_indices().all(|(at, c)| {
        unicode::code_point(bytes, at) == c as u32 && unicode::character_length(bytes, at) == c.len_utf8()
    })
}

struct Random(u64);

impl Random {
    fn below(&mut self, n: u64) -> u64 {
        self.0 = self.0.wrapping_mul(6364136223846793005).wrapping_add(1442695040888963407);
        (self.0 >> 33) % n
    }

    fn text(&mut self) -> Vec<u8> {
        let mut text = String::new();
        for _ in 0..self.below(60) {
            let most = [0x80, 0x80, 0x800, 0x10000, 0x110000][self.below(5) as usize];
            text.extend(char::from_u32(self.below(most) as u32));
        }
        let mut bytes = text.into_bytes();
        for _ in 0..self.below(3) {
            if !bytes.is_empty() {
                let at = self.below(bytes.len() as u64) as usize;
                bytes[at] = self.below(256) as u8;
            }
        }
        bytes
    }
}

fn short_sequences() -> bool {
    let mut ok = same_everywhere(&[]);
    for a in 0..=255 {
        ok &= same_everywhere(&[a]);
        for b in 0..=255 {
            ok &= same_everywhere(&[a, b]);
            for c in 0..=255 {
                ok &= same_everywhere(&[a, b, c]);
            }
        }
    }
    ok
}

// Each end of a range of table 3-7 and its neighbours.
fn boundaries() -> Vec<u8> {
    let ends = [0x00u8, 0x7F, 0x80, 0x8F, 0x90, 0x9F, 0xA0, 0xBF, 0xC2, 0xDF, 0xE0, 0xE1, 0xEC, 0xED, 0xEE, 0xEF, 0xF0, 0xF1, 0xF3, 0xF4, 0xFF];
    let mut bytes: Vec<u8> = ends.iter().flat_map(|e| [e.wrapping_sub(1), *e, e.wrapping_add(1)]).collect();
    bytes.sort();
    bytes.dedup();
    bytes
}

fn four_byte_sequences() -> bool {
    let bytes = boundaries();
    let mut ok = true;
    for a in bytes.iter().filter(|b| **b >= 0xE0) {
        for b in &bytes {
            for c in &bytes {
                for d in &bytes {
                    ok &= same_everywhere(&[*a, *b, *c, *d]);
                }
            }
        }
    }
    ok
}

fn every_scalar_value() -> bool {
    (0..=0x10FFFF).filter_map(char::from_u32).all(|c| {
        let mut buffer = [0; 4];
        let text = c.encode_utf8(&mut buffer);
        same_everywhere(text.as_bytes()) && same_characters(&format!("a{c}b{c}{c}"))
    })
}

fn random_texts() -> bool {
    let mut random = Random(2026);
    (0..200_000).all(|_| {
        let text = random.text();
        same(&text) && std::str::from_utf8(&text).map_or(true, same_characters)
    })
}

// On any bytes a character has a byte at least, none past the end, and none but continuation bytes after its first.
fn total_on_any_bytes() -> bool {
    let whole = |text: &[u8]| {
        (0..text.len()).all(|at| {
            let n = unicode::character_length(text, at);
            n >= 1 && at + n <= text.len() && text[at + 1..at + n].iter().all(|b| (0x80..0xC0).contains(b))
        }) && (text.len()..text.len() + 3).all(|at| unicode::character_length(text, at) == 0 && unicode::code_point(text, at) == 0)
            && unicode::character_length(text, usize::MAX) == 0
    };
    let bytes = boundaries();
    let mut ok = whole(b"");
    for a in 0..=255 {
        for b in &bytes {
            for c in &bytes {
                ok &= whole(&[a, *b, *c]) && whole(&[a, *b, *c, 0x80]) && whole(&[a, *b, *c, 0x41, 0xBF]);
            }
        }
    }
    ok
}

fn main() {
    let tests: [(&str, fn() -> bool); 5] = [
        ("every sequence of up to three bytes stops where from_utf8 does", short_sequences),
        ("so does every four-byte sequence around the ends of table 3-7", four_byte_sequences),
        ("every scalar value is accepted and read back", every_scalar_value),
        ("random texts, whole and damaged", random_texts),
        ("a character is defined on any bytes", total_on_any_bytes),
    ];
    let mut failed = 0;
    for (name, test) in tests {
        let passed = test();
        failed += !passed as usize;
        println!("{} {name}", if passed { "ok    " } else { "FAILED" });
    }
    println!("{} passed, {failed} failed", tests.len() - failed);
}
