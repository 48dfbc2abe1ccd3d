// The Rust's Params::get beside the lookup: `params_get --texts N --seed N`. Its src/params.rs is compiled as it stands, from
// the file that VENTPEELER_PARAMS_RS names at compile time. Keys are those that tokenise gives for texts at random. A case's
// `other` is the counter from which the first lookup starts.
#[path = "../calls.rs"]
mod calls;
#[path = "../random/lists.rs"]
mod lists;
mod lookup;
#[path = "../random/properties.rs"]
mod properties;
#[path = "../rattle_calls.rs"]
mod rattle_calls;
#[path = "../random/sheets.rs"]
mod sheets;
#[path = "../random/texts.rs"]
mod texts;
mod tokenizer;

#[allow(dead_code)]
mod params {
    include!(env!("VENTPEELER_PARAMS_RS"));

    // The counter is a private field.
    impl<'a> Params<'a> {
        pub fn from_index(index: usize, params: &'a QueryParams) -> Self {
            Params { index, params }
        }

        pub fn index(&self) -> usize {
            self.index
        }
    }
}

use calls::{DONE, PLACEHOLDER};
use lookup::{lookup, Looked};
use properties::*;
use sheets::{Sheet, INDEXED, NAMED, NONE};
use std::sync::atomic::{AtomicU64, Ordering::Relaxed};
use texts::Chance;
use tokenizer::{PlaceholderKind, Token};

// As the Rust's src/lib.rs has it.
pub enum QueryParams {
    Named(Vec<(String, String)>),
    Indexed(Vec<String>),
    None,
}

// The kinds of key in a record.
const NO_KEY: u32 = 0;
const NAME: u32 = 1;
const ESCAPED: u32 = 2;
const FROM_ZERO: u32 = 3;
const FROM_ONE: u32 = 4;

// What a sheet means; none where it is malformed.
fn query_params(sheet: &[u8]) -> Option<QueryParams> {
    let Sheet { kind, entries } = Sheet::read(sheet)?;
    let text = |bytes: Vec<u8>| String::from_utf8(bytes).unwrap();
    Some(match kind {
        NAMED => QueryParams::Named(entries.into_iter().map(|(name, value)| (text(name), text(value))).collect()),
        INDEXED => QueryParams::Indexed(entries.into_iter().map(|(_, value)| text(value)).collect()),
        _ => QueryParams::None,
    })
}

// As get_escaped_placeholder_key has it.
fn unescaped(key: &str, quote: &str) -> String {
    key.replace(&format!("\\{quote}"), quote)
}

// The Rust's token for a record.
fn rust_token<'a>(text: &'a str, token: &lists::Token) -> Token<'a> {
    let value = &text[token.start..token.start + token.len];
    let [kind, a, b] = token.key_words;
    let number = ((a as u64) << 32 | b as u64) as usize;
    let name = || &text[a as usize..][..b as usize];
    let key = match kind {
        NAME => PlaceholderKind::Named(name().into()),
        ESCAPED => PlaceholderKind::Named(unescaped(name(), &value[value.len() - 1..]).into()),
        FROM_ZERO => PlaceholderKind::ZeroIndexed(number),
        FROM_ONE => PlaceholderKind::OneIndexed(number),
        _ => return Token { value, key: None },
    };
    Token { value, key: Some(key) }
}

// A get: what stands for the token, with the counter as it is after it.
type Get = for<'a> fn(&'a QueryParams, usize, &'a Token<'a>) -> (&'a str, usize);

fn rust_get<'a>(params: &'a QueryParams, index: usize, token: &'a Token<'a>) -> (&'a str, usize) {
    let mut params = params::Params::from_index(index, params);
    (params.get(token), params.index())
}

fn keeps_the_text<'a>(params: &'a QueryParams, index: usize, token: &'a Token<'a>) -> (&'a str, usize) {
    (token.value, rust_get(params, index, token).1)
}

fn counts_every_one<'a>(params: &'a QueryParams, index: usize, token: &'a Token<'a>) -> (&'a str, usize) {
    (rust_get(params, index, token).0, index + 1)
}

fn takes_the_last_name<'a>(params: &'a QueryParams, index: usize, token: &'a Token<'a>) -> (&'a str, usize) {
    let (QueryParams::Named(entries), Some(key)) = (params, &token.key) else { return rust_get(params, index, token) };
    let last = entries.iter().rev().find(|entry| entry.0 == key.named());
    (last.map_or(token.value, |entry| entry.1.as_str()), index)
}

// One get and one lookup, from the same counter.
fn compared(case: &Case, params: &QueryParams, place: usize, token: &Token, index: usize, get: Get) -> Verdict {
    let (part, counter) = get(params, index, token);
    let expected = Looked { number: DONE, detail: part.len() as u64, counter: counter as u64, part: part.into() };
    let looked = lookup(&case.text, case.settings, &case.sheet, place, index as u64);
    holds(looked == expected, || format!("token {place}: {looked:?}, not {expected:?}"))
}

// The lookups that were held to the Rust's get.
static COMPARED: AtomicU64 = AtomicU64::new(0);

// All placeholders of a text whose key is of a kind, with a sheet of a kind; the counter goes on as the Rust's does. With an
// indexed sheet a one-indexed zero overflows in the Rust, and is left out.
fn agrees(case: &Case, key_kind: Option<u32>, sheet_kind: Option<u8>, get: Get) -> Verdict {
    if sheet_kind.is_some_and(|kind| case.sheet.first() != Some(&kind)) {
        return Aside;
    }
    let Some(params) = query_params(&case.sheet) else { return Aside };
    let Some(tokens) = lists::tokens(&case.text, case.settings) else { return Aside };
    let text = std::str::from_utf8(&case.text).unwrap();
    let mut index = case.other.iter().rev().fold(0, |n, byte| n << 8 | *byte as usize);
    let mut verdict = Aside;
    for (place, token) in tokens.iter().enumerate().filter(|(_, token)| token.kind == PLACEHOLDER) {
        let overflows = token.key_words == [FROM_ONE, 0, 0] && matches!(params, QueryParams::Indexed(_));
        if overflows {
            continue;
        }
        let rust = rust_token(text, token);
        if key_kind.is_none_or(|kind| token.key_words[0] == kind) {
            verdict = compared(case, &params, place, &rust, index, get);
            COMPARED.fetch_add(key_kind.is_some() as u64, Relaxed);
        }
        if let Fails(_) = verdict {
            return verdict;
        }
        index = rust_get(&params, index, &rust).1;
    }
    verdict
}

fn get_agrees<const KEY: u32, const SHEET: u8>(case: &Case) -> Verdict {
    agrees(case, Some(KEY), Some(SHEET), rust_get)
}

fn wrong_keeps_the_text(case: &Case) -> Verdict {
    agrees(case, None, None, keeps_the_text)
}

fn wrong_counts_every_one(case: &Case) -> Verdict {
    agrees(case, None, None, counts_every_one)
}

fn wrong_takes_the_last_name(case: &Case) -> Verdict {
    agrees(case, None, None, takes_the_last_name)
}

// Mostly 0; never so large that the Rust's counter overflows.
fn counter(chance: &mut Chance) -> Vec<u8> {
    let counter: u64 = chance.pick(&[0, 0, 0, 0, 1, 2, 3, 5, 1 << 32, u64::MAX - (1 << 20)]);
    counter.to_le_bytes().to_vec()
}

// Sheets of 65,535 or 65,536 bytes: many values, one long one, one with a long name.
fn limits() -> Vec<Case> {
    let case = |text: String, kind: u8, entries: Vec<(Vec<u8>, Vec<u8>)>| {
        let sheet = Sheet { kind, entries }.bytes();
        Case { settings: [0, 0, 0], text: text.into_bytes(), other: Vec::new(), sheet }
    };
    let digit = |i: usize| (Vec::new(), vec![b'0' + (i % 10) as u8]);
    let name = "n".repeat(30_000);
    vec![
        case("?0 $1 ? ?21843 $21844 ? ?21844 $21845 ?".to_string(), INDEXED, (0..21_844).map(digit).collect()),
        case("? $1 ?0 ?".to_string(), INDEXED, vec![(Vec::new(), vec![b'v'; 65_531])]),
        case(format!("{{{name}}} :{name} {{{}}}", &name[1..5_000]), NAMED, vec![(name.into_bytes(), vec![b'v'; 35_529])]),
    ]
}

fn main() {
    let (count, seed) = asked_for(100_000);
    let mut properties = [
        right("no key, no values", get_agrees::<NO_KEY, NONE>),
        right("no key, named values", get_agrees::<NO_KEY, NAMED>),
        right("no key, indexed values", get_agrees::<NO_KEY, INDEXED>),
        right("a name, no values", get_agrees::<NAME, NONE>),
        right("a name, named values", get_agrees::<NAME, NAMED>),
        right("a name, indexed values", get_agrees::<NAME, INDEXED>),
        right("a name with escapes, no values", get_agrees::<ESCAPED, NONE>),
        right("a name with escapes, named values", get_agrees::<ESCAPED, NAMED>),
        right("a name with escapes, indexed values", get_agrees::<ESCAPED, INDEXED>),
        right("a number from 0, no values", get_agrees::<FROM_ZERO, NONE>),
        right("a number from 0, named values", get_agrees::<FROM_ZERO, NAMED>),
        right("a number from 0, indexed values", get_agrees::<FROM_ZERO, INDEXED>),
        right("a number from 1, no values", get_agrees::<FROM_ONE, NONE>),
        right("a number from 1, named values", get_agrees::<FROM_ONE, NAMED>),
        right("a number from 1, indexed values", get_agrees::<FROM_ONE, INDEXED>),
        wrong("WRONG: every placeholder keeps its text", wrong_keeps_the_text),
        wrong("WRONG: every placeholder is counted", wrong_counts_every_one),
        wrong("WRONG: of equal names the last is taken", wrong_takes_the_last_name),
    ];
    let mut chance = Chance::new(seed);
    for _ in 0..count {
        let settings = texts::settings(&mut chance);
        let (text, sheet) = (sheets::search(&mut chance), sheets::sheet(&mut chance));
        ask_all(&mut properties, &Case { settings, text, other: counter(&mut chance), sheet });
    }
    for case in limits() {
        ask_all(&mut properties, &case);
    }
    println!("{} lookups beside the Rust's Params::get", COMPARED.load(Relaxed));
    tell_all(&properties);
}
