// Properties of tokenize and tighten that need no second reading, over texts at random: `random_reading --texts N --seed N`.
// The wrong properties at the end show that a false one is found out.
#[path = "../calls.rs"]
mod calls;
mod escapes;
mod gaps;
mod lists;
mod properties;
mod texts;

use calls::*;
use escapes::escaped_in;
use lists::{list, records, refusal, tight, tight_by_rule, tight_with_spaces, tokens, Key, Token};
use properties::*;
use texts::Chance;

const GUARD: u8 = 0xA5;

fn refuses(case: &Case) -> Verdict {
    let mut lent = vec![GUARD; 3 * RECORD + 5];
    let read = tokenize(&case.text, case.settings, &mut lent);
    let kept = read.0 == DONE || lent.iter().all(|b| *b == GUARD);
    lent.fill(GUARD);
    let tightened = tighten(&case.text, case.settings, &mut lent);
    let kept = kept && (tightened.0 == DONE || lent.iter().all(|b| *b == GUARD));
    let as_told = match refusal(&case.text, case.settings) {
        Some(answer) => read == answer && tightened == answer,
        None => [DONE, TABLE_FULL].contains(&read.0) && [DONE, OUTPUT_FULL].contains(&tightened.0),
    };
    holds(as_told && kept, || format!("answered {:?} and {:?}; kept: {}", read, tightened, kept))
}

// Asks a property of the tokens of an accepted text.
fn of_tokens(case: &Case, test: fn(&str, &[Token]) -> bool) -> Verdict {
    if refusal(&case.text, case.settings).is_some() {
        return Aside;
    }
    match (std::str::from_utf8(&case.text), tokens(&case.text, case.settings)) {
        (Ok(text), Some(tokens)) => holds(test(text, &tokens), || format!("{:?}", tokens)),
        _ => Fails("refused, or a key without sense".to_string()),
    }
}

fn laid_end_to_end(case: &Case) -> Verdict {
    of_tokens(case, |text, tokens| {
        let mut end = 0;
        tokens.iter().all(|token| {
            let start = end;
            end += token.len;
            token.start == start && token.len > 0
        }) && end == text.len()
    })
}

fn key_is_inside(text: &str, token: &Token) -> bool {
    let [kind, a, b] = token.key_words;
    let (a, b) = (a as usize, b as usize);
    let inside = token.start < a && a + b <= token.start + token.len;
    !(1..=2).contains(&kind) || inside && text.is_char_boundary(a) && text.is_char_boundary(a + b)
}

fn between_characters(case: &Case) -> Verdict {
    of_tokens(case, |text, tokens| {
        tokens.iter().all(|token| {
            [0, token.len, token.alias].iter().all(|n| text.is_char_boundary(token.start + n))
                && token.alias <= token.len
                && key_is_inside(text, token)
        })
    })
}

fn kinds_are_known(case: &Case) -> Verdict {
    of_tokens(case, |_, tokens| {
        tokens.iter().all(|token| token.kind <= 15 && (token.kind == PLACEHOLDER || token.key == Key::None))
    })
}

// A top-level phrase typed with CREATE or SELECT stands for itself by that word; else the alias is the value.
fn aliases(case: &Case) -> Verdict {
    of_tokens(case, |text, tokens| {
        tokens.iter().all(|token| {
            let value = &text[token.start..token.start + token.len];
            let by_word = token.kind == TOP_LEVEL && (value.starts_with("CREATE") || value.starts_with("SELECT"));
            token.alias == if by_word { 6 } else { token.len }
        })
    })
}

// A gap is all of a run of White_Space, and no other token starts with any.
fn gaps_are_white_space(case: &Case) -> Verdict {
    of_tokens(case, |text, tokens| {
        let apart = tokens.windows(2).all(|pair| !(pair[0].is_gap() && pair[1].is_gap()));
        apart
            && tokens.iter().all(|token| {
                let value = &text[token.start..token.start + token.len];
                if token.is_gap() {
                    value.chars().all(char::is_whitespace)
                } else {
                    !value.starts_with(char::is_whitespace)
                }
            })
    })
}

// What the kinds before a token sum up to, parens opened less parens closed, less the lowest such sum so far, if that is below 0.
fn levels_by_sums(case: &Case) -> Verdict {
    of_tokens(case, |_, tokens| {
        let (mut sum, mut lowest) = (0i64, 0i64);
        tokens.iter().all(|token| {
            let level = sum - lowest;
            sum += (token.kind == OPEN_PAREN) as i64 - (token.kind == CLOSE_PAREN) as i64;
            lowest = lowest.min(sum);
            token.level as i64 == level
        })
    })
}

fn wrong_levels_closed_before(case: &Case) -> Verdict {
    of_tokens(case, |_, tokens| {
        tokens.windows(2).all(|pair| pair[1].kind != CLOSE_PAREN || pair[0].kind != OPEN_PAREN || pair[1].level == pair[0].level)
    })
}

// The escaped quotes that tokenize tells of an accepted text; a table with room for all tokens.
fn escaped_told(text: &[u8], settings: Settings) -> Option<u64> {
    let mut table = vec![0; text.len() * RECORD];
    match tokenize_escaped(text, settings, &mut table) {
        ((DONE, _), escaped) => Some(escaped),
        _ => None,
    }
}

fn escaped_as(case: &Case, count: fn(u32, &str) -> u64) -> Verdict {
    let (Some(told), Some(tokens)) = (escaped_told(&case.text, case.settings), tokens(&case.text, case.settings)) else {
        return Aside;
    };
    let value = |token: &Token| std::str::from_utf8(token.value(&case.text)).unwrap_or("").to_string();
    let counted: u64 = tokens.iter().map(|token| count(token.kind, &value(token))).sum();
    holds(told == counted, || format!("{} are told, and the values have {}", told, counted))
}

fn escaped_by_value(case: &Case) -> Verdict {
    escaped_as(case, escaped_in)
}

fn tight_has_the_escapes(case: &Case) -> Verdict {
    let Some(tight) = tight(&case.text, case.settings) else { return Aside };
    let told = [&case.text, &tight].map(|text| escaped_told(text, case.settings));
    holds(told[0] == told[1], || format!("{:?}", told))
}

// Those in strings alone.
fn escaped_by_half(kind: u32, value: &str) -> u64 {
    if kind == STRING { escaped_in(kind, value) } else { 0 }
}

fn wrong_no_placeholders(case: &Case) -> Verdict {
    escaped_as(case, escaped_by_half)
}

fn wrong_backslashes_alone(case: &Case) -> Verdict {
    escaped_as(case, |kind, value| if kind == STRING || kind == PLACEHOLDER { value.matches('\\').count() as u64 } else { 0 })
}

// The calls with so many bytes lent: the answer is right, what lies past the written part is kept, nothing is written under a
// refusal.
fn room_is_told(case: &Case, record: usize, call: fn(&[u8], Settings, &mut [u8]) -> Answer, full: u64) -> Verdict {
    let (number, needed) = call(&case.text, case.settings, &mut []);
    if number != full && number != DONE {
        return Aside;
    }
    let exact = needed as usize * record;
    for lent in [exact, exact + record - 1, exact + 3 * record, exact.saturating_sub(1), exact / 2] {
        let mut room = vec![GUARD; lent];
        let answer = call(&case.text, case.settings, &mut room);
        let (expected, written) = if lent < exact { ((full, needed), 0) } else { ((DONE, needed), exact) };
        if answer != expected || room[written..].iter().any(|b| *b != GUARD) {
            return Fails(format!("with {} bytes of {}: {:?}", lent, exact, answer));
        }
    }
    Holds
}

fn table_is_told(case: &Case) -> Verdict {
    room_is_told(case, RECORD, tokenize, TABLE_FULL)
}

fn output_is_told(case: &Case) -> Verdict {
    room_is_told(case, 1, tighten, OUTPUT_FULL)
}

// Two buffers that differ in every byte: what is written is the same.
fn content_is_no_matter(case: &Case) -> Verdict {
    for (record, call) in [(RECORD, tokenize as fn(&[u8], Settings, &mut [u8]) -> Answer), (1, tighten)] {
        let mut first: Vec<u8> = (0..case.text.len() * record).map(|i| (i * 7) as u8).collect();
        let mut second: Vec<u8> = first.iter().map(|b| !b).collect();
        let answers = [call(&case.text, case.settings, &mut first), call(&case.text, case.settings, &mut second)];
        let written = if answers[0].0 == DONE { answers[0].1 as usize * record } else { 0 };
        let kept = first[written..].iter().zip(&second[written..]).all(|(a, b)| *a == !*b);
        if answers[0] != answers[1] || first[..written] != second[..written] || !kept {
            return Fails(format!("{:?}", answers));
        }
    }
    Holds
}

// Joins given out as top level or newline: nothing else changes.
fn joins_change_kinds_alone(case: &Case) -> Verdict {
    let [dialect, _, named] = case.settings;
    let (Some(newline), Some(top)) = (tokens(&case.text, [dialect, 0, named]), tokens(&case.text, [dialect, 1, named]))
    else {
        return Aside;
    };
    let same = |(a, b): (&Token, &Token)| {
        (a.kind == b.kind || a.kind == NEWLINE && b.kind == TOP_LEVEL)
            && (a.start, a.len, a.alias) == (b.start, b.len, b.alias)
            && a.key == b.key
    };
    holds(newline.len() == top.len() && newline.iter().zip(&top).all(same), || "they differ in more".to_string())
}

fn tight_is_by_rule(case: &Case) -> Verdict {
    let Some(tokens) = tokens(&case.text, case.settings) else { return Aside };
    let expected = tight_by_rule(&case.text, &tokens);
    holds(tight(&case.text, case.settings).as_ref() == Some(&expected), || {
        format!("not {:?}", expected.escape_ascii().to_string())
    })
}

fn tight_has_the_tokens(case: &Case) -> Verdict {
    let Some(own) = list(&case.text, case.settings) else { return Aside };
    let Some(tight) = tight(&case.text, case.settings) else { return Fails("tighten refuses it".to_string()) };
    holds(list(&tight, case.settings) == Some(own), || format!("tight: {}", tight.escape_ascii()))
}

fn twice_is_once(case: &Case) -> Verdict {
    let Some(once) = tight(&case.text, case.settings) else { return Aside };
    holds(tight(&once, case.settings).as_ref() == Some(&once), || "twice differs".to_string())
}

// Whether the lists of two different searches agree, and whether their tight texts are equal.
fn pair(case: &Case) -> Option<(bool, bool)> {
    if case.text == case.other {
        return None;
    }
    let agree = list(&case.text, case.settings)? == list(&case.other, case.settings)?;
    Some((agree, tight(&case.text, case.settings) == tight(&case.other, case.settings)))
}

fn agreeing_are_equal(case: &Case) -> Verdict {
    match pair(case) {
        Some((true, equal)) => holds(equal, || "the lists agree, the tight texts differ".to_string()),
        _ => Aside,
    }
}

fn differing_are_different(case: &Case) -> Verdict {
    match pair(case) {
        Some((false, equal)) => holds(!equal, || "the lists differ, the tight texts are equal".to_string()),
        _ => Aside,
    }
}

fn without_white_space(text: &[u8]) -> Option<String> {
    Some(std::str::from_utf8(text).ok()?.chars().filter(|c| !c.is_whitespace()).collect())
}

fn wrong_copy(case: &Case) -> Verdict {
    match tight(&case.text, case.settings) {
        Some(tight) => holds(tight == case.text, || tight.escape_ascii().to_string()),
        None => Aside,
    }
}

// The text in which a gap that returns becomes a space.
fn spaced_text(text: &[u8], settings: Settings) -> Option<Vec<u8>> {
    Some(tight_with_spaces(text, &tokens(text, settings)?))
}

fn wrong_spaced_text(case: &Case) -> Verdict {
    let Some(spaced) = spaced_text(&case.text, case.settings) else { return Aside };
    holds(tight(&case.text, case.settings).as_ref() == Some(&spaced), || spaced.escape_ascii().to_string())
}

// Gaps aside, so that it is the tokens that are read otherwise.
fn wrong_spaced_tokens(case: &Case) -> Verdict {
    let Some(spaced) = spaced_text(&case.text, case.settings) else { return Aside };
    let read = [&case.text, &spaced].map(|text| list(text, case.settings).map(|list| list.tokens));
    holds(read[0] == read[1], || spaced.escape_ascii().to_string())
}

fn wrong_spaced_key(case: &Case) -> Verdict {
    let Some((false, _)) = pair(case) else { return Aside };
    let spaced = [&case.text, &case.other].map(|text| spaced_text(text, case.settings));
    holds(spaced[0] != spaced[1], || "the lists differ, the texts are equal".to_string())
}

fn wrong_white_space(case: &Case) -> Verdict {
    match (pair(case), without_white_space(&case.text) == without_white_space(&case.other)) {
        (Some((_, equal)), true) => holds(equal, || "the tight texts differ".to_string()),
        _ => Aside,
    }
}

fn wrong_never_equal(case: &Case) -> Verdict {
    match pair(case) {
        Some((_, equal)) => holds(!equal, || "the tight texts are equal".to_string()),
        None => Aside,
    }
}

fn wrong_one_token_a_byte(case: &Case) -> Verdict {
    let ((number, count), _) = records(&case.text, case.settings);
    holds(number != DONE || count == case.text.len() as u64, || format!("{} tokens", count))
}

fn main() {
    let (count, seed) = asked_for(1_000_000);
    let mut properties = [
        right("refusals go by settings, length and UTF-8, and write nothing", refuses),
        right("values laid end to end give the statement", laid_end_to_end),
        right("tokens, aliases and keys start and end between characters", between_characters),
        right("kinds are 0 to 15; only placeholders have keys", kinds_are_known),
        right("aliases are CREATE or SELECT of a phrase so typed, else the value", aliases),
        right("gaps are White_Space, all of a run, and nothing else starts with any", gaps_are_white_space),
        right("levels are the parens opened and not yet closed", levels_by_sums),
        right("escaped quotes are those that the tokens' values have", escaped_by_value),
        right("the tight text has as many escaped quotes", tight_has_the_escapes),
        right("a table: exactly full, one byte short, odd bytes, the rest kept", table_is_told),
        right("an output: exactly full, one byte short, the rest kept", output_is_told),
        right("what the buffers held makes no difference", content_is_no_matter),
        right("joins change kinds alone", joins_change_kinds_alone),
        right("the tight text is made of the tokens by its rule", tight_is_by_rule),
        right("the tight text is accepted and has the search's tokens and gaps", tight_has_the_tokens),
        right("tightening twice gives what once gave", twice_is_once),
        right("where lists agree, the tight texts are equal", agreeing_are_equal),
        right("where lists differ, the tight texts differ", differing_are_different),
        wrong("WRONG: the tight text is the search", wrong_copy),
        wrong("WRONG: a gap that returns becomes a space: the tight text", wrong_spaced_text),
        wrong("WRONG: a gap that returns becomes a space: the text has the search's tokens", wrong_spaced_tokens),
        wrong("WRONG: a gap that returns becomes a space: where lists differ, the texts differ", wrong_spaced_key),
        wrong("WRONG: searches that differ in white space alone have one tight text", wrong_white_space),
        wrong("WRONG: different searches have different tight texts", wrong_never_equal),
        wrong("WRONG: no quotes are escaped in placeholders", wrong_no_placeholders),
        wrong("WRONG: each backslash in a string escapes a quote, and nothing else does", wrong_backslashes_alone),
        wrong("WRONG: a CloseParen has the level of its OpenParen", wrong_levels_closed_before),
        wrong("WRONG: there is a token for every byte", wrong_one_token_a_byte),
    ];
    let mut chance = Chance::new(seed);
    for i in 0..count {
        let settings = texts::settings(&mut chance);
        let text = texts::short(i as usize).unwrap_or_else(|| texts::search(&mut chance));
        let other = gaps::changed(&mut chance, &text, settings);
        ask_all(&mut properties, &Case { settings, text, other, sheet: Vec::new() });
    }
    tell_all(&properties);
}
