// Properties of fill over searches and sheets at random: `random_fill --texts N --seed N`. What a placeholder takes is worked
// out here from the tokens that tokenize gives, by document 01's rules, and what stops the fill by document 02's.
#[path = "../calls.rs"]
mod calls;
mod lists;
mod properties;
mod sheets;
mod texts;

use calls::*;
use lists::{tokens, Key, Token};
use properties::*;
use sheets::{search, sheet, Sheet, INDEXED, NAMED, NONE};
use texts::Chance;

const GUARD: u8 = 0xA5;

impl Sheet {
    // The entry that a placeholder takes.
    fn taken(&self, key: &Key, turn: &mut usize) -> Option<usize> {
        let name: &[u8] = if let Key::Named(name) = key { name } else { b"" };
        let place = match (self.kind, key) {
            (NAMED, Key::None) => return None,
            (NAMED, _) => return self.entries.iter().position(|entry| entry.0 == name),
            (INDEXED, Key::ZeroIndexed(n)) => *n,
            (INDEXED, Key::OneIndexed(n)) => n.checked_sub(1)?,
            (INDEXED, _) if name.is_empty() => {
                *turn += 1;
                *turn as u64 - 1
            }
            _ => return None,
        };
        (place < self.entries.len() as u64).then_some(place as usize)
    }
}

// The entry that each token takes; none where its own text stays.
fn takings(sheet: &Sheet, tokens: &[Token]) -> Vec<Option<usize>> {
    let mut turn = 0;
    let taken = |token: &Token| (token.kind == PLACEHOLDER).then(|| sheet.taken(&token.key, &mut turn)).flatten();
    tokens.iter().map(taken).collect()
}

fn filled_by_rule(text: &[u8], tokens: &[Token], sheet: &Sheet) -> Vec<u8> {
    let takings = takings(sheet, tokens);
    let parts = tokens.iter().zip(takings).map(|(token, entry)| match entry {
        Some(i) => sheet.entries[i].1.as_slice(),
        None => token.value(text),
    });
    parts.collect::<Vec<&[u8]>>().concat()
}

fn filled(case: &Case, sheet: &[u8]) -> (Answer, Vec<u8>) {
    let (number, length) = fill(&case.text, case.settings, sheet, &mut []);
    if number != OUTPUT_FULL {
        return ((number, length), Vec::new());
    }
    let mut output = vec![0; length as usize];
    (fill(&case.text, case.settings, sheet, &mut output), output)
}

// Where the one-indexed zeros start; there are none that count with other sheets than indexed ones.
fn noughts(case: &Case, sheet: &Sheet) -> Vec<u64> {
    let tokens = tokens(&case.text, case.settings).unwrap_or_default();
    let stops = |token: &&Token| sheet.kind == INDEXED && token.kind == PLACEHOLDER && token.key == Key::OneIndexed(0);
    tokens.iter().filter(stops).map(|token| token.start as u64).collect()
}

// The refusals before that of the sheet are tokenise's.
fn refusal(case: &Case) -> Option<Answer> {
    let answer = tokenize(&case.text, case.settings, &mut []);
    if ![DONE, TABLE_FULL].contains(&answer.0) {
        return Some(answer);
    }
    let Some(sheet) = Sheet::read(&case.sheet) else { return Some((SHEET, 0)) };
    Some((PLACE_NOUGHT, *noughts(case, &sheet).first()?))
}

fn refuses(case: &Case) -> Verdict {
    let mut output = vec![GUARD; 40];
    let answer = fill(&case.text, case.settings, &case.sheet, &mut output);
    let kept = answer.0 == DONE || output.iter().all(|b| *b == GUARD);
    let as_told = match refusal(case) {
        Some(refusal) => answer == refusal,
        None => [DONE, OUTPUT_FULL].contains(&answer.0),
    };
    holds(as_told && kept, || format!("answered {:?}, not {:?}; kept: {}", answer, refusal(case), kept))
}

fn is_by_rule(case: &Case) -> Verdict {
    let (None, Some(sheet)) = (refusal(case), Sheet::read(&case.sheet)) else { return Aside };
    let Some(tokens) = tokens(&case.text, case.settings) else { return Aside };
    let expected = filled_by_rule(&case.text, &tokens, &sheet);
    let (answer, output) = filled(case, &case.sheet);
    holds(answer == (DONE, expected.len() as u64) && output == expected, || format!("not {}", expected.escape_ascii()))
}

fn nothing_gives_the_statement(case: &Case) -> Verdict {
    let (answer, output) = filled(case, &[NONE, 0, 0]);
    if ![DONE, SHEET].contains(&answer.0) {
        return Aside;
    }
    holds(answer == (DONE, case.text.len() as u64) && output == case.text, || format!("{:?}", answer))
}

// The most that a filled text can have, by the header's rule.
fn most(text: &[u8], sheet: &Sheet) -> usize {
    text.len() * sheet.entries.iter().map(|entry| entry.1.len()).fold(1, usize::max)
}

// With the most that a filled text can have, fill takes one pass, and two below it.
fn output_is_told(case: &Case) -> Verdict {
    let (number, needed) = fill(&case.text, case.settings, &case.sheet, &mut []);
    let (true, Some(sheet)) = ([DONE, OUTPUT_FULL].contains(&number), Sheet::read(&case.sheet)) else { return Aside };
    let exact = needed as usize;
    let most = most(&case.text, &sheet).min(1 << 20);
    for lent in [exact, exact + 1, exact + 50, exact.saturating_sub(1), exact / 2, most, most.saturating_sub(1)] {
        let mut output = vec![GUARD; lent];
        let answer = fill(&case.text, case.settings, &case.sheet, &mut output);
        let (number, written) = if lent < exact { (OUTPUT_FULL, 0) } else { (DONE, exact) };
        if answer != (number, needed) || output[written..].iter().any(|b| *b != GUARD) {
            return Fails(format!("with {} bytes of {}: {:?}", lent, exact, answer));
        }
    }
    Holds
}

fn content_is_no_matter(case: &Case) -> Verdict {
    let (_, needed) = fill(&case.text, case.settings, &case.sheet, &mut []);
    let mut first: Vec<u8> = (0..(needed as usize).min(MOST) + 5).map(|i| (i * 7) as u8).collect();
    let mut second: Vec<u8> = first.iter().map(|b| !b).collect();
    let answer = fill(&case.text, case.settings, &case.sheet, &mut first);
    let again = fill(&case.text, case.settings, &case.sheet, &mut second);
    let written = if answer.0 == DONE { answer.1 as usize } else { 0 };
    let kept = first[written..].iter().zip(&second[written..]).all(|(a, b)| *a == !*b);
    holds(answer == again && first[..written] == second[..written] && kept, || format!("{:?} {:?}", answer, again))
}

// Every value that no placeholder takes is changed: answer and bytes stay.
fn values_beside_are_no_matter(case: &Case) -> Verdict {
    let (None, Some(sheet)) = (refusal(case), Sheet::read(&case.sheet)) else { return Aside };
    let Some(tokens) = tokens(&case.text, case.settings) else { return Aside };
    let taken = takings(&sheet, &tokens);
    let mut other = sheet.clone();
    for (i, entry) in other.entries.iter_mut().enumerate().filter(|(i, _)| !taken.contains(&Some(*i))) {
        entry.1 = format!("{}?", i * 1000).into_bytes();
    }
    let bytes = other.bytes();
    if bytes == case.sheet || bytes.len() > MOST {
        return Aside;
    }
    holds(filled(case, &case.sheet) == filled(case, &bytes), || format!("{:02x?}", bytes))
}

fn no_longer_than_the_most(case: &Case) -> Verdict {
    let (answer, _) = filled(case, &case.sheet);
    let (DONE, Some(sheet)) = (answer.0, Sheet::read(&case.sheet)) else { return Aside };
    holds(answer.1 as usize <= most(&case.text, &sheet), || format!("{:?}", answer))
}

fn wrong_no_longer_than_text_and_values(case: &Case) -> Verdict {
    let (answer, _) = filled(case, &case.sheet);
    let (DONE, Some(sheet)) = (answer.0, Sheet::read(&case.sheet)) else { return Aside };
    let values: usize = sheet.entries.iter().map(|entry| entry.1.len()).sum();
    holds(answer.1 as usize <= case.text.len() + values, || format!("{:?}", answer))
}

fn wrong_nothing_is_filled(case: &Case) -> Verdict {
    let (answer, output) = filled(case, &case.sheet);
    holds(answer.0 != DONE || output == case.text, || output.escape_ascii().to_string())
}

// The turn goes on at `?1` too.
fn wrong_all_are_counted(case: &Case) -> Verdict {
    let Some(sheet) = Sheet::read(&case.sheet).filter(|sheet| sheet.kind == INDEXED) else { return Aside };
    let Some(tokens) = tokens(&case.text, case.settings) else { return Aside };
    let turns = tokens.iter().filter(|token| token.kind == PLACEHOLDER && !matches!(token.key, Key::Named(_)));
    let ends = turns.enumerate().last().filter(|(_, token)| token.key == Key::None).map(|(turn, _)| turn);
    let (Some(turn), (answer, output)) = (ends, filled(case, &case.sheet)) else { return Aside };
    if answer.0 != DONE || turn >= sheet.entries.len() || tokens.last().is_none_or(|token| token.key != Key::None) {
        return Aside;
    }
    holds(output.ends_with(&sheet.entries[turn].1), || output.escape_ascii().to_string())
}

fn wrong_the_last_is_told(case: &Case) -> Verdict {
    let (answer, _) = filled(case, &case.sheet);
    let (PLACE_NOUGHT, Some(sheet)) = (answer.0, Sheet::read(&case.sheet)) else { return Aside };
    holds(noughts(case, &sheet).last() == Some(&answer.1), || format!("{:?}", answer))
}

// A `$0` anywhere, be it in a string or of a longer number.
fn wrong_bytes_stop(case: &Case) -> Verdict {
    let (answer, _) = filled(case, &case.sheet);
    let (DONE, Some(sheet)) = (answer.0, Sheet::read(&case.sheet)) else { return Aside };
    let pair = case.text.windows(2).any(|pair| pair == b"$0");
    holds(sheet.kind != INDEXED || !pair, || "filled".to_string())
}

fn wrong_sheets_are_accepted(case: &Case) -> Verdict {
    let (answer, _) = filled(case, &case.sheet);
    holds(answer.0 != SHEET, || "malformed".to_string())
}

fn main() {
    let (count, seed) = asked_for(1_000_000);
    let mut properties = [
        right("refusals are tokenise's, then malformed sheets, then places nought, and write nothing", refuses),
        right("the filled text is the values with what each placeholder takes", is_by_rule),
        right("a sheet without values gives the statement back", nothing_gives_the_statement),
        right("an output: exactly full, one byte short, the rest kept", output_is_told),
        right("no longer than the statement's length times that of the longest value", no_longer_than_the_most),
        right("what the output held makes no difference", content_is_no_matter),
        right("values that no placeholder takes make no difference", values_beside_are_no_matter),
        wrong("WRONG: no longer than the statement and all values together", wrong_no_longer_than_text_and_values),
        wrong("WRONG: the filled text is the search", wrong_nothing_is_filled),
        wrong("WRONG: `?1` moves the turn on", wrong_all_are_counted),
        wrong("WRONG: the last place nought is told", wrong_the_last_is_told),
        wrong("WRONG: the bytes of a place nought stop the fill wherever they stand", wrong_bytes_stop),
        wrong("WRONG: no sheet is malformed", wrong_sheets_are_accepted),
    ];
    let mut chance = Chance::new(seed);
    for _ in 0..count {
        let settings = texts::settings(&mut chance);
        let (text, sheet) = (search(&mut chance), sheet(&mut chance));
        ask_all(&mut properties, &Case { settings, text, other: Vec::new(), sheet });
    }
    tell_all(&properties);
}
