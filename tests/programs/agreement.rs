// The programs beside the calls that they make: `programs_agreement --texts N --seed N`. What a program prints is held to what
// the archive's call answers for the same bytes and the default settings. The input of `filling` is a case's `other` (the
// sheet's length, which may be wrong), its sheet and its text.
#[path = "../calls.rs"]
mod calls;
#[path = "../random/lists.rs"]
mod lists;
#[path = "../random/properties.rs"]
mod properties;
#[path = "../random/sheets.rs"]
mod sheets;
#[path = "../random/texts.rs"]
mod texts;

use calls::*;
use properties::*;
use std::io::Write;
use std::process::{Command, Stdio};
use texts::Chance;

const DEFAULT: Settings = [0, 0, 0];

// The bytes of filling's output.
const ROOM: usize = 131_072;

// What a program prints; none where it ends badly.
fn printed(program: &str, input: &[u8]) -> Option<Vec<u8>> {
    let mut child = Command::new(format!("target/bin/{program}"))
        .stdin(Stdio::piped())
        .stdout(Stdio::piped())
        .spawn()
        .unwrap_or_else(|e| panic!("target/bin/{program}: {e}"));
    // a program that has read enough may end before all is written
    let _ = child.stdin.take().unwrap().write_all(input);
    let output = child.wait_with_output().unwrap();
    output.status.success().then_some(output.stdout)
}

fn refused(number: u64) -> Vec<u8> {
    format!("refused {number}\n").into_bytes()
}

// The text that a call wrote to the start of an output, or its refusal.
fn told((number, length): Answer, mut output: Vec<u8>) -> Vec<u8> {
    if number != DONE {
        return refused(number);
    }
    output.truncate(length as usize);
    output
}

fn listed(text: &[u8]) -> Vec<u8> {
    let ((number, count), table) = lists::records(text, DEFAULT);
    if number != DONE {
        return refused(number);
    }
    let mut lines = format!("tokens {count}\n");
    for record in table.chunks(RECORD).take(count as usize) {
        let words = record.chunks(4).map(|word| u32::from_le_bytes(word.try_into().unwrap()).to_string());
        lines.push_str(&words.collect::<Vec<String>>().join(" "));
        lines.push('\n');
    }
    lines.into_bytes()
}

fn tightened(text: &[u8]) -> Vec<u8> {
    let mut output = vec![0; text.len()];
    told(tighten(text, DEFAULT, &mut output), output)
}

fn filled(text: &[u8], sheet: &[u8]) -> Vec<u8> {
    let mut output = vec![0; ROOM];
    told(fill(text, DEFAULT, sheet, &mut output), output)
}

fn filling_input(case: &Case) -> Vec<u8> {
    [&case.other[..], &case.sheet, &case.text].concat()
}

// The sheet and the statement of filling's input.
fn split(input: &[u8]) -> (&[u8], &[u8]) {
    let Some((length, rest)) = input.split_first_chunk() else { return (input, &[]) };
    rest.split_at(rest.len().min(u32::from_le_bytes(*length) as usize))
}

fn is(got: Option<Vec<u8>>, expected: &[u8]) -> Verdict {
    let shown = |bytes: &[u8]| bytes[..bytes.len().min(200)].escape_ascii().to_string();
    holds(got.as_deref() == Some(expected), || match &got {
        Some(got) => format!("printed \"{}\", not \"{}\"", shown(got), shown(expected)),
        None => "ended badly".to_string(),
    })
}

fn listing_agrees(case: &Case) -> Verdict {
    is(printed("listing", &case.text), &listed(&case.text))
}

fn tight_text_agrees(case: &Case) -> Verdict {
    is(printed("tight_text", &case.text), &tightened(&case.text))
}

fn filling_agrees(case: &Case) -> Verdict {
    let input = filling_input(case);
    let (sheet, text) = split(&input);
    is(printed("filling", &input), &filled(text, sheet))
}

fn wrong_listing_of_the_tight_text(case: &Case) -> Verdict {
    is(printed("listing", &case.text), &listed(&tightened(&case.text)))
}

fn wrong_tight_text_is_the_statement(case: &Case) -> Verdict {
    is(printed("tight_text", &case.text), &case.text)
}

// The sheet is looked at before the statement. A short input shows that it is not.
fn wrong_filling_refuses_the_sheet_first(case: &Case) -> Verdict {
    let input = filling_input(case);
    if input.len() > 1_000 || filled(b"", split(&input).0) != refused(SHEET) {
        return Aside;
    }
    is(printed("filling", &input), &refused(SHEET))
}

// A planner's search over and over, to so many bytes.
fn repeated(length: usize) -> Vec<u8> {
    "SELECT gap FROM stands -- зона\nWHERE minutes >= ? AND zone = :a ".bytes().cycle().take(length).collect()
}

// Mostly the sheet's length; else another one, or too few bytes.
fn sheet_length(chance: &mut Chance, length: usize) -> Vec<u8> {
    let told = length as u32;
    let wrong = [0, 3, told.wrapping_sub(1), told + 1, told + 5, told + 100_000, u32::MAX];
    let told = if chance.one_in(10) { chance.pick(&wrong) } else { told };
    let bytes = if chance.one_in(50) { chance.below(4) } else { 4 };
    told.to_le_bytes()[..bytes].to_vec()
}

// A search, a sheet and its length. One in twenty sheets is about as long as may be, or much longer, before any statement.
fn case(chance: &mut Chance) -> Case {
    let mut text = sheets::search(chance);
    let mut sheet = sheets::sheet(chance);
    if chance.one_in(200) {
        text = repeated(MOST - 2 + chance.below(5));
    }
    if chance.one_in(20) {
        let beyond = chance.pick(&[10, 200_000]);
        sheet.resize(MOST - 5 + chance.below(beyond), b'v');
        match chance.below(4) {
            0 => text.push(0xFF),
            1 => text = repeated(MOST + 1),
            _ => {}
        }
    }
    let other = sheet_length(chance, sheet.len());
    Case { settings: DEFAULT, text, other, sheet }
}

fn main() {
    let (count, seed) = asked_for(3_000);
    let mut properties = [
        right("listing prints the records that tokenise writes", listing_agrees),
        right("tight_text prints the text that tighten writes", tight_text_agrees),
        right("filling prints the text that fill writes", filling_agrees),
        wrong("WRONG: listing prints the records of the tight text", wrong_listing_of_the_tight_text),
        wrong("WRONG: tight_text prints the statement", wrong_tight_text_is_the_statement),
        wrong("WRONG: filling looks at the sheet first", wrong_filling_refuses_the_sheet_first),
    ];
    let mut chance = Chance::new(seed);
    for _ in 0..count {
        ask_all(&mut properties, &case(&mut chance));
    }
    for (_, before, part, behind, _) in texts::HARD {
        let text = texts::hard(before, part, behind, 3_000);
        ask_all(&mut properties, &Case { text, ..case(&mut chance) });
    }
    tell_all(&properties);
}
