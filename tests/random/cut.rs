// Properties of cut over scripts at random: `random_cut --texts N --seed N`. Where a script is to be cut is told from the
// tokens that tokenize gives for it; the wrong properties at the end show that a false one is found out.
#[path = "../calls.rs"]
mod calls;
mod lists;
#[path = "../cut/places.rs"]
mod places;
mod properties;
#[path = "../rattle_calls.rs"]
mod rattle_calls;
mod scripts;
mod texts;

use calls::*;
use lists::{refusal, tokens};
use places::{read, Part, PARTS_FULL, PLACE};
use properties::*;
use rattle_calls::cut;
use texts::Chance;

const GUARD: u8 = 0xA5;

// Generic, joins 0, named 0, whatever the default call is.
const SETTINGS: Settings = [0, 0, 0];
const SQLSERVER: Settings = [2, 0, 0];

const OPERATOR: u32 = 8;

// None where the call is refused, or tells of more parts than bytes.
fn parts(script: &[u8]) -> Option<Vec<Part>> {
    let mut places = vec![GUARD; PLACE * script.len()];
    let (number, count) = cut(script, &mut places);
    (number == DONE).then_some(read(places.get(..PLACE * count as usize)?))
}

// Nothing where the place is none of the script's.
fn text(script: &[u8], (start, length): Part) -> &[u8] {
    script.get(start..start + length).unwrap_or(b"")
}

fn refuses(case: &Case) -> Verdict {
    let mut places = vec![GUARD; 3 * PLACE + 5];
    let answer = cut(&case.text, &mut places);
    let kept = answer.0 == DONE || places.iter().all(|b| *b == GUARD);
    let as_told = match refusal(&case.text, SETTINGS) {
        Some(refusal) => answer == refusal,
        None => [DONE, PARTS_FULL].contains(&answer.0) && (answer.0 == DONE) == (answer.1 <= 3),
    };
    holds(as_told && kept, || format!("answered {:?}; kept: {}", answer, kept))
}

// Asks a property of the parts of an accepted script.
fn of_parts(case: &Case, test: fn(&[u8], &[Part]) -> bool) -> Verdict {
    if refusal(&case.text, SETTINGS).is_some() {
        return Aside;
    }
    match parts(&case.text) {
        Some(parts) => holds(test(&case.text, &parts), || format!("{:?}", parts)),
        None => Fails("refused with a place for each byte, or more parts than bytes".to_string()),
    }
}

fn laid_end_to_end(case: &Case) -> Verdict {
    of_parts(case, |script, parts| {
        let mut end = 0;
        let follows = |part: &Part| {
            let start = end;
            end += part.1;
            part.0 == start
        };
        parts.iter().all(follows) && end == script.len()
    })
}

fn none_is_empty(case: &Case) -> Verdict {
    of_parts(case, |_, parts| parts.iter().all(|part| part.1 > 0))
}

fn all_but_the_last_end(case: &Case) -> Verdict {
    of_parts(case, |script, parts| parts.iter().rev().skip(1).all(|part| text(script, *part).ends_with(b";")))
}

// Where the Operators `;` end that a reading gives.
fn semicolons(script: &[u8], settings: Settings) -> Option<Vec<usize>> {
    let mut tokens = tokens(script, settings)?;
    tokens.retain(|token| token.kind == OPERATOR && token.value(script) == b";");
    Some(tokens.iter().map(|token| token.start + token.len).collect())
}

// Whether bytes remain behind the last of them.
fn rest_remains(script: &[u8], ends: &[usize]) -> bool {
    ends.last().copied().unwrap_or(0) < script.len()
}

fn counted_by_tokens(case: &Case) -> Verdict {
    let Some(ends) = semicolons(&case.text, SETTINGS) else { return Aside };
    let needed = ends.len() + rest_remains(&case.text, &ends) as usize;
    let answers = [needed, case.text.len()].map(|lent| cut(&case.text, &mut vec![GUARD; PLACE * lent]));
    holds(answers == [(DONE, needed as u64); 2], || format!("answered {:?}, not {}", answers, needed))
}

fn cut_behind_tokens(script: &[u8], parts: &[Part], settings: Settings) -> bool {
    let Some(mut ends) = semicolons(script, settings) else { return false };
    if rest_remains(script, &ends) {
        ends.push(script.len());
    }
    parts.iter().map(|part| part.0 + part.1).eq(ends)
}

fn cut_behind_operators(case: &Case) -> Verdict {
    of_parts(case, |script, parts| cut_behind_tokens(script, parts, SETTINGS))
}

fn each_is_accepted(case: &Case) -> Verdict {
    of_parts(case, |script, parts| {
        parts.iter().all(|part| {
            let (number, needed) = tokenize(text(script, *part), SETTINGS, &mut []);
            number == TABLE_FULL && needed > 0
        })
    })
}

// Where nothing quotes, comments or braces.
fn plain_scripts_by_bytes(case: &Case) -> Verdict {
    if case.text.iter().any(|b| b"'\"`#-/{".contains(b)) {
        return Aside;
    }
    of_parts(case, |script, parts| {
        let mut pieces = script.split_inclusive(|b| *b == b';');
        parts.iter().all(|part| pieces.next() == Some(text(script, *part))) && pieces.next().is_none()
    })
}

fn places_are_told(case: &Case) -> Verdict {
    let (true, Some(expected)) = (refusal(&case.text, SETTINGS).is_none(), parts(&case.text)) else { return Aside };
    let (needed, exact, most) = (expected.len() as u64, PLACE * expected.len(), PLACE * case.text.len());
    let less = [exact.saturating_sub(PLACE), exact.saturating_sub(1), exact / 2, 0];
    let more = [exact, exact + 1, exact + PLACE - 1, exact + 3 * PLACE, most.saturating_sub(1), most + 3];
    for lent in [&less[..], &more].concat() {
        let mut places = vec![GUARD; lent];
        let answer = cut(&case.text, &mut places);
        let (number, written) = if lent < exact { (PARTS_FULL, 0) } else { (DONE, exact) };
        let kept = places[written..].iter().all(|b| *b == GUARD);
        if answer != (number, needed) || !kept || written > 0 && read(&places[..written]) != expected {
            return Fails(format!("with {} bytes of {}: {:?}; kept: {}", lent, exact, answer, kept));
        }
    }
    Holds
}

// Two lots of places that differ in every byte, with room for each byte of the script and for the parts alone.
fn content_is_no_matter(case: &Case) -> Verdict {
    let (_, needed) = cut(&case.text, &mut []);
    for lent in [PLACE * case.text.len(), PLACE * (needed as usize).min(MOST)] {
        let mut first: Vec<u8> = (0..lent).map(|i| (i * 7) as u8).collect();
        let mut second: Vec<u8> = first.iter().map(|b| !b).collect();
        let answers = [cut(&case.text, &mut first), cut(&case.text, &mut second)];
        let written = if answers[0].0 == DONE { lent.min(PLACE * answers[0].1 as usize) } else { 0 };
        let kept = first[written..].iter().zip(&second[written..]).all(|(a, b)| *a == !*b);
        if answers[0] != answers[1] || first[..written] != second[..written] || !kept {
            return Fails(format!("{:?}", answers));
        }
    }
    Holds
}

fn wrong_every_byte(case: &Case) -> Verdict {
    of_parts(case, |script, parts| parts.len() == script.split_inclusive(|b| *b == b';').count())
}

fn wrong_last_ends(case: &Case) -> Verdict {
    of_parts(case, |script, parts| parts.last().is_none_or(|part| text(script, *part).ends_with(b";")))
}

fn wrong_a_rest_always(case: &Case) -> Verdict {
    of_parts(case, |script, parts| semicolons(script, SETTINGS).is_some_and(|ends| parts.len() == ends.len() + 1))
}

fn wrong_sqlserver(case: &Case) -> Verdict {
    of_parts(case, |script, parts| cut_behind_tokens(script, parts, SQLSERVER))
}

// Kind and length of each token, part after part.
fn wrong_read_as_in_the_script(case: &Case) -> Verdict {
    of_parts(case, |script, parts| {
        let list = |text: &[u8]| -> Vec<(u32, usize)> {
            tokens(text, SETTINGS).unwrap_or_default().iter().map(|token| (token.kind, token.len)).collect()
        };
        let alone: Vec<(u32, usize)> = parts.iter().flat_map(|part| list(text(script, *part))).collect();
        alone == list(script)
    })
}

fn wrong_one_part_alone(case: &Case) -> Verdict {
    of_parts(case, |script, parts| parts.iter().all(|part| cut(text(script, *part), &mut []) == (PARTS_FULL, 1)))
}

fn wrong_always_room(case: &Case) -> Verdict {
    let answer = cut(&case.text, &mut [GUARD; 3 * PLACE]);
    holds(answer.0 != PARTS_FULL, || format!("{:?}", answer))
}

fn main() {
    let (count, seed) = asked_for(1_000_000);
    let mut properties = [
        right("refusals go by length, UTF-8 and room, and write nothing", refuses),
        right("the parts laid end to end give the script", laid_end_to_end),
        right("no part is empty", none_is_empty),
        right("each part but the last ends with `;`", all_but_the_last_end),
        right("there are as many parts as Operators `;`, and one if bytes remain", counted_by_tokens),
        right("a part ends behind each Operator `;` and at the script's end, nowhere else", cut_behind_operators),
        right("each part is accepted by itself", each_is_accepted),
        right("where nothing quotes, comments or braces, each byte `;` cuts", plain_scripts_by_bytes),
        right("places: exactly full, one byte short, odd bytes, the rest kept", places_are_told),
        right("what the places held makes no difference", content_is_no_matter),
        wrong("WRONG: each byte `;` cuts", wrong_every_byte),
        wrong("WRONG: the last part ends with `;`", wrong_last_ends),
        wrong("WRONG: there is a part behind the last `;`", wrong_a_rest_always),
        wrong("WRONG: scripts are read as SQLServer's", wrong_sqlserver),
        wrong("WRONG: each part reads alone as in the script", wrong_read_as_in_the_script),
        wrong("WRONG: each part cut by itself is one part", wrong_one_part_alone),
        wrong("WRONG: three places are enough", wrong_always_room),
    ];
    let mut chance = Chance::new(seed);
    for _ in 0..count {
        let text = scripts::script(&mut chance);
        ask_all(&mut properties, &Case { settings: SETTINGS, text, other: Vec::new(), sheet: Vec::new() });
    }
    tell_all(&properties);
}
