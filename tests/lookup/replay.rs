// Replays the lookups of tests/vectors/fill.txt through libcalls_exports.a, prints each failure and a count. The file says
// how its answers were made and what its lines mean.
#[path = "../calls.rs"]
mod calls;
#[path = "../rattle_calls.rs"]
mod rattle_calls;
#[path = "../replaying.rs"]
mod replaying;
#[path = "../vector_file.rs"]
mod vector_file;

use replaying::{Count, GUARD, PAST};
use vector_file::Check;

// The part, copied where there is room.
fn run(check: &Check, lent: usize, count: &mut Count) {
    let inputs = &check.inputs;
    let &[place, mut counter, number, detail, after, _, _] = &check.numbers[..] else { panic!("line {}", check.line) };
    let mut bytes = vec![GUARD; lent + PAST];
    let answer = rattle_calls::lookup(
        &inputs.statement,
        inputs.settings,
        &inputs.sheet,
        place as usize,
        &mut counter,
        &mut bytes[..lent],
    );
    count.check_answer(check.line, &[answer.0, answer.1, counter], &[number, detail, after]);
    count.check_text(check.line, &bytes, if lent < check.text.len() { b"" } else { &check.text });
}

// The part by its place.
fn run_place(check: &Check, count: &mut Count) {
    let inputs = &check.inputs;
    let (place, mut counter) = (check.numbers[0] as usize, check.numbers[1]);
    let (answer, [source, start]) =
        rattle_calls::lookup_place(&inputs.statement, inputs.settings, &inputs.sheet, place, &mut counter);
    count.check_answer(check.line, &[answer.0, answer.1, counter, source, start], &check.numbers[2..]);
}

fn main() {
    let mut count = Count::new();
    for check in vector_file::checks("tests/vectors/fill.txt", 'l') {
        for lent in [check.inputs.lent, check.text.len(), check.text.len().saturating_sub(1)] {
            run(&check, lent, &mut count);
        }
        run_place(&check, &mut count);
    }
    count.tell();
}
