// Replays the calls of fill in tests/vectors/fill.txt through libventpeeler.a, prints each failure and a count. The file
// says how its answers were made and what its lines mean.
#[path = "../calls.rs"]
mod calls;
#[path = "../replaying.rs"]
mod replaying;
#[path = "../vector_file.rs"]
mod vector_file;

use calls::{DONE, OUTPUT_FULL};
use vector_file::Check;

// The same call with so many bytes lent.
fn lending(check: &Check, lent: usize) -> Check {
    let mut other = check.clone();
    other.inputs.lent = lent;
    if lent < check.text.len() {
        other.numbers[0] = OUTPUT_FULL;
        other.text.clear();
    }
    other
}

fn main() {
    let mut count = replaying::Count::new();
    for check in vector_file::checks("tests/vectors/fill.txt", '=') {
        let length = check.text.len();
        let mut calls = vec![check.clone()];
        if check.numbers[0] == DONE {
            calls.push(lending(&check, length));
            calls.push(lending(&check, length.saturating_sub(1)));
        }
        for call in calls {
            let inputs = &call.inputs;
            count.check_call(&call, |output| calls::fill(&inputs.statement, inputs.settings, &inputs.sheet, output));
        }
    }
    count.tell();
}
