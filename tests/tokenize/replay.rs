// Replays tests/vectors/tokenize.txt through libventpeeler.a, prints each failure and a count. The file says how its
// answers were made and what its lines mean.
#[path = "../calls.rs"]
mod calls;
#[path = "../replaying.rs"]
mod replaying;
#[path = "../vector_file.rs"]
mod vector_file;

use calls::{tokenize_escaped, DONE, RECORD};
use replaying::{Count, GUARD, PAST};
use vector_file::Check;

fn words(record: &[u8]) -> Vec<u64> {
    record.chunks(4).map(|word| u32::from_le_bytes(word.try_into().unwrap()) as u64).collect()
}

// The table holds GUARD everywhere, before and after.
fn run(check: &Check, table: &mut Vec<u8>, count: &mut Count) {
    let lent = check.inputs.lent * RECORD;
    if table.len() < lent + PAST * RECORD {
        table.resize(lent + PAST * RECORD, GUARD);
    }
    let ((number, detail), escaped) = tokenize_escaped(&check.inputs.statement, check.inputs.settings, &mut table[..lent]);
    count.check_answer(check.line, &[number, detail], &check.numbers);
    count.check(check.line, escaped == check.escaped, || format!("{} escaped quotes, not {}", escaped, check.escaped));
    let written = if number == DONE { (detail as usize).min(check.inputs.lent) } else { 0 };
    let told = || format!("{} records are written, and {} are to be", written, check.records.len());
    count.check(check.line, written == check.records.len(), told);
    for (i, (got, record)) in table.chunks(RECORD).take(written).map(words).zip(&check.records).enumerate() {
        count.check(check.line, got == *record, || format!("record {} is {:?}, not {:?}", i, got, record));
    }
    // a refusal writes nothing; else what lies past the written records is kept
    let end = written * RECORD;
    let looked = if number == DONE { end + PAST * RECORD } else { table.len() };
    let kept = table[end..looked].iter().all(|b| *b == GUARD);
    count.check(check.line, kept, || "a byte past the records was written".to_string());
    table[..if kept { end } else { lent }].fill(GUARD);
}

fn main() {
    let (mut table, mut count) = (Vec::new(), Count::new());
    for check in vector_file::checks("tests/vectors/tokenize.txt", '=') {
        run(&check, &mut table, &mut count);
    }
    count.tell();
}
