// Replays tests/vectors/cut.txt through libcalls_exports.a, prints each failure and a count. The file says how its answers were
// made and what its lines mean. Beside the room lent there, each script is cut with exactly enough, with less, with more and
// with odd bytes behind the places.
#[path = "../calls.rs"]
mod calls;
mod places;
#[path = "../rattle_calls.rs"]
mod rattle_calls;
#[path = "../replaying.rs"]
mod replaying;
#[path = "../vector_file.rs"]
mod vector_file;

use calls::{Answer, DONE};
use places::{written, Part, PARTS_FULL, PLACE};
use replaying::{Count, GUARD, PAST};
use vector_file::Check;

// `r S L N`: N parts, the first one starting at S, each L long and starting where the one before ends.
fn parts(check: &Check) -> Vec<Part> {
    let mut parts = Vec::new();
    for run in &check.records {
        let &[start, length, times] = &run[..] else { panic!("line {}", check.line) };
        parts.extend((0..times).map(|part| ((start + part * length) as usize, length as usize)));
    }
    parts
}

fn run(check: &Check, lent: usize, expected: Answer, places: &[u8], count: &mut Count) {
    let mut output = vec![GUARD; lent + PAST];
    let answer = rattle_calls::cut(&check.inputs.statement, &mut output[..lent]);
    count.check_answer(check.line, &[answer.0, answer.1], &[expected.0, expected.1]);
    count.check_text(check.line, &output, places);
}

// Other room than the file's: a place for each part or for each byte, and a little more or less.
fn rooms(check: &Check) -> Vec<usize> {
    let most = PLACE * check.inputs.statement.len();
    let exact = if check.numbers[0] == DONE { PLACE * check.numbers[1] as usize } else { most };
    let less = [0, PLACE - 1, exact.saturating_sub(PLACE), exact.saturating_sub(1), most.saturating_sub(1)];
    let more = [exact, exact + 1, exact + PLACE - 1, exact + PLACE, most, most + 5];
    let mut rooms = [&less[..], &more].concat();
    rooms.sort();
    rooms.dedup();
    rooms.retain(|room| *room != check.inputs.lent);
    rooms
}

fn main() {
    let mut count = Count::new();
    for check in vector_file::checks("tests/vectors/cut.txt", '=') {
        let (answer, places) = ((check.numbers[0], check.numbers[1]), written(&parts(&check)));
        run(&check, check.inputs.lent, answer, &places, &mut count);
        for lent in rooms(&check).into_iter().filter(|_| answer.0 != PARTS_FULL) {
            let (answer, places) = match answer {
                (DONE, needed) if lent / PLACE < needed as usize => ((PARTS_FULL, needed), &[][..]),
                _ => (answer, &places[..]),
            };
            run(&check, lent, answer, places, &mut count);
        }
    }
    count.tell();
}
