// Replays tests/vectors/tighten.txt through libventpeeler.a, prints each failure and a count. The file says how its
// answers were made and what its lines mean. Beside that, the tokens of each search and those of its tight text are compared,
// and the gaps that count.
#[path = "../calls.rs"]
mod calls;
#[path = "../random/lists.rs"]
mod lists;
#[path = "../replaying.rs"]
mod replaying;
#[path = "../vector_file.rs"]
mod vector_file;

use calls::DONE;
use lists::list;

fn main() {
    let mut count = replaying::Count::new();
    let mut compared = 0;
    for check in vector_file::checks("tests/vectors/tighten.txt", '=') {
        let (text, settings) = (&check.inputs.statement, check.inputs.settings);
        let (number, _) = count.check_call(&check, |output| calls::tighten(text, settings, output));
        if number == DONE {
            let (first, second) = (list(text, settings), list(&check.text, settings));
            let same = first.is_some() && first == second;
            count.check(check.line, same, || "the tight text has other tokens or gaps".to_string());
            compared += 1;
        }
    }
    println!("{} searches and their tight texts have the same tokens and gaps, or are named above", compared);
    count.tell();
}
