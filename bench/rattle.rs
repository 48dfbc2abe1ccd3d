// Speed of the calls that serve Rattle callers, beside tokenize in the same run; and how their time grows with texts that could be
// slow.
#[path = "../tests/calls.rs"]
mod calls;
mod growing;
#[path = "../tests/rattle_calls.rs"]
mod rattle_calls;
mod searches;
mod timing;

use calls::{tokenize, DONE, RECORD};
use growing::growths;
use rattle_calls::cut;
use std::hint::black_box;
use timing::together;

fn speeds(name: &str, text: &[u8], table: &mut [u8], places: &mut [u8]) {
    let (number, parts) = cut(text, places);
    assert!(number == DONE);
    let times = together([
        &mut || assert!(tokenize(black_box(text), [0, 0, 0], table).0 == DONE),
        &mut || assert!(cut(black_box(text), places).0 == DONE),
    ]);
    println!("{name:20} {:6} {parts:6} {:9.3} {:9.1}", text.len(), times.time(1) / text.len() as f64, times.ratio(1, 0));
}

fn main() {
    let mut table = vec![0; 65536 * RECORD];
    let mut places = vec![0; 65536 * 8];
    println!("cut, ns a byte        bytes  parts             time / tokenize's");
    for (name, text) in searches::all() {
        speeds(name, &text, &mut table, &mut places);
    }
    growths("cut, ns a byte", |text, _| cut(text, &mut places));
}
