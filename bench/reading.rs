// Speed of tokenize and tighten through the C boundary, beside a plain scanner in C, std::str::from_utf8 and memcpy in the same
// run; and how their time grows with texts that could be slow.
#[path = "../tests/calls.rs"]
mod calls;
mod growing;
mod scanner;
mod searches;
mod timing;

use calls::{tighten, tokenize, Answer, DONE, RECORD};
use growing::growths;
use scanner::scan;
use std::hint::black_box;
use timing::together;

fn done(answer: Answer) {
    assert!(black_box(answer).0 == DONE);
}

fn speeds(name: &str, text: &[u8], table: &mut [u8]) {
    let (number, tokens) = tokenize(text, [0, 0, 0], table);
    assert!(number == DONE);
    let mut records = table.to_vec();
    let (mut output, mut copy) = (vec![0; text.len()], vec![0; text.len()]);
    let times = together([
        &mut || done(tokenize(black_box(text), [0, 0, 0], table)),
        &mut || done(tighten(black_box(text), [0, 0, 0], &mut output)),
        &mut || scan(black_box(text), &mut records),
        &mut || assert!(std::str::from_utf8(black_box(text)).is_ok()),
        &mut || black_box(&mut copy).copy_from_slice(black_box(text)),
    ]);
    print!("{name:20} {:6} {tokens:7}", text.len());
    (0..5).for_each(|call| print!(" {:9.3}", times.time(call) / text.len() as f64));
    println!("  {:9.1} {:9.1}", times.ratio(0, 2), times.ratio(1, 2));
}

fn main() {
    let mut table = vec![0; 65536 * RECORD];
    println!(
        "                                      ns a byte                                          time / scanner's"
    );
    println!(
        "                      bytes  tokens  tokenize   tighten   scanner from_utf8    memcpy   tokenize   tighten"
    );
    for (name, text) in searches::all() {
        speeds(name, &text, &mut table);
    }
    growths("tokenize, ns a byte", |text, settings| tokenize(text, settings, &mut table));
    growths("tighten, ns a byte", |text, settings| tighten(text, settings, &mut table));
}
