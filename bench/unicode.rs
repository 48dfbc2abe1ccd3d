// Speed of the crate `characters`, beside std::str::from_utf8 in the same run. Each figure is the median of repeated runs.
mod timing;
#[path = "../tests/unicode/unicode.rs"]
mod unicode;

use std::hint::black_box;
use timing::{text, time};

fn main() {
    let ascii = "SELECT gap FROM stands WHERE minutes >= ? AND zone = 'F1' ORDER BY start ";
    let mixed = "SELECT Länge FROM Gerüst WHERE зона = 'печь' AND 板坯 = ? -- 😀 ";
    println!("validation                     ours ns   from_utf8 ns   from_utf8's time / ours");
    for (name, part) in [("ASCII", ascii), ("mixed", mixed)] {
        for most in [100, 65536] {
            let text = text(part, most);
            assert_eq!(unicode::first_ill_formed(&text), text.len());
            let ours = time(|| {
                black_box(unicode::first_ill_formed(black_box(&text)));
            });
            let theirs = time(|| {
                black_box(std::str::from_utf8(black_box(&text)).is_ok());
            });
            println!("{name}, {:5} bytes          {ours:10.1}     {theirs:10.1}     {:.2}", text.len(), theirs / ours);
        }
    }
    println!("\nclass lookup, ns a call    is_whitespace   is_alphabetic   is_word_character   character_at");
    for (name, c) in [("a", 'a'), ("é", 'é'), ("CJK", '板'), ("emoji", '😀')] {
        let mut buffer = [0; 4];
        let bytes = c.encode_utf8(&mut buffer).as_bytes();
        let lookup = |f: fn(u32) -> bool| {
            time(|| {
                black_box(f(black_box(c as u32)));
            })
        };
        let read = time(|| {
            black_box(unicode::code_point(black_box(bytes), 0));
        });
        println!(
            "{name:20}       {:10.1}      {:10.1}          {:10.1}     {read:10.1}",
            lookup(unicode::is_whitespace),
            lookup(unicode::is_alphabetic),
            lookup(unicode::is_word_character)
        );
    }
}
