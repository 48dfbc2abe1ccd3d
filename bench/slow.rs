// A search for slow texts: every unit of one and two of the signs below, over and over, behind each opener and without one, with a
// CR behind it and without, in the three dialects. Each is read three times at 8 and at 64 KiB; those that stand out by the fastest
// of these are measured again, and the ten worst printed, by time and by growth.
#[path = "../tests/calls.rs"]
mod calls;
#[path = "../tests/random/texts.rs"]
#[allow(dead_code)]
mod texts;
mod timing;

use calls::{fill, tighten, tokenize, Settings, MOST, RECORD};
use std::time::Instant;
use texts::hard;
use timing::a_byte;

const SIGNS: [&str; 32] = [
    "'", "\"", "`", "[", "]", "{", "}", "(", ")", "@", ":", "$", "?", "#", "-", "/", "*", "\\", ",", ".", ";", "=", "_", "a",
    "N", "x", "E", "1", " ", "\r", "\n", "ä",
];
const OPENERS: [&str; 12] = ["", "'", "\"", "`", "[", "{", "(", "#", "--", "/*", "@[", "CREATE"];
const BEHIND: [&str; 2] = ["", "\r"];
const DIALECTS: [&str; 3] = ["Generic", "PostgreSql", "SQLServer"];
const FIRST: usize = 8192;
const CANDIDATES: usize = 60;
const WORST: usize = 10;

struct Found {
    before: &'static str,
    unit: String,
    behind: &'static str,
    dialect: usize,
    time: f64,
    growth: f64,
}

impl Found {
    fn text(&self, most: usize) -> Vec<u8> {
        hard(self.before, &self.unit, self.behind, most)
    }

    fn settings(&self) -> Settings {
        [self.dialect as u64, 0, 0]
    }

    fn name(&self) -> String {
        format!("{:?} {:?} .. {:?}", self.before, self.unit, self.behind)
    }
}

fn units() -> Vec<String> {
    let pairs = SIGNS.iter().flat_map(|a| SIGNS.iter().filter(move |b| *b != a).map(move |b| format!("{a}{b}")));
    SIGNS.iter().map(|a| a.to_string()).chain(pairs).collect()
}

fn fastest_of_three(text: &[u8], settings: Settings, table: &mut [u8]) -> f64 {
    let mut once = || {
        let start = Instant::now();
        tokenize(text, settings, table);
        start.elapsed().as_nanos() as f64 / text.len() as f64
    };
    once().min(once()).min(once())
}

fn all(table: &mut [u8]) -> Vec<Found> {
    let mut found = Vec::new();
    for unit in units() {
        for (before, behind) in OPENERS.iter().flat_map(|before| BEHIND.map(|behind| (before, behind))) {
            for dialect in 0..DIALECTS.len() {
                let mut one = Found { before, unit: unit.clone(), behind, dialect, time: 0.0, growth: 0.0 };
                let (small, large) = (one.text(FIRST), one.text(MOST));
                one.time = fastest_of_three(&large, one.settings(), table);
                one.growth = one.time / fastest_of_three(&small, one.settings(), table);
                found.push(one);
            }
        }
    }
    found
}

// Those that stand out, measured again: the fastest of nine calls.
fn again(found: &mut [Found], by: fn(&Found) -> f64, table: &mut [u8]) {
    found.sort_by(|a, b| by(b).total_cmp(&by(a)));
    for one in found.iter_mut().take(CANDIDATES) {
        let [small, large] =
            [FIRST, MOST].map(|most| a_byte(&one.text(most), |text| tokenize(text, one.settings(), table)));
        (one.time, one.growth) = (large, large / small);
    }
    found[..CANDIDATES].sort_by(|a, b| by(b).total_cmp(&by(a)));
}

fn print(title: &str, found: &[Found], output: &mut [u8]) {
    println!("\n{title:28}              tokenize  growth   tighten      fill, ns a byte at 64 KiB");
    for one in &found[..WORST] {
        let text = one.text(MOST);
        let tight = a_byte(&text, |text| tighten(text, one.settings(), output));
        let filled = a_byte(&text, |text| fill(text, one.settings(), &[0, 0, 0], output));
        let (name, dialect) = (one.name(), DIALECTS[one.dialect]);
        println!("{name:28} {dialect:12} {:9.1} {:7.2} {tight:9.1} {filled:9.1}", one.time, one.growth);
    }
}

fn main() {
    let mut table = vec![0; MOST * RECORD];
    let mut output = vec![0; MOST];
    let mut found = all(&mut table);
    let plain = a_byte(&hard("", "a,", "", MOST), |text| tokenize(text, [0, 0, 0], &mut table));
    println!("{} texts; \"a,\" over and over: {plain:.1} ns a byte", found.len());
    again(&mut found, |one| one.time, &mut table);
    print("worst by time", &found, &mut output);
    again(&mut found, |one| one.growth, &mut table);
    print("worst by growth", &found, &mut output);
}
