// Runs properties over cases, makes each case that breaks one as small as it finds, and counts.
use crate::calls::Settings;

// What a property is asked of. Not every property looks at all of it.
#[derive(Clone)]
pub struct Case {
    pub settings: Settings,
    pub text: Vec<u8>,
    pub other: Vec<u8>,
    pub sheet: Vec<u8>,
}

pub enum Verdict {
    Holds,
    Aside, // it says nothing of this case
    Fails(String),
}

pub use Verdict::{Aside, Fails, Holds};

pub fn holds(condition: bool, why: impl Fn() -> String) -> Verdict {
    if condition {
        Holds
    } else {
        Fails(why())
    }
}

pub struct Property {
    name: &'static str,
    test: fn(&Case) -> Verdict,
    wrong: bool, // it does not hold, and a case must show that
    checked: u64,
    broken: u64,
    smallest: Option<(Case, String)>,
}

// A property that fails so often is looked at no further.
const ENOUGH: u64 = 3;

// Cases that are tried to make one smaller.
const TRIES: usize = 20_000;

pub fn right(name: &'static str, test: fn(&Case) -> Verdict) -> Property {
    Property { name, test, wrong: false, checked: 0, broken: 0, smallest: None }
}

pub fn wrong(name: &'static str, test: fn(&Case) -> Verdict) -> Property {
    Property { wrong: true, ..right(name, test) }
}

fn size(case: &Case) -> usize {
    case.text.len() + case.other.len() + case.sheet.len() + case.settings.iter().filter(|n| **n != 0).count()
}

fn shown(bytes: &[u8]) -> String {
    let text = String::from_utf8_lossy(bytes);
    if bytes.len() > 400 {
        return format!("{} bytes", bytes.len());
    }
    match std::str::from_utf8(bytes) {
        Ok(text) => text.escape_debug().to_string(),
        Err(_) => format!("{} ({})", text.escape_debug(), bytes.escape_ascii()),
    }
}

fn part(case: &mut Case, which: usize) -> &mut Vec<u8> {
    match which {
        0 => &mut case.text,
        1 => &mut case.other,
        _ => &mut case.sheet,
    }
}

// Lengths of runs to leave out, the longest first; the short ones are those of characters.
fn runs(length: usize) -> impl Iterator<Item = usize> {
    let halves = std::iter::successors(Some(length), |run| Some(run / 2)).take_while(|run| *run > 4);
    halves.chain([4, 3, 2, 1].into_iter().filter(move |run| *run <= length))
}

// The cases with a run of bytes left out of one part; then those with a setting of 0. They are made one by one, since a long
// text has as many as it has bytes.
fn smaller(case: &Case) -> impl Iterator<Item = Case> + '_ {
    let without = move |which: usize, at: usize, run: usize| {
        let mut less = case.clone();
        part(&mut less, which).drain(at..at + run);
        less
    };
    let zeroed = move |i: usize| {
        let mut less = case.clone();
        less.settings[i] = 0;
        less
    };
    let lengths = [case.text.len(), case.other.len(), case.sheet.len()];
    let parts = lengths.into_iter().enumerate().flat_map(move |(which, length)| {
        let places = move |run: usize| (0..=length - run).step_by((run / 4).max(1)).map(move |at| (at, run));
        runs(length).flat_map(places).map(move |(at, run)| without(which, at, run))
    });
    parts.chain((0..3).map(zeroed))
}

fn shrunk(mut case: Case, mut why: String, test: fn(&Case) -> Verdict) -> (Case, String) {
    let mut tries = 0;
    loop {
        let tried = |_: &Case| {
            tries += 1;
            tries <= TRIES
        };
        let found = smaller(&case).filter(|less| size(less) < size(&case)).take_while(tried).find_map(|less| match test(&less) {
            Fails(reason) => Some((less, reason)),
            _ => None,
        });
        match found {
            Some(less) => (case, why) = less,
            None => return (case, why),
        }
    }
}

impl Property {
    fn wants_more(&self) -> bool {
        self.broken < if self.wrong { 1 } else { ENOUGH }
    }

    fn ask(&mut self, case: &Case) {
        match (self.test)(case) {
            Aside => {}
            Holds => self.checked += 1,
            Fails(why) => {
                self.checked += 1;
                self.broken += 1;
                let found = shrunk(case.clone(), why, self.test);
                if self.smallest.as_ref().is_none_or(|old| size(&found.0) < size(&old.0)) {
                    self.smallest = Some(found);
                }
            }
        }
    }

    fn tell_smallest(&self) {
        if let Some((case, why)) = &self.smallest {
            println!("             settings {:?}, text \"{}\"", case.settings, shown(&case.text));
            let sheet = if case.sheet.len() > 400 { shown(&case.sheet) } else { format!("{:02x?}", case.sheet) };
            println!("             other text \"{}\", sheet {}: {}", shown(&case.other), sheet, why);
        }
    }

    // Whether it came out as it must.
    fn tell(&self) -> bool {
        let good = (self.broken > 0) == self.wrong && self.checked > 0;
        let outcome = match (self.wrong, good) {
            (false, true) => "holds",
            (false, false) => "FAILED",
            (true, true) => "refuted, as it must be",
            (true, false) => "FAILED: no case refutes it",
        };
        println!("{:10}  {}: {}", self.checked, self.name, outcome);
        self.tell_smallest();
        good
    }
}

pub fn ask_all(properties: &mut [Property], case: &Case) {
    for property in properties.iter_mut().filter(|p| p.wants_more()) {
        property.ask(case);
    }
}

// One test for each property.
pub fn tell_all(properties: &[Property]) {
    println!("   checked  property");
    let passed = properties.iter().filter(|p| p.tell()).count();
    println!("{} passed, {} failed", passed, properties.len() - passed);
    if passed < properties.len() {
        std::process::exit(1);
    }
}

// The number of texts and the seed: `--texts N`, `--seed N`.
pub fn asked_for(texts: u64) -> (u64, u64) {
    let arguments: Vec<String> = std::env::args().skip(1).collect();
    let mut asked = (texts, 1);
    for pair in arguments.chunks(2) {
        match (pair[0].as_str(), pair.get(1).and_then(|n| n.parse().ok())) {
            ("--texts", Some(n)) => asked.0 = n,
            ("--seed", Some(n)) => asked.1 = n,
            _ => panic!("--texts N, --seed N"),
        }
    }
    println!("{} texts, seed {}", asked.0, asked.1);
    asked
}
