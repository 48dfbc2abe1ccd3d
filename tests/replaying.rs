// What the replays of the files in tests/vectors share: the count of checks, and the check of a written text.
#![allow(dead_code)]

use crate::calls::Answer;
use crate::vector_file::Check;

// The byte that stands where nothing may be written.
pub const GUARD: u8 = 0xA5;

// The bytes past an output that are looked at.
pub const PAST: usize = 64;

pub struct Count {
    passed: usize,
    failed: usize,
}

impl Count {
    pub fn new() -> Count {
        Count { passed: 0, failed: 0 }
    }

    pub fn check(&mut self, line: usize, holds: bool, what: impl Fn() -> String) {
        if holds {
            self.passed += 1;
        } else {
            self.failed += 1;
            println!("line {}: {}", line, what());
        }
    }

    // What a call answered, as numbers.
    pub fn check_answer(&mut self, line: usize, got: &[u64], expected: &[u64]) {
        self.check(line, got == expected, || format!("answered {:?}, not {:?}", got, expected));
    }

    // What a call wrote into an output with PAST bytes behind it, all of which held GUARD.
    pub fn check_text(&mut self, line: usize, output: &[u8], text: &[u8]) {
        let end = text.len();
        let fits = end + PAST <= output.len();
        let written = fits && output[..end] == *text;
        self.check(line, written, || format!("the text is not {:?}", String::from_utf8_lossy(text)));
        let kept = fits && output[end..].iter().all(|b| *b == GUARD);
        self.check(line, kept, || "a byte past the text was written".to_string());
    }

    // A call that writes a text, made on an output with so many bytes lent.
    pub fn check_call(&mut self, check: &Check, call: impl Fn(&mut [u8]) -> Answer) -> Answer {
        let lent = check.inputs.lent;
        let mut output = vec![GUARD; lent + PAST];
        let answer = call(&mut output[..lent]);
        self.check_answer(check.line, &[answer.0, answer.1], &check.numbers);
        self.check_text(check.line, &output, &check.text);
        answer
    }

    // All checks of a file are one test.
    pub fn tell(&self) {
        println!("{} checks hold, {} do not", self.passed, self.failed);
        if self.passed == 0 || self.failed > 0 {
            println!("0 passed, 1 failed");
            std::process::exit(1);
        }
        println!("1 passed, 0 failed");
    }
}
