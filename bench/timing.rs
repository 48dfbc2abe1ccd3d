// What the benchmarks share.
#![allow(dead_code)]

use std::hint::black_box;
use std::time::Instant;

const BATCHES: usize = 31;

fn median(mut times: Vec<f64>) -> f64 {
    times.sort_by(f64::total_cmp);
    times[times.len() / 2]
}

fn batch(call: &mut impl FnMut(), calls: usize) -> f64 {
    let start = Instant::now();
    (0..calls).for_each(|_| call());
    start.elapsed().as_nanos() as f64 / calls as f64
}

// As many calls as take half a millisecond.
fn enough(call: &mut impl FnMut()) -> usize {
    let mut calls = 1;
    while batch(call, calls) * (calls as f64) < 500_000.0 {
        calls *= 2;
    }
    calls
}

// Nanoseconds of one call, the median of 31 batches of at least half a millisecond.
pub fn time(mut call: impl FnMut()) -> f64 {
    let calls = enough(&mut call);
    median((0..BATCHES).map(|_| batch(&mut call, calls)).collect())
}

// The same for calls that are compared: a batch of each in turn, so that what else the machine does falls on all of them.
pub struct Together {
    rounds: Vec<Vec<f64>>,
}

pub fn together<const N: usize>(mut calls: [&mut dyn FnMut(); N]) -> Together {
    let sizes: Vec<usize> = calls.iter_mut().map(|call| enough(&mut || call())).collect();
    let mut round = || calls.iter_mut().zip(&sizes).map(|(call, size)| batch(&mut || call(), *size)).collect();
    Together { rounds: (0..BATCHES).map(|_| round()).collect() }
}

impl Together {
    pub fn time(&self, call: usize) -> f64 {
        median(self.rounds.iter().map(|round| round[call]).collect())
    }

    // The median over the rounds of one call's time divided by another's.
    pub fn ratio(&self, call: usize, other: usize) -> f64 {
        median(self.rounds.iter().map(|round| round[call] / round[other]).collect())
    }
}

// Nanoseconds of one call that may be slow: the fastest of nine, of three from 20 milliseconds on, of one from 300 on.
pub fn time_slow(mut call: impl FnMut()) -> f64 {
    let first = batch(&mut call, 1);
    let more = match first {
        ..2e7 => 8,
        ..3e8 => 2,
        _ => 0,
    };
    (0..more).map(|_| batch(&mut call, 1)).fold(first, f64::min)
}

// The same for a call on a text, in nanoseconds a byte.
pub fn a_byte<T>(text: &[u8], mut call: impl FnMut(&[u8]) -> T) -> f64 {
    time_slow(|| {
        black_box(call(black_box(text)));
    }) / text.len() as f64
}

// The part over and over, up to so many bytes, ending between two characters.
pub fn text(part: &str, most: usize) -> Vec<u8> {
    let mut text = String::new();
    for c in part.chars().cycle() {
        if text.len() + c.len_utf8() > most {
            return text.into_bytes();
        }
        text.push(c);
    }
    unreachable!()
}
