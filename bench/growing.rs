// How a call's time grows with the length of its text.
use crate::calls::{Answer, Settings};
use crate::searches::texts::{hard, HARD};
use crate::timing::a_byte;

const SIZES: [usize; 4] = [8192, 16384, 32768, 65536];

pub fn head(title: &str) {
    println!("\n{title:34}     8 KiB    16 KiB    32 KiB    64 KiB  growth");
}

// Nanoseconds a byte at each size, and the last beside the first: about 1 where time grows with the length, about 8 where it
// grows with the square.
pub fn growth(name: &str, time: impl FnMut(usize) -> f64) {
    let times = SIZES.map(time);
    print!("{name:34}");
    times.iter().for_each(|time| print!("{time:10.1}"));
    println!("{:8.1}", times[3] / times[0]);
}

// A row for each text that could be slow.
pub fn growths(title: &str, mut call: impl FnMut(&[u8], Settings) -> Answer) {
    head(title);
    for (name, before, part, behind, dialect) in HARD {
        growth(name, |most| a_byte(&hard(before, part, behind, most), |text| call(text, [*dialect, 0, 0])));
    }
}
