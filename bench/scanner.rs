// The plain scanner in C, beside which the calls are measured.
use std::hint::black_box;

extern "C" {
    fn plain_scan(text: *const u8, length: usize, records: *mut u8, room: usize) -> usize;
}

pub fn scan(text: &[u8], records: &mut [u8]) {
    black_box(unsafe { plain_scan(text.as_ptr(), text.len(), records.as_mut_ptr(), records.len()) });
}
