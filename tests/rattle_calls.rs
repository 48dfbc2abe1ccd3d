// The calls that serve Rattle callers alone, for tests in Rust: these link libcalls_exports.a.
#![allow(dead_code)]

use crate::calls::{Answer, Settings};

extern "C" {
    fn calls_lookup(
        statement: *const u8,
        statement_len: usize,
        dialect: u64,
        joins: u64,
        named: u64,
        sheet: *const u8,
        sheet_len: usize,
        place: usize,
        counter: *mut u64,
        number: *mut u64,
        detail: *mut u64,
        bytes: *mut u8,
        bytes_len: usize,
    );
    fn calls_lookup_place(
        statement: *const u8,
        statement_len: usize,
        dialect: u64,
        joins: u64,
        named: u64,
        sheet: *const u8,
        sheet_len: usize,
        place: usize,
        counter: *mut u64,
        number: *mut u64,
        detail: *mut u64,
        source: *mut u64,
        start: *mut u64,
    );
    fn calls_cut(
        script: *const u8,
        script_len: usize,
        places: *mut u8,
        places_len: usize,
        number: *mut u64,
        detail: *mut u64,
    );
}

// A number that no call gives, so that one sees it written.
const UNWRITTEN: u64 = 99;

// The part is copied to the start of `bytes`.
pub fn lookup(
    text: &[u8],
    [dialect, joins, named]: Settings,
    sheet: &[u8],
    place: usize,
    counter: &mut u64,
    bytes: &mut [u8],
) -> Answer {
    let (mut number, mut detail) = (UNWRITTEN, UNWRITTEN);
    unsafe {
        calls_lookup(
            text.as_ptr(),
            text.len(),
            dialect,
            joins,
            named,
            sheet.as_ptr(),
            sheet.len(),
            place,
            counter,
            &mut number,
            &mut detail,
            bytes.as_mut_ptr(),
            bytes.len(),
        )
    }
    (number, detail)
}

// The part's source, 0 the statement and 1 the sheet, and its start there.
pub fn lookup_place(
    text: &[u8],
    [dialect, joins, named]: Settings,
    sheet: &[u8],
    place: usize,
    counter: &mut u64,
) -> (Answer, [u64; 2]) {
    let (mut number, mut detail, mut source, mut start) = (UNWRITTEN, UNWRITTEN, UNWRITTEN, UNWRITTEN);
    unsafe {
        calls_lookup_place(
            text.as_ptr(),
            text.len(),
            dialect,
            joins,
            named,
            sheet.as_ptr(),
            sheet.len(),
            place,
            counter,
            &mut number,
            &mut detail,
            &mut source,
            &mut start,
        )
    }
    ((number, detail), [source, start])
}

// The parts' places are written to the start of `places`.
pub fn cut(script: &[u8], places: &mut [u8]) -> Answer {
    let (mut number, mut detail) = (UNWRITTEN, UNWRITTEN);
    unsafe {
        calls_cut(
            script.as_ptr(),
            script.len(),
            places.as_mut_ptr(),
            places.len(),
            &mut number,
            &mut detail,
        )
    }
    (number, detail)
}
