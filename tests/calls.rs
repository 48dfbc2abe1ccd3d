// The three calls, for tests and benchmarks in Rust.
#![allow(dead_code)]

extern "C" {
    fn ventpeeler_tokenize(
        statement: *const u8,
        statement_len: usize,
        dialect: u64,
        joins: u64,
        named: u64,
        records: *mut u8,
        records_len: usize,
    ) -> u64;
    fn ventpeeler_tighten(
        statement: *const u8,
        statement_len: usize,
        dialect: u64,
        joins: u64,
        named: u64,
        output: *mut u8,
        output_len: usize,
    ) -> u64;
    fn ventpeeler_fill(
        statement: *const u8,
        statement_len: usize,
        dialect: u64,
        joins: u64,
        named: u64,
        sheet: *const u8,
        sheet_len: usize,
        output: *mut u8,
        output_len: usize,
    ) -> u64;
}

pub const RECORD: usize = 32;
pub const MOST: usize = 65536;

pub const DONE: u64 = 0;
pub const OVERLONG: u64 = 1;
pub const NOT_UTF8: u64 = 2;
pub const SETTING: u64 = 3;
pub const TABLE_FULL: u64 = 4;
pub const SHEET: u64 = 5;
pub const OUTPUT_FULL: u64 = 6;
pub const PLACE_NOUGHT: u64 = 8;

pub const WHITESPACE: u32 = 1;
pub const STRING: u32 = 2;
pub const TOP_LEVEL: u32 = 4;
pub const NEWLINE: u32 = 6;
pub const OPEN_PAREN: u32 = 9;
pub const CLOSE_PAREN: u32 = 10;
pub const LINE_COMMENT: u32 = 11;
pub const PLACEHOLDER: u32 = 14;

// Dialect, joins, named.
pub type Settings = [u64; 3];

// Number and detail.
pub type Answer = (u64, u64);

fn unpacked(answer: u64) -> Answer {
    (answer >> 56, answer & ((1 << 56) - 1))
}

// With the escaped quotes, which stand above the detail where tokens were written.
pub fn tokenize_escaped(text: &[u8], [dialect, joins, named]: Settings, records: &mut [u8]) -> (Answer, u64) {
    let (number, detail) = unpacked(unsafe {
        ventpeeler_tokenize(text.as_ptr(), text.len(), dialect, joins, named, records.as_mut_ptr(), records.len())
    });
    if number == DONE { ((DONE, detail & 0xFFFF_FFFF), detail >> 32) } else { ((number, detail), 0) }
}

pub fn tokenize(text: &[u8], settings: Settings, records: &mut [u8]) -> Answer {
    tokenize_escaped(text, settings, records).0
}

pub fn tighten(text: &[u8], [dialect, joins, named]: Settings, output: &mut [u8]) -> Answer {
    unpacked(unsafe {
        ventpeeler_tighten(text.as_ptr(), text.len(), dialect, joins, named, output.as_mut_ptr(), output.len())
    })
}

pub fn fill(text: &[u8], [dialect, joins, named]: Settings, sheet: &[u8], output: &mut [u8]) -> Answer {
    unpacked(unsafe {
        ventpeeler_fill(
            text.as_ptr(),
            text.len(),
            dialect,
            joins,
            named,
            sheet.as_ptr(),
            sheet.len(),
            output.as_mut_ptr(),
            output.len(),
        )
    })
}
