// The functions of the static library libunicode_exports.a as Rust declares them. Nothing checks these lines against the
// Rattle source: a `&[u8]` is a pointer and a length.
#![allow(dead_code)]

mod c {
    extern "C" {
        pub fn unicode_first_ill_formed(text: *const u8, len: usize) -> usize;
        pub fn unicode_code_point(text: *const u8, len: usize, at: usize) -> u32;
        pub fn unicode_character_length(text: *const u8, len: usize, at: usize) -> usize;
        pub fn unicode_is_whitespace(c: u32) -> bool;
        pub fn unicode_is_alphabetic(c: u32) -> bool;
        pub fn unicode_is_word_character(c: u32) -> bool;
    }
}

pub fn first_ill_formed(text: &[u8]) -> usize {
    unsafe { c::unicode_first_ill_formed(text.as_ptr(), text.len()) }
}

pub fn code_point(text: &[u8], at: usize) -> u32 {
    unsafe { c::unicode_code_point(text.as_ptr(), text.len(), at) }
}

pub fn character_length(text: &[u8], at: usize) -> usize {
    unsafe { c::unicode_character_length(text.as_ptr(), text.len(), at) }
}

pub fn is_whitespace(c: u32) -> bool {
    unsafe { c::unicode_is_whitespace(c) }
}

pub fn is_alphabetic(c: u32) -> bool {
    unsafe { c::unicode_is_alphabetic(c) }
}

pub fn is_word_character(c: u32) -> bool {
    unsafe { c::unicode_is_word_character(c) }
}
