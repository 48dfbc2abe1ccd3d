// The places that cut writes: a part's start and length, two 32-bit words, little-endian.
#![allow(dead_code)]

pub const PLACE: usize = 8;

// The refusal where fewer places are lent than there are parts.
pub const PARTS_FULL: u64 = 7;

// Start and length.
pub type Part = (usize, usize);

pub fn written(parts: &[Part]) -> Vec<u8> {
    parts.iter().flat_map(|part| [part.0, part.1]).flat_map(|word| (word as u32).to_le_bytes()).collect()
}

pub fn read(places: &[u8]) -> Vec<Part> {
    let word = |bytes: &[u8]| u32::from_le_bytes(bytes.try_into().unwrap()) as usize;
    places.chunks(PLACE).map(|place| (word(&place[..4]), word(&place[4..]))).collect()
}
