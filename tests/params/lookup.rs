// One lookup with all that it tells.
use crate::calls::{Settings, MOST};
use crate::rattle_calls;

#[derive(PartialEq, Debug)]
pub struct Looked {
    pub number: u64,
    pub detail: u64,
    pub counter: u64,
    pub part: Vec<u8>,
}

// The token at a place of the list, from a counter.
pub fn lookup(text: &[u8], settings: Settings, sheet: &[u8], place: usize, mut counter: u64) -> Looked {
    let mut part = vec![0; MOST];
    let (number, detail) = rattle_calls::lookup(text, settings, sheet, place, &mut counter, &mut part);
    part.truncate(detail as usize);
    Looked { number, detail, counter, part }
}
