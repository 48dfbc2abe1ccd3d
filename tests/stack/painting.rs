// The stack that one call takes: the worst over hard texts and texts at random.
use crate::calls::{Settings, MOST, RECORD};
use crate::texts::{self, Chance, HARD};
use std::ffi::c_void;

#[repr(C)]
pub struct Call {
    statement: *const u8,
    statement_len: usize,
    settings: Settings,
    sheet: *const u8,
    sheet_len: usize,
    lent: *mut u8,
    lent_len: usize,
    answer: u64,
}

extern "C" {
    fn paint_stack();
    fn touched_stack() -> usize;
    fn stated_stack() -> usize;
    fn painted_nothing(call: *mut c_void);
}

pub type Painted = unsafe extern "C" fn(*mut c_void);

fn make(painted: Painted, text: &[u8], settings: Settings, sheet: &[u8], lent: &mut [u8]) {
    let mut call = Call {
        statement: text.as_ptr(),
        statement_len: text.len(),
        settings,
        sheet: sheet.as_ptr(),
        sheet_len: sheet.len(),
        lent: lent.as_mut_ptr(),
        lent_len: lent.len(),
        answer: 0,
    };
    unsafe { painted((&raw mut call).cast()) }
}

fn deeper(worst: (usize, &'static str), name: &'static str) -> (usize, &'static str) {
    let touched = unsafe { touched_stack() };
    if touched > worst.0 {
        (touched, name)
    } else {
        worst
    }
}

// How deep the calls go, and the first text that went there.
fn deepest(painted: Painted, sheet: &[u8], random: usize) -> (usize, &'static str) {
    let mut lent = vec![0; MOST * RECORD];
    let mut chance = Chance::new(2);
    let mut worst = (0, "none");
    unsafe { paint_stack() };
    for (name, before, part, behind, dialect) in HARD {
        let text = texts::hard(before, part, behind, 16384);
        make(painted, &text, [*dialect, 0, 0], sheet, &mut lent);
        worst = deeper(worst, name);
    }
    for _ in 0..random {
        let settings = texts::settings(&mut chance);
        let text = texts::search(&mut chance);
        make(painted, &text, settings, sheet, &mut lent);
    }
    deeper(worst, "a text at random")
}

// One test for each call, with its sheet: less than the header states.
pub fn tell(calls: &[(&str, Painted, &[u8])], random: usize) {
    let stated = unsafe { stated_stack() };
    let (frame, _) = deepest(painted_nothing, &[], 1);
    println!("{random} texts at random and {} hard ones; the measuring itself takes {frame} bytes", HARD.len());
    let mut failed = 0;
    for (name, painted, sheet) in calls {
        let (bytes, text) = deepest(*painted, sheet, random);
        println!("{name:14} {bytes:6} bytes of stack, stated: less than {stated}; first met by {text}");
        failed += (bytes <= frame || bytes >= stated) as usize;
    }
    println!("{} passed, {} failed", calls.len() - failed, failed);
    std::process::exit((failed > 0) as i32);
}
