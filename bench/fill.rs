// Speed of fill through the C boundary, beside a plain scanner in C and memcpy in the same run; and how its time grows with
// statement and sheet together.
#[path = "../tests/calls.rs"]
mod calls;
mod growing;
mod scanner;
mod searches;
mod timing;

use calls::{fill, DONE, RECORD};
use growing::{growth, growths, head};
use scanner::scan;
use std::hint::black_box;
use timing::{a_byte, text, together};

const NAMED: u8 = 1;
const INDEXED: u8 = 2;

fn sheet(kind: u8, entries: &[(&str, &str)]) -> Vec<u8> {
    let mut bytes = vec![kind];
    bytes.extend_from_slice(&(entries.len() as u16).to_le_bytes());
    for (name, value) in entries {
        if kind == NAMED {
            bytes.extend_from_slice(&(name.len() as u16).to_le_bytes());
        }
        bytes.extend_from_slice(&(value.len() as u16).to_le_bytes());
    }
    entries.iter().for_each(|(name, value)| bytes.extend_from_slice([*name, *value].concat().as_bytes()));
    bytes
}

// As many entries as so many bytes hold: values of one byte, names `b` and a last one `a`.
fn wide_sheet(kind: u8, most: usize) -> Vec<u8> {
    let (name, last, entry) = if kind == NAMED { ("b", "a", 6) } else { ("", "", 3) };
    let mut entries = vec![(name, "7"); (most - 3) / entry];
    *entries.last_mut().unwrap() = (last, "8");
    sheet(kind, &entries)
}

fn filled(text: &[u8], sheet: &[u8], output: &mut [u8]) {
    assert!(black_box(fill(black_box(text), [0, 0, 0], sheet, output)).0 == DONE);
}

fn speeds(name: &str, text: &[u8], table: &mut [u8]) {
    let named = sheet(NAMED, &[("zone", "'Zone 4'"), ("coiler", "2"), ("печь", "3")]);
    let indexed = sheet(INDEXED, &[("", "35"), ("", "'Zone 4'"), ("", "20")]);
    let [mut first, mut second, mut third] = [(); 3].map(|_| vec![0; 1 << 20]);
    let mut copy = vec![0; text.len()];
    let times = together([
        &mut || filled(text, &[0, 0, 0], &mut first),
        &mut || filled(text, &indexed, &mut second),
        &mut || filled(text, &named, &mut third),
        &mut || scan(black_box(text), table),
        &mut || black_box(&mut copy).copy_from_slice(black_box(text)),
    ]);
    print!("{name:20} {:6}", text.len());
    (0..5).for_each(|call| print!(" {:10.3}", times.time(call) / text.len() as f64));
    println!(" {:10.1} {:10.1}", times.ratio(1, 3), times.ratio(2, 3));
}

// Statement and sheet both of so many bytes. `LAST` in the part stands for the place of the sheet's last entry.
fn growth_with(name: &str, part: &str, kind: u8) {
    let mut output = vec![0; 1 << 20];
    growth(name, |most| {
        let sheet = wide_sheet(kind, most);
        let last = u16::from_le_bytes([sheet[1], sheet[2]]).to_string();
        a_byte(&text(&part.replace("LAST", &last), most), |text| fill(text, [0, 0, 0], &sheet, &mut output))
    });
}

fn main() {
    let mut table = vec![0; 65536 * RECORD];
    println!("                                        fill, ns a byte                               time / scanner's");
    println!(
        "                      bytes  no values    indexed      named    scanner     memcpy    indexed      named"
    );
    for (name, text) in searches::all() {
        speeds(name, &text, &mut table);
    }
    head("fill with a sheet, ns a byte");
    growth_with("?, indexed sheet as long", "? ", INDEXED);
    growth_with("$30000, past the end of it", "$30000 ", INDEXED);
    growth_with("$1, indexed sheet as long", "$1 ", INDEXED);
    growth_with("$ and the last place of it", "$LAST ", INDEXED);
    growth_with("?, named sheet as long", "? ", NAMED);
    growth_with(":a, the last of a named sheet", ":a ", NAMED);
    growth_with(":b, the first of it", ":b ", NAMED);
    growth_with(":c, not in it", ":c ", NAMED);
    growth_with("{ .. , named sheet as long", "{", NAMED);
    let mut output = vec![0; 1 << 20];
    growths("fill without values, ns a byte", |text, settings| fill(text, settings, &[0, 0, 0], &mut output));
}
