// The stack that one call of fill takes, beside what the header states.
#[path = "../calls.rs"]
mod calls;
mod painting;
#[path = "../random/texts.rs"]
mod texts;

use std::ffi::c_void;

extern "C" {
    fn painted_fill(call: *mut c_void);
}

fn main() {
    // named: a is 7, the empty name is E; indexed: 7 and 8
    let named = b"\x01\x02\x00\x01\x00\x01\x00\x00\x00\x01\x00a7E";
    let indexed = b"\x02\x02\x00\x01\x00\x01\x0078";
    painting::tell(&[("fill, named", painted_fill, named), ("fill, indexed", painted_fill, indexed)], 200_000);
}
