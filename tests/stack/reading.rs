// The stack that one call of tokenize or tighten takes, beside what the header states.
#[path = "../calls.rs"]
mod calls;
mod painting;
#[path = "../random/texts.rs"]
mod texts;

use std::ffi::c_void;

extern "C" {
    fn painted_tokenize(call: *mut c_void);
    fn painted_tighten(call: *mut c_void);
}

fn main() {
    painting::tell(&[("tokenize", painted_tokenize, &[]), ("tighten", painted_tighten, &[])], 200_000);
}
