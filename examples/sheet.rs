//! Prints the sheet of a trace file: rustc sheet.rs -L target/staticlib -l static=snailstamp

use std::io::{Read, Write};

extern "C" {
    fn snailstamp_sheet(trace: *const u8, trace_length: usize, out: *mut u8, out_length: usize) -> u64;
}

/// No sheet is longer than this.
const SHEET_MOST: usize = 393_629;

fn sheet(trace: &[u8]) -> Option<Vec<u8>> {
    let mut out = vec![0; SHEET_MOST];
    // Both pointers come with the length of their own slice, and the two do not overlap.
    let answer = unsafe { snailstamp_sheet(trace.as_ptr(), trace.len(), out.as_mut_ptr(), out.len()) };
    (answer % 256 == 0).then(|| {
        out.truncate((answer / 256) as usize);
        out
    })
}

fn main() -> std::io::Result<()> {
    let mut trace = Vec::new();
    std::io::stdin().read_to_end(&mut trace)?;
    let text = sheet(&trace).expect("a buffer that is long enough for any sheet");
    std::io::stdout().write_all(&text)
}
