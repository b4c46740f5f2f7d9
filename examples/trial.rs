//! A trial file on standard input, its lines on standard output, by way of libteravulk.a.
//!   trial [ROOM]     ROOM: how many bytes to lend for the text; 2,048, where all have room, unless said
use std::io::{Read, Write};
use std::process::ExitCode;

mod teravulk {
    extern "C" {
        fn teravulk_trial(bytes: *const u8, count: usize, out: *mut u8, room: usize) -> usize;
    }

    /// A buffer of so many bytes has room for the text of every trial.
    pub const PAGE: usize = 2048;

    /// The text of a trial at the start of `out`, or nothing where it has no room for the whole.
    pub fn trial<'a>(bytes: &[u8], out: &'a mut [u8]) -> Option<&'a [u8]> {
        // SAFETY: a slice's pointer is not null and can be read, or written, for its length; a `&mut` overlaps no other reference.
        let written = unsafe { teravulk_trial(bytes.as_ptr(), bytes.len(), out.as_mut_ptr(), out.len()) };
        if written == 0 {
            return None;
        }
        Some(&out[..written])
    }
}

fn main() -> Result<ExitCode, Box<dyn std::error::Error>> {
    let room = match std::env::args().nth(1) {
        Some(word) => word.parse()?,
        None => teravulk::PAGE,
    };
    // one byte more than the longest trial tells an input that is too long
    let mut bytes = Vec::new();
    std::io::stdin().take(65_537).read_to_end(&mut bytes)?;
    let mut out = vec![b'-'; room];
    if let Some(text) = teravulk::trial(&bytes, &mut out) {
        std::io::stdout().write_all(text)?;
        return Ok(ExitCode::SUCCESS);
    }
    println!("no room, and nothing written: {}", String::from_utf8_lossy(&out));
    Ok(ExitCode::FAILURE)
}
