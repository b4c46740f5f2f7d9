//! A plan on standard input, the plan with its clusters laid out on standard output, by way of libteravulk.a.
//!   layout DEPTH [ROOM]     ROOM: how many bytes to lend for the plan; as many as stand on standard input, where it has room, unless said
use std::io::{Read, Write};
use std::process::ExitCode;

mod teravulk {
    extern "C" {
        fn teravulk_layout(bytes: *const u8, count: usize, depth: usize, out: *mut u8, room: usize, place: *mut usize) -> usize;
    }

    /// Why a plan is not laid out: the number of the refusal and its place.
    pub struct Refused {
        pub number: usize,
        pub place: usize,
    }

    /// The plan that `bytes` begins with, laid out at the start of `out`.
    pub fn layout<'a>(bytes: &[u8], depth: usize, out: &'a mut [u8]) -> Result<&'a [u8], Refused> {
        let mut place = 0;
        // SAFETY: a slice's pointer is not null and can be read, or written, for its length; a `&mut` overlaps no other reference.
        let number = unsafe { teravulk_layout(bytes.as_ptr(), bytes.len(), depth, out.as_mut_ptr(), out.len(), &mut place) };
        if number != 0 {
            return Err(Refused { number, place });
        }
        Ok(&out[..place])
    }
}

fn main() -> Result<ExitCode, Box<dyn std::error::Error>> {
    let mut words = std::env::args().skip(1);
    let depth = words.next().ok_or("layout DEPTH [ROOM]")?.parse()?;
    let mut bytes = Vec::new();
    std::io::stdin().take(65_537).read_to_end(&mut bytes)?;
    let room = match words.next() {
        Some(word) => word.parse()?,
        None => bytes.len(),
    };
    let mut out = vec![b'-'; room];
    match teravulk::layout(&bytes, depth, &mut out) {
        Ok(plan) => {
            std::io::stdout().write_all(plan)?;
            Ok(ExitCode::SUCCESS)
        }
        Err(refused) => {
            println!("refused {} {}, and nothing written: {}", refused.number, refused.place, String::from_utf8_lossy(&out));
            Ok(ExitCode::FAILURE)
        }
    }
}
