//! clock RUN PLAN: nanoseconds of one trial in the proved library and in plain.rs, the run less the plan alone. Both are called in this one
//! process, in turn, a thousand times each; of each the shortest counts, since what else the machine does can only add. Nothing is cleared
//! between calls.
use std::hint::black_box;
use std::time::Instant;

#[path = "plain.rs"]
mod plain;

extern "C" {
    fn teravulk_trial(bytes: *const u8, count: usize, out: *mut u8, room: usize) -> usize;
}

fn proved(bytes: &[u8], page: &mut [u8; 2048]) -> usize {
    // SAFETY: both are slices of that length, and a `&mut` overlaps no other reference.
    unsafe { teravulk_trial(bytes.as_ptr(), bytes.len(), page.as_mut_ptr(), page.len()) }
}

fn nanoseconds(call: impl FnOnce()) -> u128 {
    let began = Instant::now();
    call();
    began.elapsed().as_nanos()
}

/// the shortest call of the proved library and of the plain one
fn shortest(bytes: &[u8]) -> [u128; 2] {
    let (mut page, mut text) = ([0; 2048], String::new());
    let mut best = [u128::MAX; 2];
    for _ in 0..1000 {
        text.clear();
        let mut count = 0;
        best[0] = best[0].min(nanoseconds(|| count = proved(black_box(bytes), &mut page)));
        best[1] = best[1].min(nanoseconds(|| plain::trial(black_box(bytes), &mut text)));
        assert_eq!(&page[..count], text.as_bytes(), "the two print different lines");
    }
    best
}

fn main() -> std::io::Result<()> {
    let files: Vec<String> = std::env::args().skip(1).collect();
    let [run, plan] = [shortest(&std::fs::read(&files[0])?), shortest(&std::fs::read(&files[1])?)];
    println!("{} {}", run[0] - plan[0], run[1] - plan[1]);
    Ok(())
}
