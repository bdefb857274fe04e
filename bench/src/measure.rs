//! Marks for callgrind, bytes of stack, and time.

use crate::sides::Job;
use std::hint::black_box;

extern "C" {
    fn count_from_here();
    fn count_to_here();
    fn own_seconds() -> f64;
}

/// Runs a call for callgrind, which counts it and nothing else.
pub fn counted(job: &mut dyn Job) {
    unsafe { count_from_here() };
    job.run();
    unsafe { count_to_here() };
}

/// Seconds that a run takes of the processor, the least of nine samples of ten milliseconds or of one run.
pub fn seconds(job: &mut dyn Job) -> f64 {
    let runs = (0.01 / sample(job, 1)).clamp(1.0, 1e5) as u32;
    (0..9).map(|_| sample(job, runs)).fold(f64::INFINITY, f64::min)
}

fn sample(job: &mut dyn Job, runs: u32) -> f64 {
    let from = unsafe { own_seconds() };
    for _ in 0..runs {
        job.run();
    }
    (unsafe { own_seconds() } - from) / f64::from(runs)
}

/// More stack than a call takes.
const STACK: usize = 1 << 20;
const PAINT: u8 = 0xa5;

/// Bytes of stack that a run takes: as far down as it changes a painted stack.
pub fn stack(job: &mut dyn Job) -> usize {
    let from = paint();
    job.run();
    unpainted(from)
}

/// Paints the stack below the caller, and answers where the paint starts.
#[inline(never)]
fn paint() -> usize {
    let mut stack = [PAINT; STACK];
    black_box(&mut stack).as_ptr() as usize
}

/// How far down the paint was lost.
#[inline(never)]
fn unpainted(from: usize) -> usize {
    let byte = |at: usize| unsafe { std::ptr::read_volatile((from + at) as *const u8) };
    STACK - (0..STACK).find(|&at| byte(at) != PAINT).unwrap_or(STACK)
}
