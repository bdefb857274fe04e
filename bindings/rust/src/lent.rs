//! What the calls are lent: a slice goes as a pointer and its length in elements. A slice of Rust is aligned, as
//! long as it says, and shares no byte with another one that may be written: that is what the calls ask for.
//!
//! The calls take and answer 64 bits on every processor, where a `usize` has 32 or 64. So a length goes in whole.
//! What comes back fits: it is at most the length of a slice that was lent, or the 262,144 pixels of a chart, or the
//! 8,382,465 distances of 4,096 points, or it is what went in.

const _: () = assert!(usize::BITS == 32 || usize::BITS == 64);

/// A length, for the calls.
pub fn wide(length: usize) -> u64 {
    length as u64
}

/// A count, out of them.
pub fn narrow(count: u64) -> usize {
    count as usize
}

/// A slice to be read.
pub fn lent<T>(slice: &[T]) -> (*const T, u64) {
    (slice.as_ptr(), wide(slice.len()))
}

/// A slice to be written.
pub fn lent_mut<T>(slice: &mut [T]) -> (*mut T, u64) {
    (slice.as_mut_ptr(), wide(slice.len()))
}
