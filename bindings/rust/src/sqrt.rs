//! Square roots.

use crate::raw;

/// The square root as IEEE 754 has it: the double nearest to the exact root, ties to even. It takes little stack, for
/// an interrupt that has 512 bytes of it; `include/sandline.h` has the figures.
///
/// ```
/// assert_eq!(sandline::sqrt(2.0).to_bits(), 0x3ff6a09e667f3bcd);
/// assert!(sandline::sqrt(-1.0).is_nan());
/// ```
pub fn sqrt(x: f64) -> f64 {
    unsafe { raw::sandline_sqrt(x) }
}

/// The same of a double's bits. Of NaN and below zero it is always 7ff8000000000000.
///
/// ```
/// assert_eq!(sandline::sqrt_bits((-1.0_f64).to_bits()), 0x7ff8000000000000);
/// ```
pub fn sqrt_bits(bits: u64) -> u64 {
    unsafe { raw::sandline_sqrt_bits(bits) }
}
