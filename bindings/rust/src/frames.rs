//! Frames: a call as a line of hexadecimal digits.

use crate::lent::{lent, lent_mut, narrow, wide};
use crate::raw;

/// Puts the answer to a frame, a line of hexadecimal digits with no end of line, into `out` from `at` on,
/// and answers the place behind it; or none where it does not fit, and then nothing is written. Document 01
/// has the frames. An answer has 8 digits at least, and 32,768 at most; what is no frame is answered too.
///
/// ```
/// let mut out = [b'.'; 50];
/// assert_eq!(sandline::answer(b"0101000100010000000080", &mut out, 0), Some(48));
/// assert_eq!(&out, b"810000050000000000010000000100010000000100000000..");
/// assert_eq!(sandline::answer(b"no frame", &mut out, 42), Some(50));
/// assert_eq!(&out[42..], b"ff0b0000");
/// assert_eq!(sandline::answer(b"no frame", &mut out, 43), None);
/// ```
pub fn answer(line: &[u8], out: &mut [u8], at: usize) -> Option<usize> {
    let (line, length) = lent(line);
    let (out, room) = lent_mut(out);
    let next = narrow(unsafe { raw::sandline_answer(line, length, out, room, wide(at)) });
    (next != at).then_some(next)
}
