//! Corners: where an outline turns.

use crate::lent::{lent, lent_mut};
use crate::refusal::counted;
use crate::{raw, Point, Refusal};

/// The angle from which on a turn is a corner: `c` and `s` are proportional to its cosine and sine, so that
/// 0 and 1 stand for 90 degrees. `c` is -1,000 to 1,000, `s` 1 to 1,000.
#[derive(Clone, Copy, Debug, PartialEq, Eq)]
pub struct Pair {
    /// Proportional to the cosine.
    pub c: i32,
    /// Proportional to the sine.
    pub s: i32,
}

/// Puts a flag for each point at the start of `flags`, 1 for a corner, and answers how many those are. A point
/// turns from the nearest before it that differs to the nearest behind it that does, on a closed list also past
/// its ends, so one that was entered twice is no corner by that alone; where on a side none differs it is none.
/// An open list's ends are corners. A closed list's last point, which repeats the first, has no flag. Exact, in
/// whole numbers.
///
/// Asks for as many flags as it answers.
///
/// ```
/// use sandline::{find_corners, Pair};
/// let square = [[0, 0], [4, 0], [4, 4], [0, 4], [0, 0]];
/// let mut flags = [9; 5];
/// assert_eq!(find_corners(&square, Pair { c: 0, s: 1 }, true, &mut flags), Ok(4));
/// assert_eq!(flags, [1, 1, 1, 1, 9]);
///
/// let straight = [[0, 0], [4, 0], [4, 0], [8, 0]];
/// assert_eq!(find_corners(&straight, Pair { c: 0, s: 1 }, false, &mut flags), Ok(4));
/// assert_eq!(flags, [1, 0, 0, 1, 9]);
/// ```
pub fn find_corners(
    points: &[Point],
    pair: Pair,
    closed: bool,
    flags: &mut [u8],
) -> Result<usize, Refusal> {
    let (points, length) = lent(points.as_flattened());
    let (flags, room) = lent_mut(flags);
    counted(|count| unsafe {
        raw::sandline_find_corners(points, length, pair.c, pair.s, closed, flags, room, count)
    })
}
