//! Simplification: an outline without staircases, and without the points that cost little.
//!
//! Each call puts what is left at the start of `out` and answers how many points that is. It asks for
//! `places(points.len())` places.

use crate::lent::{lent, lent_mut};
use crate::refusal::counted;
use crate::{raw, Point, Refusal};

/// Leaves out one-pixel staircases. `clockwise` says which way round the list goes.
///
/// Asks for [`places(points.len())`](crate::places) places, and answers how many it filled.
///
/// ```
/// let pixel = [[0, 0], [1, 0], [1, 1], [0, 1], [0, 0]];
/// let mut out = [[9; 2]; 5];
/// assert_eq!(sandline::remove_staircase(&pixel, false, &mut out), Ok(2));
/// assert_eq!(out[..3], [[0, 0], [0, 0], [9, 9]]);
/// ```
pub fn remove_staircase(
    points: &[Point],
    clockwise: bool,
    out: &mut [Point],
) -> Result<usize, Refusal> {
    let (points, length) = lent(points.as_flattened());
    let (out, room) = lent_mut(out.as_flattened_mut());
    counted(|count| unsafe {
        raw::sandline_remove_staircase(points, length, clockwise, out, room, count)
    })
}

/// Leaves out the points that cost less than 1 to leave out: the square of the area of the triangle that
/// goes, over the side that takes its place. Of two points the first alone is left; a single one is
/// answered twice.
///
/// Asks for [`places(points.len())`](crate::places) places, and answers how many it filled.
///
/// ```
/// use sandline::{limit_penalties, Refusal};
/// let mut out = [[9; 2]; 2];
/// assert_eq!(limit_penalties(&[[7, 7]], &mut out), Ok(2));
/// assert_eq!(out, [[7, 7], [7, 7]]);
/// assert_eq!(limit_penalties(&[[7, 7]], &mut out[..1]), Err(Refusal::NoRoom));
/// ```
pub fn limit_penalties(points: &[Point], out: &mut [Point]) -> Result<usize, Refusal> {
    let (points, length) = lent(points.as_flattened());
    let (out, room) = lent_mut(out.as_flattened_mut());
    counted(|count| unsafe { raw::sandline_limit_penalties(points, length, out, room, count) })
}

/// Both, one after the other: what to do with a walked outline.
///
/// Asks for [`places(points.len())`](crate::places) places, and answers how many it filled.
///
/// ```
/// let square = [[0, 0], [4, 0], [4, 4], [0, 4], [0, 0]];
/// let mut out = [[9; 2]; 5];
/// assert_eq!(sandline::simplify(&square, true, &mut out), Ok(5));
/// assert_eq!(out, square);
/// ```
pub fn simplify(points: &[Point], clockwise: bool, out: &mut [Point]) -> Result<usize, Refusal> {
    let (points, length) = lent(points.as_flattened());
    let (out, room) = lent_mut(out.as_flattened_mut());
    counted(|count| unsafe { raw::sandline_simplify(points, length, clockwise, out, room, count) })
}
