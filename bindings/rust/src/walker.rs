//! Walks along the outline of what is set.

use crate::lent::lent_mut;
use crate::refusal::counted;
use crate::{raw, Chart, Point, Refusal};

impl Chart<'_> {
    /// Puts the outline of what is set at the start of `out`, walked from a corner of a pixel: the start,
    /// then the end of each run until one ends on the start. Answers how many points that is, and asks for
    /// as many places. At a fork a clockwise walk tries up, right, down, left, and another one left, down,
    /// right, up.
    ///
    /// A walk follows one outline: a hole, and a bank that does not touch this one, needs a start of its own.
    ///
    /// A walk that does not come back to its start is refused by [`Refusal::Stuck`]. Either the start lies in
    /// the middle of a straight edge: start where the outline turns. Or pixels touch only diagonally: before
    /// the walk set or clear pixels until none do, or start elsewhere, or walk the other way round.
    ///
    /// ```
    /// use sandline::{Chart, Refusal};
    /// let chart = Chart { width: 1, height: 1, pixels: &[0x80] };
    /// let mut out = [[0; 2]; 5];
    /// assert_eq!(chart.walk([0, 0], true, &mut out), Ok(5));
    /// assert_eq!(out, [[0, 0], [1, 0], [1, 1], [0, 1], [0, 0]]);
    /// assert_eq!(chart.walk([5, 5], true, &mut out), Err(Refusal::NoWay));
    /// assert_eq!(chart.walk([0, 0], true, &mut out[..4]), Err(Refusal::NoRoom));
    ///
    /// // Three pixels that touch only diagonally.
    /// let chart = Chart { width: 3, height: 2, pixels: &[0b101_00000, 0b010_00000] };
    /// let mut out = [[0; 2]; 20];
    /// assert_eq!(chart.walk([0, 0], true, &mut out), Err(Refusal::Stuck));
    /// // The other way round it comes back, from two of them, and goes along an edge twice.
    /// assert_eq!(chart.walk([0, 0], false, &mut out), Ok(8));
    /// ```
    pub fn walk(&self, start: Point, clockwise: bool, out: &mut [Point]) -> Result<usize, Refusal> {
        let (width, height, pixels, bytes) = self.lent();
        let (out, room) = lent_mut(out.as_flattened_mut());
        let [x, y] = start;
        counted(|count| unsafe {
            raw::sandline_walk(width, height, pixels, bytes, x, y, clockwise, out, room, count)
        })
    }
}
