//! Spirals: a square of pixels, one by one from its centre outwards.

use crate::lent::wide;
use crate::refusal::{answered, handed};
use crate::{raw, Point, Refusal};

/// Where a spiral stands, and how it goes on. [`Spiral::new`] makes one; a field out of range makes
/// [`Spiral::advance`] refuse.
#[derive(Clone, Copy, Debug, PartialEq, Eq)]
#[repr(C)]
pub struct Spiral {
    /// -512 to 512.
    pub x: i32,
    /// -512 to 512.
    pub y: i32,
    /// 0 to 3.
    pub dir: i32,
    /// -1 to 1.
    pub gx: i32,
    /// -1 to 1.
    pub gy: i32,
    /// 1 to 1,024.
    pub sq: i32,
    /// 0 to `sq - 1`.
    pub cc: i32,
    /// Up to 262,144.
    pub area: u64,
    /// Up to `area`.
    pub step: u64,
}

impl Spiral {
    /// The spiral of a square of `size` by `size`, 0 to 512, before its first step.
    ///
    /// ```
    /// use sandline::{Refusal, Spiral};
    /// let mut spiral = Spiral::new(2)?;
    /// for place in [[0, 0], [1, 0], [1, 1], [0, 1]] {
    ///     assert_eq!(spiral.advance(), Ok(Some(place)));
    /// }
    /// assert_eq!(spiral.advance(), Ok(None));
    /// assert_eq!(Spiral::new(513), Err(Refusal::BadSize));
    /// # Ok::<(), Refusal>(())
    /// ```
    pub fn new(size: usize) -> Result<Spiral, Refusal> {
        answered(
            Spiral { x: 0, y: 0, dir: 0, gx: 0, gy: 0, sq: 0, cc: 0, area: 0, step: 0 },
            |spiral| unsafe { raw::sandline_spiral(wide(size), spiral) },
        )
    }

    /// One step: the place that the spiral stood on, or none where it has ended, and then it stays as it
    /// is. Odd sizes from 3 leave the square, as in the Rust.
    pub fn advance(&mut self) -> Result<Option<Point>, Refusal> {
        let (mut place, mut count) = ([0; 2], 0);
        let number = unsafe { raw::sandline_spiral_advance(self, &mut place, &mut count) };
        handed(number, (count == 1).then_some(place))
    }
}
