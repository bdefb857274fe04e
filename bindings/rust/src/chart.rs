//! Charts: a pixel, the area, and where a walk may begin.

use crate::lent::{lent, wide};
use crate::refusal::{answered, counted};
use crate::{raw, Point, Refusal};

/// A bitmap, 1 to 512 pixels wide and high: rows from the top, each padded to whole bytes, one bit a pixel,
/// the leftmost the highest. Padding is never looked at.
#[derive(Clone, Copy, Debug, PartialEq, Eq)]
pub struct Chart<'a> {
    /// Pixels in a row.
    pub width: usize,
    /// Rows.
    pub height: usize,
    /// The rows' bytes, `width.div_ceil(8) * height` of them at least.
    pub pixels: &'a [u8],
}

impl Chart<'_> {
    /// Whether the pixel in column `x` of row `y` is set. None is outside of the chart.
    ///
    /// ```
    /// let chart = sandline::Chart { width: 2, height: 2, pixels: &[0x80, 0x40] };
    /// assert!(chart.pixel(1, 1) && !chart.pixel(1, 0) && !chart.pixel(-1, 0));
    /// ```
    pub fn pixel(&self, x: i32, y: i32) -> bool {
        let (width, height, pixels, bytes) = self.lent();
        unsafe { raw::sandline_pixel(width, height, pixels, bytes, x, y) }
    }

    /// How many pixels are set.
    ///
    /// ```
    /// use sandline::{Chart, Refusal};
    /// assert_eq!(Chart { width: 2, height: 1, pixels: &[0xff] }.area(), Ok(2));
    /// assert_eq!(Chart { width: 9, height: 1, pixels: &[0xff] }.area(), Err(Refusal::BadSize));
    /// ```
    pub fn area(&self) -> Result<usize, Refusal> {
        let (width, height, pixels, bytes) = self.lent();
        counted(|count| unsafe { raw::sandline_area(width, height, pixels, bytes, count) })
    }

    /// Where a walk may begin: the top left corner of the first set pixel, row by row.
    ///
    /// ```
    /// use sandline::{Chart, Refusal};
    /// assert_eq!(Chart { width: 2, height: 2, pixels: &[0x00, 0x40] }.first_start(), Ok([1, 1]));
    /// assert_eq!(Chart { width: 2, height: 1, pixels: &[0x3f] }.first_start(), Err(Refusal::NoWay));
    /// ```
    pub fn first_start(&self) -> Result<Point, Refusal> {
        let (width, height, pixels, bytes) = self.lent();
        answered([0; 2], |start| unsafe {
            raw::sandline_first_start(width, height, pixels, bytes, start)
        })
    }

    /// As the calls take it: width, height, and the pixels with their length.
    pub(crate) fn lent(&self) -> (u64, u64, *const u8, u64) {
        let (pixels, bytes) = lent(self.pixels);
        (wide(self.width), wide(self.height), pixels, bytes)
    }
}
