//! Answers for the crate `chart`: pixel and area by the Rust's `BinaryImage`; first start, which the
//! Rust does not have, by document 01's text.

pub mod draw;
pub mod fixed;
pub mod make;

use crate::document::{self, lowest, BAD_SIZE, NO_WAY};
use crate::text::{Line, Words};
use visioncortex::BinaryImage;

/// A chart as it is handed in. Its sizes may be anything, and its bytes too few.
pub struct Chart {
    pub width: usize,
    pub height: usize,
    pub bytes: Vec<u8>,
}

impl Chart {
    pub fn read(words: &mut Words) -> Option<Chart> {
        Some(Chart { width: words.usize()?, height: words.usize()?, bytes: words.bytes()? })
    }

    pub fn write<'a, 'b>(&self, line: &'a mut Line<'b>) -> &'a mut Line<'b> {
        line.number(self.width).number(self.height).bytes(&self.bytes)
    }

    pub fn is_bad(&self) -> bool {
        document::bad_chart(self.width, self.height, &self.bytes)
    }

    /// The chart as the Rust has it. Where the size is bad: an image without pixels.
    pub fn image(&self) -> BinaryImage {
        if self.is_bad() {
            return BinaryImage::new_w_h(0, 0);
        }
        let mut image = BinaryImage::new_w_h(self.width, self.height);
        for y in 0..self.height {
            for x in 0..self.width {
                image.set_pixel(x, y, self.bit(x, y));
            }
        }
        image
    }

    /// A pixel by the Rust. Of a chart that a call would refuse, by its bytes: false outside it, past
    /// its last byte, and where it is wider than 512.
    fn pixel(&self, x: i32, y: i32) -> bool {
        if !self.is_bad() {
            return self.image().get_pixel_safe(x, y);
        }
        let (Ok(x), Ok(y)) = (usize::try_from(x), usize::try_from(y)) else { return false };
        let within = self.width <= 512 && x < self.width && y < self.height;
        within && y * self.width.div_ceil(8) + x / 8 < self.bytes.len() && self.bit(x, y)
    }

    /// "Rows from the top, each padded to whole bytes; a pixel is one bit of a byte, the leftmost
    /// the highest."
    pub fn bit(&self, x: usize, y: usize) -> bool {
        let byte = self.bytes[y * self.width.div_ceil(8) + x / 8];
        byte >> (7 - x % 8) & 1 == 1
    }
}

pub fn answer(words: &mut Words, answer: &mut Line) -> Option<()> {
    let call = words.word()?;
    let chart = Chart::read(words)?;
    match call {
        b"pixel" => {
            let (x, y) = (words.i32()?, words.i32()?);
            words.end()?;
            answer.bool(chart.pixel(x, y));
        }
        b"area" => {
            words.end()?;
            let refusal = lowest(&[(BAD_SIZE, chart.is_bad())]);
            answer.number(refusal.unwrap_or(0)).number(chart.image().area());
        }
        b"first_start" => {
            words.end()?;
            let start = first_start(&chart.image());
            let refusal = lowest(&[(BAD_SIZE, chart.is_bad()), (NO_WAY, start.is_none())]);
            let (x, y) = start.unwrap_or((0, 0));
            answer.number(refusal.unwrap_or(0)).number(x).number(y);
        }
        _ => return None,
    }
    Some(())
}

/// "The top left corner of the first set pixel, row by row."
pub fn first_start(image: &BinaryImage) -> Option<(usize, usize)> {
    let rows = 0..image.height;
    let mut pixels = rows.flat_map(|y| (0..image.width).map(move |x| (x, y)));
    pixels.find(|&(x, y)| image.get_pixel(x, y))
}
