//! How a picture is read, by document 02 and by the text of the Netpbm format, from the front of a file. A comment ends a
//! number and parts the header from the raster, as for netpbm's readers.
//!
//! netpbm's own reader goes another way in a few places. Each is a manner of this one and a row of
//! docs/DIFFERENCES.md; without any of them it is document 02's.

use crate::chart::Chart;
use crate::document::{BAD_PICTURE, BAD_SIZE};

#[derive(Clone, Copy)]
pub enum Manner {
    /// A comment may stand in a plain raster.
    RasterComments,
    /// Any one byte ends a size.
    AnyByte,
    /// The width may stand right behind the magic number.
    Unparted,
    /// Every size is good.
    AnySize,
    /// White space is space, TAB, LF and CR alone.
    FourWhites,
}

/// Some of them.
#[derive(Clone, Copy)]
pub struct Manners(pub u32);

impl Manners {
    pub const NONE: Manners = Manners(0);

    pub fn has(self, manner: Manner) -> bool {
        self.0 >> manner as u32 & 1 == 1
    }
}

/// What was read: the chart, its padding 0, and how many bytes of the file its image took.
pub struct Picture {
    pub chart: Chart,
    pub taken: usize,
}

/// The picture at the front of a file, or the number of the refusal.
pub fn read(file: &[u8], manners: Manners) -> Result<Picture, u8> {
    let mut reader = Reader { file, at: 0, manners };
    let plain = reader.is_plain().ok_or(BAD_PICTURE)?;
    let width = reader.width().ok_or(BAD_PICTURE)?;
    let height = reader.height().ok_or(BAD_PICTURE)?;
    // "Tested as soon as both sizes are read."
    if reader.out_of_range(width) || reader.out_of_range(height) {
        return Err(BAD_SIZE);
    }
    reader.delimiter().ok_or(BAD_PICTURE)?;
    let chart = match plain {
        true => reader.plain(width, height),
        false => reader.raw(width, height),
    };
    Ok(Picture { chart: chart.ok_or(BAD_PICTURE)?, taken: reader.at })
}

/// Each method passes what it reads, and answers `None` where it is not there.
struct Reader<'a> {
    file: &'a [u8],
    at: usize,
    manners: Manners,
}

impl Reader<'_> {
    fn next(&self) -> Option<u8> {
        self.file.get(self.at).copied()
    }

    /// "Raw (P4) or plain (P1)."
    fn is_plain(&mut self) -> Option<bool> {
        let magic = self.file.get(..2)?;
        self.at = 2;
        match magic {
            b"P1" => Some(true),
            b"P4" => Some(false),
            _ => None,
        }
    }

    fn width(&mut self) -> Option<usize> {
        if !self.gap() && !self.manners.has(Manner::Unparted) {
            return None;
        }
        self.number()
    }

    fn height(&mut self) -> Option<usize> {
        if !self.gap() {
            if !self.manners.has(Manner::AnyByte) {
                return None;
            }
            self.at += 1;
            self.gap();
        }
        self.number()
    }

    /// White space and comments, as many as there are; says whether there are any.
    fn gap(&mut self) -> bool {
        let from = self.at;
        while let Some(byte) = self.next() {
            match byte {
                b'#' => self.comment(),
                byte if self.is_white(byte) => self.at += 1,
                _ => break,
            }
        }
        from < self.at
    }

    fn is_white(&self, byte: u8) -> bool {
        match byte {
            b' ' | b'\t' | b'\n' | b'\r' => true,
            0x0b | 0x0c => !self.manners.has(Manner::FourWhites),
            _ => false,
        }
    }

    /// From `#` to the end of its line, which is a part of it.
    fn comment(&mut self) {
        let line = &self.file[self.at..];
        let end = line.iter().position(|&byte| byte == b'\n' || byte == b'\r');
        self.at += end.map_or(line.len(), |end| end + 1);
    }

    /// Decimal digits, one at least. What is past 32 bits is 32 ones.
    fn number(&mut self) -> Option<usize> {
        let digits = self.file.get(self.at..)?;
        let count = digits.iter().take_while(|byte| byte.is_ascii_digit()).count();
        let add = |value: u64, digit: &u8| (value * 10 + u64::from(digit - b'0')).min(0xffff_ffff);
        self.at += count;
        (count > 0).then(|| digits[..count].iter().fold(0, add) as usize)
    }

    fn out_of_range(&self, size: usize) -> bool {
        !(1..=512).contains(&size) && !self.manners.has(Manner::AnySize)
    }

    /// Between the height and the raster: one byte of white space, or a comment.
    fn delimiter(&mut self) -> Option<()> {
        match self.next()? {
            b'#' => self.comment(),
            byte if self.is_white(byte) => self.at += 1,
            _ if self.manners.has(Manner::AnyByte) => self.at += 1,
            _ => return None,
        }
        Some(())
    }

    /// "Plain digits may stand without spaces between them."
    fn plain(&mut self, width: usize, height: usize) -> Option<Chart> {
        let mut bits = Vec::new();
        while bits.len() < width * height {
            match self.next()? {
                b'0' => bits.push(false),
                b'1' => bits.push(true),
                b'#' if self.manners.has(Manner::RasterComments) => {
                    self.comment();
                    continue;
                }
                byte if self.is_white(byte) => {}
                _ => return None,
            }
            self.at += 1;
        }
        Some(Chart::of_rule(width, height, |x, y| bits[y * width + x]))
    }

    /// Rows as a chart has them. "Reader and writer set padding to 0."
    fn raw(&mut self, width: usize, height: usize) -> Option<Chart> {
        let length = width.div_ceil(8) * height;
        let bytes = self.file.get(self.at..self.at + length)?.to_vec();
        self.at += length;
        Some(Chart { width, height, bytes }.without_padding())
    }
}
