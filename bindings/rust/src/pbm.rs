//! Pictures: charts out of Netpbm's PBM files, and into them.

use crate::lent::{lent, lent_mut, narrow};
use crate::refusal::{answered, counted};
use crate::{raw, Chart, Refusal};

/// What [`read_pbm`] answers.
#[derive(Clone, Copy, Debug, PartialEq, Eq)]
pub struct Picture<'a> {
    /// The chart. Its pixels stand in the slice that was lent, with their padding cleared.
    pub chart: Chart<'a>,
    /// How many bytes of the file the picture takes, from its first on.
    pub bytes: usize,
}

/// Reads the picture at the start of `file`, raw (P4) or plain (P1), into a chart at the start of `pixels`.
/// What stands behind the picture is not looked at: the next one, if there is one, begins there.
///
/// Comments may stand in the header, and a plain picture's digits with white space between them or without.
///
/// Asks for `width.div_ceil(8) * height` bytes: 32,768 are always enough. A size out of range is a
/// [`Refusal::BadSize`], what is no picture or not all of one a [`Refusal::BadPicture`], and a slice that is
/// too short for a picture a [`Refusal::NoRoom`].
///
/// ```
/// use sandline::{read_pbm, Chart, Refusal};
/// let file = b"P1 # a creek\n3 2\n101 010P4 1 1 \x80";
/// let mut pixels = [9; 3];
/// let picture = read_pbm(file, &mut pixels)?;
/// assert_eq!(picture.chart, Chart { width: 3, height: 2, pixels: &[0b101_00000, 0b010_00000] });
/// assert_eq!(picture.chart.first_start(), Ok([0, 0]));
///
/// let next = read_pbm(&file[picture.bytes..], &mut pixels)?;
/// assert_eq!(next.chart, Chart { width: 1, height: 1, pixels: &[0x80] });
/// assert_eq!(pixels, [0x80, 0b010_00000, 9]);
///
/// assert_eq!(read_pbm(b"P4 513 1", &mut pixels), Err(Refusal::BadSize));
/// assert_eq!(read_pbm(b"P1 1 1 2", &mut pixels), Err(Refusal::BadPicture));
/// assert_eq!(read_pbm(file, &mut pixels[..1]), Err(Refusal::NoRoom));
/// # Ok::<(), Refusal>(())
/// ```
pub fn read_pbm<'a>(file: &[u8], pixels: &'a mut [u8]) -> Result<Picture<'a>, Refusal> {
    let (file, length) = lent(file);
    let (rows, room) = lent_mut(pixels);
    let sizes = answered([0; 3], |[width, height, count]| unsafe {
        raw::sandline_read_pbm(file, length, rows, room, width, height, count)
    })?;
    let [width, height, bytes] = sizes.map(narrow);
    let pixels = &pixels[..width.div_ceil(8) * height];
    Ok(Picture { chart: Chart { width, height, pixels }, bytes })
}

/// Writes a chart to the start of `out` as a raw picture, with its padding cleared, and answers how many
/// bytes that is. [`read_pbm`] gives the chart back.
///
/// Asks for as many bytes: 7 to 11 for the header and `width.div_ceil(8) * height` for the rows, so that
/// 32,779 are always enough.
///
/// ```
/// use sandline::{read_pbm, write_pbm, Chart, Refusal};
/// let chart = Chart { width: 9, height: 1, pixels: &[0x01, 0xff] };
/// let mut file = [b'.'; 10];
/// assert_eq!(write_pbm(chart, &mut file), Ok(9));
/// assert_eq!(&file, b"P4\n9 1\n\x01\x80.");
/// assert_eq!(write_pbm(chart, &mut file[..8]), Err(Refusal::NoRoom));
///
/// let mut pixels = [0; 2];
/// assert_eq!(read_pbm(&file, &mut pixels)?.chart, Chart { pixels: &[0x01, 0x80], ..chart });
/// # Ok::<(), Refusal>(())
/// ```
pub fn write_pbm(chart: Chart, out: &mut [u8]) -> Result<usize, Refusal> {
    let (width, height, pixels, bytes) = chart.lent();
    let (out, room) = lent_mut(out);
    counted(|count| unsafe {
        raw::sandline_write_pbm(width, height, pixels, bytes, out, room, count)
    })
}
