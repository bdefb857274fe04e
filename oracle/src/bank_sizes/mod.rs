//! What the program `bank_sizes` answers to a sheet: document 02, 3/13. A squared tolerance, then a list of points a
//! line, each a frame of kind 04; for each list its sizes, and the totals at the end.

pub mod compare;
mod make;
pub mod sheet;

use crate::areas::{areas_at, together, Sizes};
use crate::document::{bad_sq_tolerance, BAD_FRAME, BAD_TOLERANCE, NO_ROOM};
use crate::frames;

/// A line, the first one too, has no more characters than a frame has digits.
const MOST_CHARACTERS: usize = 2 * frames::MOST_BYTES;

/// The whole report.
pub fn text(file: &[u8]) -> String {
    let mut lines = lines(file);
    match lines.next().and_then(sq_tolerance) {
        Some(sq_tolerance) => report(sq_tolerance, lines, [0; 3]),
        None => format!("{BAD_TOLERANCE}\n"),
    }
}

/// A last line needs no newline, and a newline at the end makes no further line.
fn lines(file: &[u8]) -> impl Iterator<Item = &[u8]> {
    let text = file.strip_suffix(b"\n").unwrap_or(file);
    text.split(|&b| b == b'\n').filter(|_| !file.is_empty())
}

/// "The first input line is a squared tolerance in decimal, a whole number within document 01's range."
fn sq_tolerance(line: &[u8]) -> Option<f64> {
    let digits = 1..=MOST_CHARACTERS;
    if !digits.contains(&line.len()) || !line.iter().all(u8::is_ascii_digit) {
        return None;
    }
    let add = |value: u64, b: &u8| value.saturating_mul(10).saturating_add(u64::from(b - b'0'));
    Some(line.iter().fold(0, add) as f64).filter(|&value| !bad_sq_tolerance(value))
}

/// A line for each list, and the totals; none behind a 10, "which ends the report".
fn report<'a>(
    sq_tolerance: f64,
    lines: impl Iterator<Item = &'a [u8]>,
    mut totals: Sizes,
) -> String {
    let mut report = String::new();
    for line in lines {
        match sizes(line, sq_tolerance) {
            Ok(sizes) => match together(totals, sizes) {
                Some(sums) => {
                    totals = sums;
                    report += &written(sizes);
                }
                None => return report + &format!("{NO_ROOM}\n"),
            },
            Err(refusal) => report += &format!("{refusal}\n"),
        }
    }
    report + &written(totals)
}

fn written([whole, kept, gaps]: Sizes) -> String {
    format!("{whole} {kept} {gaps}\n")
}

/// The sizes of a list, or the number of the refusal: "11 for a line that is no well-formed kind 04 frame, 3 and 4 as
/// in document 01".
fn sizes(line: &[u8], sq_tolerance: f64) -> Result<Sizes, u8> {
    let frame = frames::bytes(line).filter(|frame| frame.first() == Some(&4));
    let values = frame.and_then(|frame| frames::points(&frame, 3)).ok_or(BAD_FRAME)?;
    let points = frames::judged(&values, true)?;
    Ok(areas_at(&points, sq_tolerance).0)
}

#[cfg(test)]
mod tests {
    use super::*;

    /// No sheet is long enough to come there: the totals are put near their ends.
    #[test]
    fn a_total_leaves_i64() {
        let square = &b"04000400000000000400000004000400000004"[..];
        let most = i128::from(i64::MAX);
        let from = |totals, lines: &[&[u8]]| report(16.0, lines.to_vec().into_iter(), totals);
        assert_eq!(from([most - 32, 0, 0], &[square]), format!("32 0 32\n{most} 0 32\n"));
        assert_eq!(from([most - 31, 0, 0], &[b"", square, square]), "11\n10\n");
        assert_eq!(from([0, 0, most], &[square]), "10\n");
        assert_eq!(from([0, most, 0], &[square]), format!("32 0 32\n32 {most} 32\n"));
    }
}
