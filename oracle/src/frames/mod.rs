//! Answers for the crate `frames`: one frame a line, one answer line, by document 01's table of frames over
//! the Rust's calls.

pub mod fixed;
pub mod make;

use crate::chart::Chart;
use crate::document::{bad_point, lowest, BAD_POINT, NO_ROOM, TOO_FEW};
use crate::reduce::{numbers, points_of};
use crate::text::{Line, Words};
use crate::walker;
use visioncortex::reduce::reduce;
use visioncortex::{PathI32, PointI32};

/// "Frames both ways hold at most 16,384 bytes, so 01 has room for 4,095 points and 04 for 2,047 numbers."
pub const MOST_BYTES: usize = 16_384;
const MOST_POINTS: usize = 4095;
const MOST_NUMBERS: usize = 2047;

/// "Answered ff0b0000."
const BAD_FRAME: [u8; 4] = [0xff, 11, 0, 0];

/// No line is a bad one here: what is no frame is answered so. A space stands in none.
pub fn answer(words: &mut Words, answer: &mut Line) -> Option<()> {
    let line = words.word()?;
    let frame = words.end().and_then(|()| bytes(line));
    let reply = frame.and_then(|frame| reply(&frame)).unwrap_or_else(|| BAD_FRAME.to_vec());
    answer.word(&digits(&reply));
    Some(())
}

pub fn bytes(line: &[u8]) -> Option<Vec<u8>> {
    if line.len() % 2 == 1 || line.len() > 2 * MOST_BYTES {
        return None;
    }
    let digit = |b: u8| char::from(b).to_digit(16);
    line.chunks_exact(2).map(|pair| Some((digit(pair[0])? * 16 + digit(pair[1])?) as u8)).collect()
}

pub fn digits(bytes: &[u8]) -> String {
    bytes.iter().map(|byte| format!("{byte:02x}")).collect()
}

/// The reply to a frame, or `None` for what is none.
pub fn reply(frame: &[u8]) -> Option<Vec<u8>> {
    match frame.first()? {
        1 => walk(frame),
        2 => simplified(frame),
        3 => reduced(frame),
        4 => numbered(frame),
        _ => None,
    }
}

fn word(frame: &[u8], at: usize) -> Option<u16> {
    Some(u16::from_be_bytes([*frame.get(at)?, *frame.get(at + 1)?]))
}

fn signed(frame: &[u8], at: usize) -> Option<i32> {
    word(frame, at).map(|value| i32::from(value as i16))
}

fn clockwise(frame: &[u8]) -> Option<bool> {
    match frame.get(1)? {
        0 => Some(false),
        1 => Some(true),
        _ => None,
    }
}

/// The points from a place on, which are so many as the count before them says, and nothing behind them.
pub fn points(frame: &[u8], at: usize) -> Option<Vec<i32>> {
    let count = usize::from(word(frame, at - 2)?);
    (frame.len() == at + 4 * count).then(|| {
        frame[at..].chunks_exact(2).map(|b| i32::from(i16::from_be_bytes([b[0], b[1]]))).collect()
    })
}

fn walk(frame: &[u8]) -> Option<Vec<u8>> {
    let clockwise = clockwise(frame)?;
    let (width, height) = (usize::from(word(frame, 2)?), usize::from(word(frame, 4)?));
    let start = PointI32::new(signed(frame, 6)?, signed(frame, 8)?);
    if frame.len() != 10 + width.div_ceil(8) * height {
        return None;
    }
    let chart = Chart { width, height, bytes: frame[10..].to_vec() };
    Some(walked(&chart, start, clockwise))
}

/// The reply of a walk on a chart, which may be larger than a frame has it.
pub fn walked(chart: &Chart, start: PointI32, clockwise: bool) -> Vec<u8> {
    let outline = walker::outline(chart, start, clockwise);
    put_points(1, outline.and_then(|points| fitting(points, MOST_POINTS)))
}

/// "Else 10."
fn fitting<T>(values: Vec<T>, room: usize) -> Result<Vec<T>, u8> {
    if values.len() > room {
        Err(NO_ROOM)
    } else {
        Ok(values)
    }
}

fn simplified(frame: &[u8]) -> Option<Vec<u8>> {
    let clockwise = clockwise(frame)?;
    let values = points(frame, 4)?;
    let kept =
        judged(&values, false).map(|points| PathI32::from_points(points).simplify(clockwise).path);
    Some(put_points(2, kept))
}

fn reduced(frame: &[u8]) -> Option<Vec<u8>> {
    let tolerance = f64::from(word(frame, 1)?) / 16.0;
    let values = points(frame, 5)?;
    Some(put_points(3, judged(&values, false).map(|points| reduce(&points, tolerance))))
}

fn numbered(frame: &[u8]) -> Option<Vec<u8>> {
    let values = points(frame, 3)?;
    let numbers = judged(&values, true)
        .and_then(|points| fitting(points, MOST_NUMBERS))
        .map(|points| numbers::numbers(&points));
    let (number, numbers) = either(numbers);
    let mut reply = head(4, number, numbers.len());
    reply.extend(numbers.iter().flat_map(|number| number.to_bits().to_be_bytes()));
    Some(reply)
}

/// A frame has no more than 4,095 points, and every tolerance of it is in range.
pub fn judged(values: &[i32], some: bool) -> Result<Vec<PointI32>, u8> {
    match lowest(&[(BAD_POINT, bad_point(values)), (TOO_FEW, some && values.is_empty())]) {
        Some(refusal) => Err(refusal),
        None => Ok(points_of(values)),
    }
}

/// A refusal's number and no values, or 0 and the values.
fn either<T>(answer: Result<Vec<T>, u8>) -> (u8, Vec<T>) {
    answer.map_or_else(|refusal| (refusal, Vec::new()), |values| (0, values))
}

pub fn put_points(kind: u8, answer: Result<Vec<PointI32>, u8>) -> Vec<u8> {
    let (number, points) = either(answer);
    let mut reply = head(kind, number, points.len());
    let values = points.iter().flat_map(|point| [point.x, point.y]);
    reply.extend(values.flat_map(|value| (value as i16).to_be_bytes()));
    reply
}

/// "Kind + 80, number above, count u16."
fn head(kind: u8, number: u8, count: usize) -> Vec<u8> {
    let count = (count as u16).to_be_bytes();
    vec![kind + 0x80, number, count[0], count[1]]
}
