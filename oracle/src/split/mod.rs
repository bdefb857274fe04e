//! Answers for the crate `split`: marks by the Rust, numbers by document 01's text and held against the Rust, counts of
//! distances by document 02's. Nothing is judged but the room; where spans wait, more than 4,096 points are not split.

pub mod fixed;
pub mod make;
mod shapes;
pub(crate) mod visits;

use crate::held;
use crate::reduce::{lent, numbers, placed, points_of};
use crate::text::{Line, Words, BYTE_MARKER, F64_MARKER};
use visioncortex::PointI32;

pub fn answer(words: &mut Words, answer: &mut Line) -> Option<()> {
    match words.word()? {
        b"mark" => {
            let (sq_tolerance, values, room) = (words.f64()?, words.i32s()?, words.room()?);
            words.end()?;
            answer_mark(sq_tolerance, &points_of(&values), room, answer);
        }
        b"number" => {
            let (values, room) = (words.i32s()?, words.room()?);
            words.end()?;
            answer_number(&points_of(&values), room, answer);
        }
        b"mark_waiting" => {
            let (sq_tolerance, values, room) = (words.f64()?, words.i32s()?, words.room()?);
            words.end()?;
            answer_mark_waiting(sq_tolerance, &points_of(&values), room, answer);
        }
        b"number_waiting" => {
            let (values, room) = (words.i32s()?, words.room()?);
            words.end()?;
            answer_number_waiting(&points_of(&values), room, answer);
        }
        _ => return None,
    }
    Some(())
}

fn answer_mark(sq_tolerance: f64, points: &[PointI32], room: usize, answer: &mut Line) {
    let mut marks = Vec::new();
    if points.len() <= room {
        marks = marks_of(points, sq_tolerance);
    }
    answer.bytes(&lent(room, BYTE_MARKER, marks));
}

fn answer_number(points: &[PointI32], room: usize, answer: &mut Line) {
    let mut numbers = Vec::new();
    if points.len() <= room {
        numbers = numbers_of(points);
    }
    answer.f64s(&lent(room, f64::from_bits(F64_MARKER), numbers));
}

fn answer_mark_waiting(sq_tolerance: f64, points: &[PointI32], room: usize, answer: &mut Line) {
    let (mut marks, mut distances) = (Vec::new(), 0);
    if points.len() <= room && points.len() <= 4096 {
        marks = marks_of(points, sq_tolerance);
        distances = visits::distances(points, sq_tolerance);
    }
    answer.number(distances);
    answer.bytes(&lent(room, BYTE_MARKER, marks));
}

fn answer_number_waiting(points: &[PointI32], room: usize, answer: &mut Line) {
    let (mut numbers, mut distances) = (Vec::new(), 0);
    if points.len() <= room && points.len() <= 4096 {
        numbers = numbers_of(points);
        distances = visits::of_numbers(points);
    }
    answer.number(distances);
    answer.f64s(&lent(room, f64::from_bits(F64_MARKER), numbers));
}

/// A mark for each point. The Rust does not take a list without one.
fn marks_of(points: &[PointI32], sq_tolerance: f64) -> Vec<u8> {
    if points.is_empty() {
        return Vec::new();
    }
    placed::douglas_peucker(points, sq_tolerance).1
}

/// A number for each point.
fn numbers_of(points: &[PointI32]) -> Vec<f64> {
    let numbers = numbers::numbers(points);
    if held::holds() && !points.is_empty() {
        numbers::hold_against_rust(points, &numbers);
    }
    numbers
}
