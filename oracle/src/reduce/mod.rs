//! Answers for the crate `reduce`: radial pass, Douglas-Peucker and `reduce` by the Rust; numbers and
//! zoom, which the Rust does not have, by document 01's text and held against the Rust; counts of distances by
//! document 02's.

pub mod fixed;
pub mod make;
pub(crate) mod numbers;
pub(crate) mod placed;
pub(crate) mod shapes;

use crate::document::{self, bad_point, lowest, no_room, places, too_many};
use crate::document::{BAD_POINT, BAD_TOLERANCE, NO_ROOM, TOO_FEW, TOO_MANY};
use crate::split::visits;
use crate::text::{Line, Words, BYTE_MARKER, F64_MARKER, I32_MARKER};
use crate::{held, hold_eq};
use visioncortex::reduce::{reduce, simplify_douglas_peucker, simplify_radial_dist};
use visioncortex::PointI32;

pub fn answer(words: &mut Words, answer: &mut Line) -> Option<()> {
    match words.word()? {
        b"radial" => {
            let (sq_tolerance, values, room) = (words.f64()?, words.i32s()?, words.room()?);
            words.end()?;
            answer_radial(sq_tolerance, &values, room, answer);
        }
        call @ (b"douglas_peucker" | b"douglas_peucker_counted") => {
            let (sq_tolerance, values) = (words.f64()?, words.i32s()?);
            let (room, mark_room) = (words.room()?, words.room()?);
            words.end()?;
            let counted = is_counted(call);
            answer_douglas_peucker(sq_tolerance, &values, room, mark_room, counted, answer);
        }
        b"reduce" => {
            let (tolerance, values) = (words.f64()?, words.i32s()?);
            let rooms = Rooms { out: words.room()?, scratch: words.room()?, marks: words.room()? };
            words.end()?;
            answer_reduce(tolerance, &values, rooms, answer);
        }
        call @ (b"numbers" | b"numbers_counted") => {
            let (values, room) = (words.i32s()?, words.room()?);
            words.end()?;
            answer_numbers(&values, room, is_counted(call), answer);
        }
        b"zoom" => {
            let (sq_tolerance, values) = (words.f64()?, words.i32s()?);
            let (numbers, room) = (words.f64s()?, words.room()?);
            words.end()?;
            answer_zoom(sq_tolerance, &values, &numbers, room, answer);
        }
        _ => return None,
    }
    Some(())
}

/// Whether a call says how many distances were computed.
fn is_counted(call: &[u8]) -> bool {
    call.ends_with(b"_counted")
}

/// The rooms of the buffers lent to `reduce`.
struct Rooms {
    out: usize,
    scratch: usize,
    marks: usize,
}

// In each call below a refusal leaves the lists that would be written empty: count 0, and markers.

fn answer_radial(sq_tolerance: f64, values: &[i32], room: usize, answer: &mut Line) {
    let refusal = lowest(&[
        (TOO_MANY, too_many(values)),
        (BAD_POINT, bad_point(values)),
        (BAD_TOLERANCE, document::bad_sq_tolerance(sq_tolerance)),
        (NO_ROOM, no_room(values.len() / 2, room)),
    ]);
    let mut kept = Vec::new();
    if refusal.is_none() {
        kept = simplify_radial_dist(&points_of(values), sq_tolerance);
    }
    put_number_and_count(answer, refusal, kept.len());
    answer.i32s(&lent(room, I32_MARKER, values_of(&kept)));
}

fn answer_douglas_peucker(
    sq_tolerance: f64,
    values: &[i32],
    room: usize,
    mark_room: usize,
    counted: bool,
    answer: &mut Line,
) {
    let n = values.len() / 2;
    let refusal = lowest(&[
        (TOO_MANY, too_many(values)),
        (BAD_POINT, bad_point(values)),
        (TOO_FEW, n == 0),
        (BAD_TOLERANCE, document::bad_sq_tolerance(sq_tolerance)),
        (NO_ROOM, no_room(n, room) || mark_room < n),
    ]);
    let (mut kept, mut marks, mut distances) = (Vec::new(), Vec::new(), 0);
    if refusal.is_none() {
        let points = points_of(values);
        (kept, marks) = placed::douglas_peucker(&points, sq_tolerance);
        if counted {
            distances = visits::distances(&points, sq_tolerance);
        }
    }
    put_number_and_count(answer, refusal, kept.len());
    if counted {
        answer.number(distances);
    }
    answer.i32s(&lent(room, I32_MARKER, values_of(&kept)));
    answer.bytes(&lent(mark_room, BYTE_MARKER, marks));
}

fn answer_reduce(tolerance: f64, values: &[i32], rooms: Rooms, answer: &mut Line) {
    let n = values.len() / 2;
    let refusal = lowest(&[
        (TOO_MANY, too_many(values)),
        (BAD_POINT, bad_point(values)),
        (BAD_TOLERANCE, document::bad_tolerance(tolerance)),
        (NO_ROOM, no_room(n, rooms.out) || rooms.scratch / 2 < n || rooms.marks < n),
    ]);
    let (mut kept, mut radial, mut marks) = (Vec::new(), Vec::new(), Vec::new());
    if refusal.is_none() {
        let points = points_of(values);
        kept = reduce(&points, tolerance);
        if points.len() > 2 && tolerance != 0.0 {
            (radial, marks) = passes(&points, tolerance, &kept);
        }
    }
    put_number_and_count(answer, refusal, kept.len());
    answer.i32s(&lent(rooms.out, I32_MARKER, values_of(&kept)));
    answer.i32s(&lent(rooms.scratch, I32_MARKER, values_of(&radial)));
    answer.bytes(&lent(rooms.marks, BYTE_MARKER, marks));
}

/// The radial list that the Rust's `reduce` does not show, and the marks of its split.
fn passes(points: &[PointI32], tolerance: f64, kept: &[PointI32]) -> (Vec<PointI32>, Vec<u8>) {
    let sq_tolerance = tolerance * tolerance;
    let radial = simplify_radial_dist(points, sq_tolerance * 0.5);
    let (split, marks) = placed::douglas_peucker(&radial, sq_tolerance);
    hold_eq!(split, kept, "`reduce` is not its two passes for {points:?} at {tolerance}");
    (radial, marks)
}

fn answer_numbers(values: &[i32], room: usize, counted: bool, answer: &mut Line) {
    let n = values.len() / 2;
    let refusal = lowest(&[
        (TOO_MANY, too_many(values)),
        (BAD_POINT, bad_point(values)),
        (TOO_FEW, n == 0),
        (NO_ROOM, room < places(n)),
    ]);
    let (mut numbers, mut distances) = (Vec::new(), 0);
    if refusal.is_none() {
        let points = points_of(values);
        numbers = numbers::numbers(&points);
        if counted {
            distances = visits::of_numbers(&points);
        }
        if held::holds() {
            numbers::hold_against_rust(&points, &numbers);
        }
    }
    put_number_and_count(answer, refusal, numbers.len());
    if counted {
        answer.number(distances);
    }
    answer.f64s(&lent(room, f64::from_bits(F64_MARKER), numbers));
}

fn answer_zoom(sq_tolerance: f64, values: &[i32], numbers: &[f64], room: usize, answer: &mut Line) {
    let n = values.len() / 2;
    let refusal = lowest(&[
        (TOO_MANY, too_many(values)),
        (BAD_POINT, bad_point(values) || numbers.len() != n),
        (TOO_FEW, n == 0),
        (BAD_TOLERANCE, document::bad_sq_tolerance(sq_tolerance)),
        (NO_ROOM, no_room(n, room)),
    ]);
    let mut kept = Vec::new();
    if refusal.is_none() {
        let points = points_of(values);
        kept = numbers::zoom(&points, numbers, sq_tolerance);
        if numbers == numbers::numbers(&points) {
            let rust = simplify_douglas_peucker(&points, sq_tolerance);
            hold_eq!(kept, rust, "the zoom does not fit the Rust for {points:?}");
        }
    }
    put_number_and_count(answer, refusal, kept.len());
    answer.i32s(&lent(room, I32_MARKER, values_of(&kept)));
}

pub(crate) fn put_number_and_count(answer: &mut Line, refusal: Option<u8>, count: usize) {
    answer.number(refusal.unwrap_or(0)).number(count);
}

/// A lent buffer after the call: what was written at its front, and behind that its old contents.
pub(crate) fn lent<T: Copy>(room: usize, marker: T, mut front: Vec<T>) -> Vec<T> {
    assert!(front.len() <= room, "the room was judged too small to be needed");
    front.resize(room, marker);
    front
}

pub(crate) fn points_of(values: &[i32]) -> Vec<PointI32> {
    values.chunks_exact(2).map(|pair| PointI32::new(pair[0], pair[1])).collect()
}

pub(crate) fn values_of(points: &[PointI32]) -> Vec<i32> {
    points.iter().flat_map(|point| [point.x, point.y]).collect()
}
