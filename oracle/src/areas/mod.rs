//! Answers for the crate `areas`: twice the signed area of a list, of its kept points and of the gaps between them, by
//! document 02's text, in whole numbers. The marks are the Rust's, and each area is held against the Rust's triangles.

pub mod fixed;
mod islands;
pub mod make;
pub mod shapes;

use crate::document::{bad_point, bad_sq_tolerance, lowest, too_many};
use crate::document::{BAD_FLAGS, BAD_POINT, BAD_TOLERANCE, NO_ROOM, TOO_FEW, TOO_MANY};
use crate::hold_eq;
use crate::reduce::{lent, placed, points_of};
use crate::text::{Line, Words, BYTE_MARKER};
use std::sync::atomic::{AtomicU64, Ordering::Relaxed};
use visioncortex::open_util::signed_area;
use visioncortex::PointI32;

/// The whole, the kept points, and the gaps: of each twice the signed area.
pub type Sizes = [i128; 3];

static HELD: AtomicU64 = AtomicU64::new(0);

/// What was held since the program began.
pub fn held() -> String {
    let (lists, islands) = (HELD.load(Relaxed), islands::asked());
    format!(
        "areas: of {lists} lists the whole is held to be kept plus gaps; of {islands} islands the \
         outline's area is held to be the Rust's area of the chart"
    )
}

pub fn answer(words: &mut Words, answer: &mut Line) -> Option<()> {
    match words.word()? {
        b"twice_area" => {
            let values = words.i32s()?;
            words.end()?;
            answer_twice_area(&values, answer);
        }
        b"areas" => {
            let (values, flags) = (words.i32s()?, words.bytes()?);
            words.end()?;
            answer_areas(&values, &flags, answer);
        }
        b"areas_at" => {
            let (sq_tolerance, values, room) = (words.f64()?, words.i32s()?, words.room()?);
            words.end()?;
            answer_areas_at(sq_tolerance, &values, room, answer);
        }
        b"together" => {
            let (first, second) = (read_sizes(words)?, read_sizes(words)?);
            words.end()?;
            match together(first, second) {
                Some(sums) => put_sizes(answer.number(0), sums),
                None => _ = answer.number(NO_ROOM),
            }
        }
        _ => return None,
    }
    Some(())
}

fn read_sizes(words: &mut Words) -> Option<Sizes> {
    Some([words.i64()?.into(), words.i64()?.into(), words.i64()?.into()])
}

fn put_sizes(answer: &mut Line, sizes: Sizes) {
    sizes.iter().for_each(|size| _ = answer.number(size));
}

fn answer_twice_area(values: &[i32], answer: &mut Line) {
    match lowest(&[(TOO_MANY, too_many(values)), (BAD_POINT, bad_point(values))]) {
        Some(refusal) => answer.number(refusal),
        None => answer.number(0).number(twice_area(&points_of(values))),
    };
}

fn answer_areas(values: &[i32], flags: &[u8], answer: &mut Line) {
    let n = values.len() / 2;
    let ends = flags.first() == Some(&1) && flags.last() == Some(&1);
    let refusal = lowest(&[
        (TOO_MANY, too_many(values)),
        (BAD_POINT, bad_point(values)),
        (TOO_FEW, n == 0),
        (BAD_FLAGS, flags.len() != n || flags.iter().any(|&flag| flag > 1) || !ends),
    ]);
    match refusal {
        Some(refusal) => _ = answer.number(refusal),
        None => put_sizes(answer.number(0), areas(&points_of(values), flags)),
    }
}

fn answer_areas_at(sq_tolerance: f64, values: &[i32], room: usize, answer: &mut Line) {
    let n = values.len() / 2;
    let refusal = lowest(&[
        (TOO_MANY, too_many(values)),
        (BAD_POINT, bad_point(values)),
        (TOO_FEW, n == 0),
        (BAD_TOLERANCE, bad_sq_tolerance(sq_tolerance)),
        (NO_ROOM, room < n),
    ]);
    let mut marks = Vec::new();
    answer.number(refusal.unwrap_or(0));
    if refusal.is_none() {
        let (sizes, found) = areas_at(&points_of(values), sq_tolerance);
        put_sizes(answer, sizes);
        marks = found;
    }
    answer.bytes(&lent(room, BYTE_MARKER, marks));
}

/// "All areas come from the points by the usual cross-product sum, the list closed from last to first."
pub fn twice_area(points: &[PointI32]) -> i128 {
    let next = points.iter().cycle().skip(1);
    let twice = points.iter().zip(next).map(|(p, q)| cross(p, q)).sum();
    hold_eq!(twice, by_triangles(points), "twice the area of {points:?}");
    twice
}

fn cross(p: &PointI32, q: &PointI32) -> i128 {
    i128::from(p.x) * i128::from(q.y) - i128::from(q.x) * i128::from(p.y)
}

/// The same by the Rust's `signed_area` of triangles, all with the first point.
fn by_triangles(points: &[PointI32]) -> i128 {
    points.windows(2).map(|pair| i128::from(signed_area(points[0], pair[0], pair[1]))).sum()
}

/// "Twice its signed area, twice that of the kept points, and the signed sum over the gaps, each gap closed by its
/// chord." Kept is a point whose flag is 1.
fn areas(points: &[PointI32], flags: &[u8]) -> Sizes {
    let places: Vec<usize> = (0..points.len()).filter(|&i| flags[i] == 1).collect();
    let kept: Vec<PointI32> = places.iter().map(|&i| points[i]).collect();
    let gaps = places.windows(2).map(|pair| &points[pair[0]..=pair[1]]);
    let sizes = [twice_area(points), twice_area(&kept), gaps.map(twice_area).sum()];
    hold_eq!(sizes[0], sizes[1] + sizes[2], "kept plus gaps of {points:?} by {flags:?}");
    HELD.fetch_add(1, Relaxed);
    sizes
}

/// The same by the marks of Douglas-Peucker, and the marks.
pub fn areas_at(points: &[PointI32], sq_tolerance: f64) -> (Sizes, Vec<u8>) {
    let (_, marks) = placed::douglas_peucker(points, sq_tolerance);
    (areas(points, &marks), marks)
}

/// The sums, or none "when a total would leave i64".
pub fn together(first: Sizes, second: Sizes) -> Option<Sizes> {
    let sums = [0, 1, 2].map(|i| first[i] + second[i]);
    sums.iter().all(|&sum| i64::try_from(sum).is_ok()).then_some(sums)
}
