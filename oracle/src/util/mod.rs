//! Answers for the crate `util`: areas, midpoints, lengths and crossings, by the Rust.

pub mod fixed;
pub mod make;

use crate::document::{bad_point, bad_point_f64, lowest, BAD_POINT};
use crate::text::{Line, Words};
use visioncortex::open_util::{
    find_intersection, find_mid_point, norm_f64, norm_i32, signed_area, Intersection,
};
use visioncortex::{PointF64, PointI32};

pub fn answer(words: &mut Words, answer: &mut Line) -> Option<()> {
    match words.word()? {
        b"signed_area" => {
            let [a, b, c] = points(words)?;
            if judged(answer, bad_point(&values(&[a, b, c]))) {
                answer.number(signed_area(a, b, c));
            }
        }
        b"norm_i32" => {
            let [p] = points(words)?;
            if judged(answer, bad_point(&values(&[p]))) {
                answer.f64(norm_i32(&p));
            }
        }
        b"mid_point" => {
            let [a, b] = points_f64(words)?;
            if judged(answer, bad_point_f64(&values_f64(&[a, b]))) {
                put_point(answer, find_mid_point(&a, &b));
            }
        }
        b"norm" => {
            let [p] = points_f64(words)?;
            if judged(answer, bad_point_f64(&values_f64(&[p]))) {
                answer.f64(norm_f64(&p));
            }
        }
        b"intersection" => {
            let lines = points_f64(words)?;
            if judged(answer, bad_point_f64(&values_f64(&lines))) {
                answer_intersection(lines, answer);
            }
        }
        b"ratios" => {
            let ratios = Intersection { mua: words.f64()?, mub: words.f64()? };
            words.end()?;
            put_ratios(answer, &ratios);
        }
        _ => return None,
    }
    Some(())
}

/// Puts the number, and says whether anything follows it.
fn judged(answer: &mut Line, bad: bool) -> bool {
    let refusal = lowest(&[(BAD_POINT, bad)]);
    answer.number(refusal.unwrap_or(0));
    refusal.is_none()
}

/// The crossing, and what it says of itself. Two lines in one have ratios that are not numbers;
/// "asked of Parallel, all three say no".
fn answer_intersection([p1, p2, p3, p4]: [PointF64; 4], answer: &mut Line) {
    match find_intersection(&p1, &p2, &p3, &p4) {
        None => _ = answer.word("parallel").bool(false).bool(false).bool(false),
        Some((point, ratios)) if ratios.coincide() => {
            put_point(answer.word("coincide"), point);
            put_ratios(answer, &ratios);
        }
        Some((point, ratios)) => {
            put_point(answer.word("cross"), point);
            put_ratios(answer.f64(ratios.mua).f64(ratios.mub), &ratios);
        }
    }
}

fn put_ratios(answer: &mut Line, ratios: &Intersection) {
    answer.bool(ratios.outside()).bool(ratios.inside()).bool(ratios.coincide());
}

fn put_point(answer: &mut Line, point: PointF64) {
    answer.f64(point.x).f64(point.y);
}

/// So many points to the end of the line.
fn points<const N: usize>(words: &mut Words) -> Option<[PointI32; N]> {
    let mut points = [PointI32::new(0, 0); N];
    for point in &mut points {
        *point = PointI32::new(words.i32()?, words.i32()?);
    }
    words.end().map(|()| points)
}

fn points_f64<const N: usize>(words: &mut Words) -> Option<[PointF64; N]> {
    let mut points = [PointF64::new(0.0, 0.0); N];
    for point in &mut points {
        *point = PointF64::new(words.f64()?, words.f64()?);
    }
    words.end().map(|()| points)
}

fn values(points: &[PointI32]) -> Vec<i32> {
    points.iter().flat_map(|point| [point.x, point.y]).collect()
}

fn values_f64(points: &[PointF64]) -> Vec<f64> {
    points.iter().flat_map(|point| [point.x, point.y]).collect()
}
