//! Document 01's numbers and zoom, in the simplest way, and held against the Rust.

use visioncortex::reduce::simplify_douglas_peucker;
use visioncortex::PointI32;

/// "In a span, the splitting point is the interior point with the greatest computed squared
/// distance, the earliest of equals. Split every span until no interior is left. A point's number
/// is the least distance among its own split and all splits of the spans around it. Ends carry
/// +infinity."
pub fn numbers(points: &[PointI32]) -> Vec<f64> {
    let mut numbers = vec![f64::INFINITY; points.len()];
    if !points.is_empty() {
        split(points, 0, points.len() - 1, f64::INFINITY, &mut numbers);
    }
    numbers
}

/// Splits the span; `around` is the least distance among the splits of the spans around it.
fn split(points: &[PointI32], first: usize, last: usize, around: f64, numbers: &mut [f64]) {
    let Some((index, distance)) = farthest(points, first, last) else { return };
    numbers[index] = distance.min(around);
    split(points, first, index, numbers[index], numbers);
    split(points, index, last, numbers[index], numbers);
}

/// The splitting point of a span and its distance, where the span has an interior.
pub(crate) fn farthest(points: &[PointI32], first: usize, last: usize) -> Option<(usize, f64)> {
    let mut greatest = None;
    for i in first + 1..last {
        let distance = sq_distance(points[i], points[first], points[last]);
        if greatest.is_none_or(|(_, so_far)| distance > so_far) {
            greatest = Some((i, distance));
        }
    }
    greatest
}

/// The squared distance of `p` from the segment `a` to `b`, operation by operation as in the Rust's
/// `get_sq_seg_dist`, which is private.
fn sq_distance(p: PointI32, a: PointI32, b: PointI32) -> f64 {
    let (p, a, b) = (p.to_point_f64(), a.to_point_f64(), b.to_point_f64());
    let along = b - a;
    let mut nearest = a;
    if along.x != 0.0 || along.y != 0.0 {
        let t = (p - a).dot(along) / along.dot(along);
        if t > 1.0 {
            nearest = b;
        } else if t > 0.0 {
            nearest = a + along * t;
        }
    }
    (p - nearest).length_squared()
}

/// The points whose number is greater than the tolerance, with both ends: one point twice.
pub fn zoom(points: &[PointI32], numbers: &[f64], sq_tolerance: f64) -> Vec<PointI32> {
    let last = points.len() - 1;
    let mut kept = vec![points[0]];
    kept.extend((1..last).filter(|&i| numbers[i] > sq_tolerance).map(|i| points[i]));
    kept.push(points[last]);
    kept
}

/// At each tolerance Douglas-Peucker must keep the points whose number is greater. Tried at numbers
/// that occur and right beside them, so that every bit of these numbers counts.
pub fn hold_against_rust(points: &[PointI32], numbers: &[f64]) {
    let mut occurring: Vec<f64> = numbers.iter().copied().filter(|d| d.is_finite()).collect();
    occurring.sort_by(f64::total_cmp);
    occurring.dedup();
    let most = if points.len() > 256 { 8 } else { 24 };
    let step = occurring.len().div_ceil(most).max(1);
    let mut tried: Vec<f64> = occurring.into_iter().rev().step_by(step).collect();
    tried.push(0.0);
    for number in tried {
        for tolerance in [number, number.next_down(), number.next_up()] {
            let rust = simplify_douglas_peucker(points, tolerance);
            let ours = zoom(points, numbers, tolerance);
            assert_eq!(rust, ours, "numbers do not fit the Rust for {points:?} at {tolerance:e}");
        }
    }
}
