//! The fixed list.

use super::make::{self, put, EPSILON, MARGIN};
use crate::point::make::{COORDINATE, F64_EDGES};
use crate::random::Random;
use crate::text::{Cases, Line};

const SEED: u64 = 51;

/// Lines that are no cases.
const BAD: [&str; 7] = [
    "",
    "norm",
    "norm 0000000000000000",
    "norm_i32 1 2 3",
    "ratios 0 0",
    "signed_area 1 2 3 4 5",
    "cross",
];

pub fn fixed(cases: &mut Cases) {
    lines(cases);
    ratios(cases);
    limits(cases);
    // Lengths whose last bit depends on every rounding.
    let mut random = Random::new(SEED + 1);
    for _ in 0..120 {
        let values = [0.0; 2].map(|_: f64| (random.fraction() * 2.0 - 1.0) * COORDINATE);
        cases.case(|case| put(case.word("norm"), &values));
    }
    let mut random = Random::new(SEED);
    for index in 0..700 {
        cases.case(|case| make::make(&mut random, index, case));
    }
    BAD.iter().for_each(|line| cases.line(line));
}

/// Document 01's, coinciding and parallel lines, lines of one point, and tilts and lifts on both sides
/// of 1e-7.
fn lines(cases: &mut Cases) {
    let mut line = |values: [f64; 8]| cases.case(|case| put(case.word("intersection"), &values));
    line([0.0, 0.0, 2.0, 2.0, 0.0, 2.0, 2.0, 0.0]);
    line([0.0, 0.0, 4.0, 0.0, 1.0, 0.0, 3.0, 0.0]);
    line([0.0, 0.0, 2.0, 0.0, 0.0, 1.0, 2.0, 1.0]);
    line([3.0, 3.0, 3.0, 3.0, 0.0, 0.0, 5.0, 5.0]);
    line([3.0, 3.0, 3.0, 3.0, 3.0, 3.0, 3.0, 3.0]);
    line([-16383.0, -16383.0, 16383.0, 16383.0, -16383.0, 16383.0, 16383.0, -16383.0]);
    line([0.0, 0.0, 1.0, 0.0, 5.0, -1.0, 5.0, 1.0]);
    // One of the lines is a point beside the other: one numerator alone is not negligible.
    line([0.0, 0.0, 1.0, 0.0, 0.0, 1.0, 0.0, 1.0]);
    line([0.0, 1.0, 0.0, 1.0, 0.0, 0.0, 1.0, 0.0]);
    // Zeros with a sign: of the point, and of each ratio.
    line([-0.0, 1.0, -0.0, 2.0, -1.0, 0.0, 1.0, 0.0]);
    line([1.0, -0.0, 2.0, -0.0, 0.0, -1.0, 0.0, 1.0]);
    for [x, y] in [[1.0, 0.0], [-1.0, 0.0], [0.0, 1.0], [0.0, -1.0]] {
        line([0.0, 0.0, x, y, -y, -x, y, x]);
        line([-y, -x, y, x, 0.0, 0.0, x, y]);
        line([-0.0, -0.0, x, y, -y, -x, y, x]);
    }
    // Both are points.
    line([0.0, 1.0, 0.0, 1.0, 4.0, 0.0, 4.0, 0.0]);
    for sign in [1.0, -1.0] {
        for step in -2..=2 {
            let edge = sign * f64::from_bits(EPSILON.to_bits().wrapping_add_signed(step));
            line([0.0, 0.0, 1.0, 0.0, 0.0, 0.0, 1.0, edge]);
            line([0.0, 0.0, 1.0, 0.0, 0.0, edge, 1.0, edge]);
            line([0.0, 0.0, 1.0, 0.0, 0.0, edge, 1.0, 0.0]);
        }
    }
}

/// Every two of: both margins with their neighbours, the ends, the middle, far, and what is no number.
fn ratios(cases: &mut Cases) {
    let beside =
        |edge: f64| [-1, 0, 1].map(|step| f64::from_bits(edge.to_bits().wrapping_add_signed(step)));
    let mut values = vec![0.0, -0.0, 0.5, 1.0, 5.0, -5.0];
    values.extend([f64::NAN, f64::INFINITY, f64::NEG_INFINITY]);
    values.extend(beside(0.0 - MARGIN));
    values.extend(beside(1.0 + MARGIN));
    for &mua in &values {
        for &mub in &values {
            cases.case(|case| _ = case.word("ratios").f64(mua).f64(mub));
        }
    }
}

/// Each coordinate at and beyond its limits.
fn limits(cases: &mut Cases) {
    for place in 0..6 {
        for edge in [16383, 16384, -16383, -16384, i32::MAX, i32::MIN] {
            let write = |case: &mut Line, count: usize| {
                let value = |i: usize| if i == place { edge } else { 7 * i as i32 };
                (0..count).for_each(|i| _ = case.number(value(i)));
            };
            cases.case(|case| write(case.word("signed_area"), 6));
            if place < 2 {
                cases.case(|case| write(case.word("norm_i32"), 2));
            }
        }
    }
    let far = [16383.0, 16383.000_000_000_002, -16383.0, -16384.0];
    for place in 0..8 {
        for edge in far.into_iter().chain(F64_EDGES) {
            let value = |i: usize| if i == place { edge } else { 3.0 * i as f64 };
            let values: Vec<f64> = (0..8).map(value).collect();
            cases.case(|case| put(case.word("intersection"), &values));
            if place < 4 {
                cases.case(|case| put(case.word("mid_point"), &values[..4]));
            }
            if place < 2 {
                cases.case(|case| put(case.word("norm"), &values[..2]));
            }
        }
    }
}
