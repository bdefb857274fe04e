//! The fixed list of the crate `point`.

use super::make::{COORDINATE, F64_EDGES, I32_EDGES, SQ_TOLERANCE, TOLERANCE};
use crate::text::Cases;

pub fn fixed(cases: &mut Cases) {
    for values in i32_lists() {
        cases.case(|case| _ = case.word("points").i32s(&values));
    }
    for values in f64_lists() {
        cases.case(|case| _ = case.word("points_f64").f64s(&values));
    }
    for (call, limit) in [("tolerance", TOLERANCE), ("sq_tolerance", SQ_TOLERANCE)] {
        let beside = [limit, limit.next_down(), limit.next_up(), -limit, limit / 2.0, limit * 2.0];
        for value in beside.into_iter().chain(F64_EDGES) {
            cases.case(|case| _ = case.word(call).f64(value));
        }
    }
    for line in BAD_LINES {
        cases.line(line);
    }
}

/// Short lists with each edge in each place, and long ones.
fn i32_lists() -> Vec<Vec<i32>> {
    let mut lists =
        vec![vec![], vec![5], vec![5, 5], vec![5, 5, 5], vec![16384], vec![5, 5, 16384]];
    for edge in I32_EDGES {
        lists.extend([vec![edge, 0], vec![0, edge], vec![7, -7, 3, edge]]);
    }
    for length in [8190, 8191, 8192, 8193, 8194] {
        lists.push(vec![0; length]);
    }
    let mut last_bad = vec![1; 8192];
    last_bad[8191] = 16384;
    lists.push(last_bad);
    let mut first_bad = vec![2; 8194];
    first_bad[0] = -16384;
    lists.push(first_bad);
    lists
}

fn f64_lists() -> Vec<Vec<f64>> {
    let mut lists = vec![vec![], vec![1.5], vec![1.5, -2.5], vec![1.5; 3], vec![f64::NAN]];
    let limit = COORDINATE;
    let beside = [limit, limit.next_down(), limit.next_up(), 16384.0];
    for edge in beside.into_iter().flat_map(|edge| [edge, -edge]).chain(F64_EDGES) {
        lists.extend([vec![edge, 0.0], vec![1.0, 2.0, 3.0, edge]]);
    }
    lists.push(vec![0.5; 8192]);
    lists.push(vec![0.5; 8193]);
    let mut bad = vec![0.5; 8194];
    bad[8193] = f64::NAN;
    lists.push(bad);
    lists
}

/// Lines that are no cases.
const BAD_LINES: [&str; 21] = [
    "",
    "points",
    "points ",
    "points 1,2 3",
    "points 1,,2",
    "points 1,2,",
    "points ,1,2",
    "points 1;2",
    "points +1,2",
    "points 1,2147483648",
    "points -2147483649,1",
    "points 1,-",
    "points 1,2 ",
    "points  1,2",
    "points_f64 1,2",
    "points_f64 4000000000000000,400000000000000",
    "tolerance",
    "tolerance 1",
    "tolerance 40000000000000000",
    "tolerance -",
    "sq_tolerance 4000000000000000 4000000000000000",
];
