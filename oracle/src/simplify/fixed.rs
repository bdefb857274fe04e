//! The fixed list of the crate `simplify`.

use super::make::{make, Call, CALLS};
use super::shapes;
use crate::random::Random;
use crate::reduce::fixed::{bad_lists, fixed_random};
use crate::reduce::shapes::stroll;
use crate::text::Cases;

pub fn fixed(cases: &mut Cases) {
    for values in base_lists() {
        all_calls(cases, &values);
    }
    fixed_small(cases);
    fixed_rooms(cases);
    fixed_refusals(cases);
    fixed_random(cases, make, 11, 400);
    fixed_long(cases);
    for line in BAD_LINES {
        cases.line(line);
    }
}

/// Each call on a list, both ways round.
fn all_calls(cases: &mut Cases, values: &[i32]) {
    for (name, clockwise) in [
        (CALLS[0], false),
        (CALLS[0], true),
        (CALLS[1], false),
        (CALLS[2], false),
        (CALLS[2], true),
    ] {
        cases.case(|case| Call::new(name, clockwise, values).write(case));
    }
}

/// Document 01's lists and the like: no point, one, two, three; repeated points, points on a line,
/// third sides of length 0, penalties of 1 and beside it, penalties that are no number before and after
/// one that counts, the limits.
fn base_lists() -> Vec<Vec<i32>> {
    vec![
        vec![],
        vec![7, 7],
        vec![1, 2, 3, 4],
        vec![3, 3, 3, 3],
        vec![0, 0, 0, 1],
        vec![0, 0, 100, 0, 0, 0],
        vec![0, 0, 1, 0, 0, 0],
        vec![2, 2, 2, 2, 2, 2],
        vec![0, 0, 0, 0, 0, 1],
        vec![0, 0, 0, 1, 0, 1],
        vec![0, 0, 0, 1, 0, 2],
        vec![0, 0, 0, 2, 0, 3],
        vec![0, 0, 0, 1, 1, 1],
        vec![0, 0, 1, 0, 1, 1],
        vec![0, 0, 0, 2, 1, 0],
        vec![0, 0, 2, 1, 4, 0],
        vec![0, 0, 1, 2, 15, 20],
        vec![0, 0, 4, 6, 15, 20],
        vec![0, 0, 0, 2, 1, 1, 4, 4],
        vec![0, 0, 1, 1, 0, 2, 4, 4],
        vec![0, 0, 5, 0, 0, 0, 5, 0, 0, 0],
        vec![0, 0, 0, 0, 0, 0, 5, 9, 0, 0],
        vec![0, 0, 1, 0, 1, 1, 0, 1, 0, 0],
        vec![0, 0, 4, 0, 4, 4, 0, 4, 0, 0],
        vec![0, 0, 1, 0, 1, 1, 2, 1, 2, 2, 1, 2, 1, 0, 0, 0],
        vec![0, 0, 3, 0, 3, 1, 2, 1, 2, 2, 1, 2, 1, 3, 0, 3, 0, 0],
        vec![0, 0, 1, 0, 1, 1, 2, 1, 2, 2, 3, 2, 3, 3, 4, 3],
        vec![4, 3, 3, 3, 3, 2, 2, 2, 2, 1, 1, 1, 1, 0, 0, 0],
        vec![0, 0, 2, 0, 2, 1, 4, 1, 4, 2, 6, 2, 6, 3],
        vec![0, 0, 9, 0, -9, 0, 3, 0, 20, 0],
        vec![0, 0, 1, 1, 2, 2, 3, 3, 4, 4, 5, 5],
        vec![1, 1, 1, 1, 1, 1, 1, 1, 1, 1],
        vec![-16383, -16383, 16383, -16383, 16383, 16383, -16383, 16383, -16383, -16383],
        vec![-16383, -16383, 16383, 16383, 16383, 16382, -16383, -16383],
        vec![-16383, -16383, 0, 1, 1, 0, 16383, 16383],
        vec![16383, 16383, 16382, 16383, 16382, 16382, 16383, 16382, 16383, 16383],
    ]
}

/// Three points with small coordinates: the second and the third anywhere about the first.
fn fixed_small(cases: &mut Cases) {
    for of in 0..5i32.pow(4) {
        let digit = |place: u32| of / 5i32.pow(place) % 5 - 2;
        let values = [0, 0, digit(0), digit(1), digit(2), digit(3)];
        let name = CALLS[of as usize % 3];
        cases.case(|case| Call::new(name, of % 2 == 0, &values).write(case));
    }
}

/// Each room from nothing to more than enough.
fn fixed_rooms(cases: &mut Cases) {
    for values in [vec![], vec![7, 7], vec![0, 0, 9, 9], vec![0, 0, 1, 0, 1, 1, 0, 0]] {
        for name in CALLS {
            for room in 0..=10 {
                let call = Call { room, ..Call::new(name, true, &values) };
                cases.case(|case| call.write(case));
            }
        }
    }
}

/// Bad lists, with room and without.
fn fixed_refusals(cases: &mut Cases) {
    for name in CALLS {
        for values in &bad_lists() {
            cases.case(|case| Call::new(name, false, values).write(case));
            let call = Call { room: 0, ..Call::new(name, false, values) };
            cases.case(|case| call.write(case));
        }
    }
}

/// Lists of 4,096 points, of half a point more, and of one.
fn fixed_long(cases: &mut Cases) {
    let mut random = Random::new(12);
    let stairs = shapes::stairs(&mut random, 4096);
    cases.case(|case| Call::new("remove_staircase", true, &stairs).write(case));
    cases.case(|case| Call::new("simplify", false, &stairs).write(case));
    let triangles = shapes::triangles(&mut random, 4096);
    cases.case(|case| Call::new("limit_penalties", false, &triangles).write(case));
    let strolled = stroll(&mut random, 4096);
    cases.case(|case| Call::new("simplify", true, &strolled).write(case));
    // Nothing goes in the first pass: all 4,096 points stand between the two.
    let to_and_fro: Vec<i32> = (0..4096).flat_map(|i| [i % 2 * 2, 0]).collect();
    cases.case(|case| Call::new("remove_staircase", true, &to_and_fro).write(case));
    let spread: Vec<i32> = (0..4096).flat_map(|i| [i % 2 * 9, i % 3 * 9]).collect();
    cases.case(|case| Call::new("simplify", true, &spread).write(case));
    for name in CALLS {
        for values in [&[1; 8193][..], &[1; 8194]] {
            let call = Call::new(name, false, values);
            cases.case(|case| Call { room: 4, ..call }.write(case));
        }
    }
}

/// Lines that are no cases.
const BAD_LINES: [&str; 18] = [
    "",
    "simplify",
    "simplify 1",
    "simplify 1 0,0",
    "simplify 1 0,0 4 4",
    "simplify 2 0,0 4",
    "simplify 01 0,0 4",
    "simplify - 0,0 4",
    "simplify 1 0,0  4",
    "simplify 1  4",
    "simplify 1 0,,0 4",
    "simplify 1 0,0 -4",
    "simplify 1 0,0 65537",
    "simplify 1 0,2147483648 4",
    "remove_staircase 0,0 4",
    "limit_penalties 1 0,0 4",
    "limit_penalties 0,0",
    "limit_penalty 0,0 4",
];
