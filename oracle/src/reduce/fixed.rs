//! The fixed list of the crate `reduce`.

use super::make::{make_counted, make_plain, numbers_of, Call};
use super::make::{CALLS, EDGES, SQ_TOLERANCE, TOLERANCE};
use super::{points_of, shapes};
use crate::random::Random;
use crate::text::{Cases, Line};

pub fn fixed(cases: &mut Cases) {
    for values in base_lists() {
        for name in CALLS {
            for tolerance in base_tolerances(name, &values) {
                cases.case(|case| Call::new(name, tolerance, &values).write(case));
            }
        }
    }
    fixed_equal(cases);
    fixed_rooms(cases);
    fixed_refusals(cases);
    fixed_zooms(cases);
    fixed_random(cases, make_plain, 9, 500);
    fixed_long(cases);
    fixed_counted(cases);
    for line in BAD_LINES {
        cases.line(line);
    }
}

/// Document 01's lists and the like: no point, one, two, three; repeated points, points on a line,
/// closed outlines, equal distances, the limits.
pub(crate) fn base_lists() -> Vec<Vec<i32>> {
    vec![
        vec![],
        vec![7, 7],
        vec![0, 0, 5, 5],
        vec![3, 3, 3, 3],
        vec![0, 0, 3, 4, 6, 8],
        vec![0, 0, 4, 0, 0, 0],
        vec![2, 2, 2, 2, 2, 2],
        vec![0, 0, 0, 5, 0, 5],
        vec![0, 0, 0, 0, 0, 5],
        vec![0, 0, 8, 2, 0, 4, 8, 0],
        vec![0, 0, 1, 0, 1, 1, 0, 1, 0, 0],
        vec![0, 0, 4, 0, 4, 4, 0, 4, 0, 0],
        vec![0, 0, 1, 0, 1, 1, 2, 1, 2, 2, 1, 2, 1, 0, 0, 0],
        vec![1, 1, 1, 1, 1, 1, 1, 1, 1, 1],
        vec![0, 0, 2, 1, 4, 2, 6, 3, 6, 3, 10, 5],
        vec![0, 0, 9, 0, -9, 0, 3, 0],
        vec![0, 0, 1, 3, 2, 3, 3, 3, 4, 0],
        vec![0, 0, 1, -3, 2, 3, 3, -3, 4, 0],
        vec![0, 0, 1, 1, 2, 1, 3, 1, 4, 1, 5, 1, 6, 0],
        vec![0, 0, 3, 1, 7, 2, 10, 0, 13, -1, 20, 0, 21, 3, 30, 1],
        vec![-16383, -16383, 16383, -16383, 16383, 16383, -16383, 16383, -16383, -16383],
        vec![-16383, -16383, 16383, 16383, 16383, 16382, -16383, -16383],
        vec![-16383, -16383, 0, 1, 1, 0, 16383, 16383],
        vec![-16383, 0, 16383, 1, -16383, 2, 16383, 3, -16383, 4],
    ]
}

/// Zero, what occurs and right beside it, the limits: in the unit of the call.
fn base_tolerances(name: &str, values: &[i32]) -> Vec<f64> {
    let limit = if name == "reduce" { TOLERANCE } else { SQ_TOLERANCE };
    let mut occurring = match name {
        "numbers" | "numbers_counted" => return vec![0.0],
        "radial" => squares_between(values),
        "reduce" => {
            let radial = squares_between(values).into_iter().map(|d| (2.0 * d).sqrt());
            radial.chain(numbers_of(values).into_iter().map(f64::sqrt)).collect()
        }
        _ => numbers_of(values),
    };
    occurring.retain(|&d| 0.0 < d && d < limit);
    occurring.sort_by(f64::total_cmp);
    occurring.dedup();
    occurring.truncate(4);
    let beside = occurring.into_iter().flat_map(|d| [d.next_down(), d, d.next_up()]);
    [0.0, -0.0, f64::MIN_POSITIVE, 0.5, limit].into_iter().chain(beside).collect()
}

/// The squared distances from each point to the next.
fn squares_between(values: &[i32]) -> Vec<f64> {
    let points = points_of(values);
    let between = points.windows(2).map(|pair| pair[1] - pair[0]);
    between.map(|vector| f64::from(vector.length_squared())).collect()
}

/// A radial distance of exactly half the squared tolerance: at 10 the second point is left out, and the third is not;
/// a step below it is the other way round. And the tolerances whose half square is a step below and above 5.
fn fixed_equal(cases: &mut Cases) {
    let far = [0, 0, 7, 1, 11, 6, 11, -20];
    let near = [0, 0, 2, 1, 3, 2, 3, -20];
    let beside = |value: f64| [value.next_down(), value, value.next_up()];
    for tolerance in beside(10.0) {
        cases.case(|case| Call::new("reduce", tolerance, &far).write(case));
    }
    for tolerance in beside(10.0_f64.sqrt()) {
        cases.case(|case| Call::new("reduce", tolerance, &near).write(case));
    }
    for sq_tolerance in beside(50.0) {
        cases.case(|case| Call::new("radial", sq_tolerance, &far).write(case));
    }
}

/// Each room from nothing to more than enough, the others enough.
fn fixed_rooms(cases: &mut Cases) {
    for values in [vec![], vec![7, 7], vec![0, 0, 9, 9], vec![0, 0, 8, 2, 0, 4, 8, 0]] {
        for name in CALLS {
            for room in 0..=10 {
                let rooms: [fn(&mut Call) -> &mut usize; 3] =
                    [|call| &mut call.room, |call| &mut call.scratch, |call| &mut call.marks];
                let rooms = match name {
                    "reduce" => &rooms[..],
                    "douglas_peucker" | "douglas_peucker_counted" => &[rooms[0], rooms[2]],
                    _ => &rooms[..1],
                };
                for of in rooms {
                    let mut call = Call::new(name, 3.0, &values);
                    *of(&mut call) = room;
                    cases.case(|case| call.write(case));
                }
            }
        }
    }
}

/// Lists with half a point, and with a coordinate at a limit or beyond it.
pub(crate) fn bad_lists() -> Vec<Vec<i32>> {
    let mut lists = vec![vec![1], vec![1, 2, 3], vec![0, 0, 1, 1, 2]];
    for edge in [16383, -16383, 16384, -16384, i32::MAX, i32::MIN] {
        lists.extend([vec![edge, 0], vec![0, edge], vec![0, 0, 1, edge, 2, 2]]);
    }
    lists
}

/// Bad lists, bad tolerances, and several refusals at once.
fn fixed_refusals(cases: &mut Cases) {
    for name in CALLS {
        for values in &bad_lists() {
            cases.case(|case| Call::new(name, 1.0, values).write(case));
            let call = Call { room: 0, ..Call::new(name, -1.0, values) };
            cases.case(|case| call.write(case));
        }
    }
    for name in ["radial", "douglas_peucker", "reduce", "zoom", "douglas_peucker_counted"] {
        let limit = if name == "reduce" { TOLERANCE } else { SQ_TOLERANCE };
        for values in [vec![], vec![0, 0, 8, 2, 0, 4, 8, 0]] {
            for tolerance in EDGES.into_iter().chain([limit, limit.next_up(), limit * 2.0]) {
                cases.case(|case| Call::new(name, tolerance, &values).write(case));
                let call = Call { room: 3, ..Call::new(name, tolerance, &values) };
                cases.case(|case| call.write(case));
            }
        }
    }
}

/// Zooms by numbers that are not those of the list.
fn fixed_zooms(cases: &mut Cases) {
    let inf = f64::INFINITY;
    let lists = [
        vec![f64::NAN; 4],
        vec![-inf; 4],
        vec![inf; 4],
        vec![0.0, 2.0, 2.0f64.next_up(), 0.0],
        vec![0.0, 2.0f64.next_down(), -2.0, 0.0],
        vec![inf, -0.0, f64::from_bits(1), inf],
        vec![inf, f64::from_bits(0xfff0_0000_0000_0001), inf, inf],
        vec![],
        vec![inf; 3],
        vec![inf; 5],
        vec![inf; 8],
    ];
    for numbers in lists {
        for tolerance in [0.0, -0.0, 2.0, SQ_TOLERANCE] {
            let call = Call::new("zoom", tolerance, &[0, 0, 8, 2, 0, 4, 8, 0]);
            let call = Call { numbers: numbers.clone(), ..call };
            cases.case(|case| call.write(case));
        }
    }
    for numbers in [vec![], vec![f64::NAN], vec![inf; 2]] {
        for values in [vec![], vec![7, 7], vec![7, 7, 8]] {
            let call = Call { numbers: numbers.clone(), ..Call::new("zoom", 1.0, &values) };
            cases.case(|case| call.write(case));
        }
    }
}

/// The first `left` generated cases of a seed that are not long.
pub(crate) fn fixed_random(
    cases: &mut Cases,
    make: fn(&mut Random, u64, &mut Line),
    seed: u64,
    mut left: usize,
) {
    let mut random = Random::new(seed);
    let mut text = Vec::new();
    while left > 0 {
        text.clear();
        make(&mut random, 0, &mut Line::at_end_of(&mut text));
        if text.len() < 600 {
            cases.line(std::str::from_utf8(&text).expect("a line of text"));
            left -= 1;
        }
    }
}

/// Lists of 4,096 points, of half a point more, and of one.
fn fixed_long(cases: &mut Cases) {
    let mut random = Random::new(10);
    let stroll = shapes::stroll(&mut random, 4096);
    cases.case(|case| Call::new("numbers", 0.0, &stroll).write(case));
    cases.case(|case| Call::new("zoom", 30.0, &stroll).write(case));
    cases.case(|case| Call::new("reduce", 2.5, &stroll).write(case));
    cases.case(|case| Call::new("radial", 20.0, &stroll).write(case));
    let comb = shapes::comb(&mut random, 4096);
    cases.case(|case| Call::new("douglas_peucker", 8.0, &comb).write(case));
    let arc = shapes::arc(&mut random, 4096);
    cases.case(|case| Call::new("douglas_peucker", 0.25, &arc).write(case));
    for name in CALLS {
        for (values, tolerance) in [(&[1; 8193][..], -1.0), (&[1; 8194], 1.0)] {
            let call = Call::new(name, tolerance, values);
            cases.case(|case| Call { room: 4, scratch: 4, marks: 4, ..call }.write(case));
        }
    }
}

/// Lists whose count of distances tells one rule from another: distances of 0 in a part, before the split, behind it
/// and on both sides of it, and in a part of a part; two parts of the same size, and one of them split further; every
/// split at an end of its span, as many distances as there can be.
pub(crate) fn counted_lists() -> Vec<Vec<i32>> {
    let mut lists = vec![
        vec![0, 0, 1, 0, 2, 0, 3, 0, 3, 3],
        vec![0, 0, 0, 3, 1, 3, 2, 3, 3, 3],
        vec![0, 0, 1, 0, 2, 0, 3, 0, 3, 1, 3, 2, 3, 3],
        vec![0, 0, 9, 0, 9, 1, 9, 2, 9, 3, 9, 9, 0, 9, 0, 9, 0, 9],
        vec![0, 0, 1, 1, 2, 4, 3, 1, 4, 0],
        vec![0, 0, 1, 1, 2, 9, 3, 9, 4, 0],
        vec![0, 0, 5, 5, 5, 5, 5, 5, 0, 0],
    ];
    for n in 3..=9 {
        lists.push((0..n).flat_map(|i| [i, i % 2 * i]).collect());
        lists.push((0..n).flat_map(|i| [i, i % 2 * (n - i)]).collect());
    }
    lists
}

/// Counts of distances: of the lists above at what occurs and right beside it, and of 4,096 points.
fn fixed_counted(cases: &mut Cases) {
    for values in counted_lists() {
        for name in &CALLS[5..] {
            for tolerance in base_tolerances(name, &values) {
                cases.case(|case| Call::new(name, tolerance, &values).write(case));
            }
        }
    }
    fixed_random(cases, make_counted, 12, 200);
    let mut random = Random::new(11);
    let comb = shapes::comb(&mut random, 4096);
    cases.case(|case| Call::new("douglas_peucker_counted", 8.0, &comb).write(case));
    let stroll = shapes::stroll(&mut random, 4096);
    cases.case(|case| Call::new("numbers_counted", 0.0, &stroll).write(case));
}

/// Lines that are no cases.
const BAD_LINES: [&str; 26] = [
    "",
    "radial",
    "radial 3ff0000000000000 0,0",
    "radial 3ff0000000000000 0,0 4 4",
    "radial 1 0,0 4",
    "radial 3ff0000000000000 0,0 -4",
    "radial 3ff0000000000000 0,,0 4",
    "radial 3ff0000000000000 0,0  4",
    "radial 3ff0000000000000  4",
    "douglas_peucker 3ff0000000000000 0,0 4",
    "douglas_peucker 3ff0000000000000 0,0 4 1 1",
    "reduce 3ff0000000000000 0,0 4 2",
    "reduce 3ff0000000000000 0,0 4 2 1 1",
    "reduce 3ff0000000000000 0,2147483648 4 2 1",
    "numbers 3ff0000000000000 0,0 4",
    "numbers 0,0",
    "numbers 0,0 x",
    "zoom 3ff0000000000000 0,0 4",
    "zoom 3ff0000000000000 0,0 1 4",
    "zooms 3ff0000000000000 0,0 3ff0000000000000 4",
    "douglas_peucker_counted 3ff0000000000000 0,0 4",
    "douglas_peucker_counted 3ff0000000000000 0,0 4 1 1",
    "numbers_counted 3ff0000000000000 0,0 4",
    "numbers_counted 0,0",
    "numbers_counted 0,0 x",
    "reduce_counted 3ff0000000000000 0,0 4 2 1",
];
