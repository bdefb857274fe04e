//! The fixed list of the crate `split`.

use super::make::{has_tolerance, make, Call, CALLS};
use super::shapes;
use crate::reduce::fixed::{base_lists, counted_lists, fixed_random};
use crate::reduce::{numbers::numbers, points_of};
use crate::text::Cases;

pub fn fixed(cases: &mut Cases) {
    for values in base_lists().into_iter().chain(counted_lists()).chain(far_lists()) {
        for name in CALLS {
            for tolerance in tolerances(name, &values) {
                cases.case(|case| Call::new(name, tolerance, &values).write(case));
            }
        }
    }
    fixed_rooms(cases);
    fixed_halves(cases);
    fixed_random(cases, make, 13, 300);
    fixed_long(cases);
    for line in BAD_LINES {
        cases.line(line);
    }
}

/// Coordinates that no other call takes.
fn far_lists() -> Vec<Vec<i32>> {
    let (least, most) = (i32::MIN, i32::MAX);
    vec![
        vec![16384, -16384],
        vec![0, 0, 16384, 1, -16384, 0, 5, 5],
        vec![least, least, most, most],
        vec![least, least, most, least, most, most, least, most, least, least],
        vec![least, least, 0, 1, 1, 0, -1, 0, most, most],
        vec![least, 0, most, 1, least, 2, most, 3, least, 4],
        vec![most, most, most - 1, most, most, most - 1, least + 1, most],
    ]
}

/// All that a tolerance may be, what occurs and right beside it.
fn tolerances(name: &str, values: &[i32]) -> Vec<f64> {
    if !has_tolerance(name) {
        return vec![0.0];
    }
    let mut occurring = numbers(&points_of(values));
    occurring.retain(|&d| 0.0 < d && d < f64::INFINITY);
    occurring.sort_by(f64::total_cmp);
    occurring.dedup();
    occurring.truncate(3);
    let beside = occurring.into_iter().flat_map(|d| [d.next_down(), d, d.next_up()]);
    let edges = [0.0, -0.0, -f64::from_bits(1), f64::NAN, f64::INFINITY, f64::NEG_INFINITY];
    edges.into_iter().chain(beside).collect()
}

/// Each room from nothing to more than enough.
fn fixed_rooms(cases: &mut Cases) {
    for values in [&[][..], &[7, 7], &[0, 0, 9, 9], &[0, 0, 4, 1, 9, 9], &[0, 0, 8, 2, 0, 4, 8, 0]]
    {
        for name in CALLS {
            for room in 0..=6 {
                let call = Call { room, ..Call::new(name, 3.0, values) };
                cases.case(|case| call.write(case));
            }
        }
    }
}

/// Half a point behind the others, which counts for nothing, with room for a whole one and without.
fn fixed_halves(cases: &mut Cases) {
    for values in [&[1][..], &[7, 7, 8], &[0, 0, 9, 9, 5], &[0, 0, 8, 2, 0, 4, 8, 0, 99]] {
        for name in CALLS {
            for more in 0..=1 {
                let call = Call::new(name, 1.0, values);
                let call = Call { room: call.room + more, ..call };
                cases.case(|case| call.write(case));
            }
        }
    }
}

/// Lists of 4,096 points and of 4,097, and half a point more.
fn fixed_long(cases: &mut Cases) {
    for n in [4095, 4096, 4097] {
        let values = shapes::equal(n, 1);
        for name in CALLS {
            for tolerance in if has_tolerance(name) { &[0.0, -1.0][..] } else { &[0.0] } {
                cases.case(|case| Call::new(name, *tolerance, &values).write(case));
            }
        }
    }
    let half = [&shapes::equal(4096, 1)[..], &[2]].concat();
    let short = shapes::equal(4096, 3);
    for name in CALLS {
        cases.case(|case| Call::new(name, 0.0, &half).write(case));
        cases.case(|case| Call { room: 4095, ..Call::new(name, 0.0, &short) }.write(case));
    }
    for values in [shapes::hill(4096), shapes::rising(4096)] {
        for name in ["mark_waiting", "number_waiting"] {
            cases.case(|case| Call::new(name, 0.0, &values).write(case));
        }
    }
}

/// Lines that are no cases.
const BAD_LINES: [&str; 14] = [
    "mark",
    "mark 0000000000000000 0,0",
    "mark 0,0 1",
    "mark 0000000000000000 0,0 1 1",
    "mark 0 0,0 1",
    "mark_waiting 0000000000000000 0,0",
    "mark_waiting 0000000000000000 0,0 65537",
    "mark_waiting 0000000000000000 0,2147483648 1",
    "number",
    "number 0,0",
    "number 0000000000000000 0,0 1",
    "number_waiting 0,0 1 1",
    "number_waiting 0,,0 1",
    "numbers_waiting 0,0 1",
];
