//! The fixed list.

use super::make::{self, write};
use super::{seen, subdivide, Round};
use crate::point::make::COORDINATE;
use crate::random::Random;
use crate::reduce::fixed::bad_lists;
use crate::text::{Cases, Line};
use visioncortex::PointF64;

const SEED: u64 = 61;

const SQUARE: [f64; 10] = [0.0, 0.0, 4.0, 0.0, 4.0, 4.0, 0.0, 4.0, 0.0, 0.0];

/// Lines that are no cases.
const BAD: [&str; 5] =
    ["", "corners", "corners 0 1 2 0,0 1", "subdivide", "subdivide 4020000000000000"];

pub fn fixed(cases: &mut Cases) {
    worked(cases);
    corners(cases);
    repeats(cases);
    short_lists(cases);
    edges(cases);
    halves(cases);
    places(cases);
    refusals(cases);
    lengths(cases);
    long_lists(cases);
    let mut random = Random::new(SEED);
    for index in 0..500 {
        cases.case(|case| make::make(&mut random, index, case));
    }
    BAD.iter().for_each(|line| cases.line(line));
}

fn round(cases: &mut Cases, values: &[f64], corners: &[u8], ratio: f64, length: f64, closed: bool) {
    let places = (2 * (values.len() / 2)).saturating_sub(1);
    let round = Round { ratio, length, closed, values: values.to_vec(), corners: corners.to_vec() };
    cases.case(|case| write(&round, 2 * places, places, case));
}

/// Document 01's square, with no corner, one, some and all.
fn worked(cases: &mut Cases) {
    for bits in [0, 1, 2, 5, 3, 15] {
        let corners: Vec<u8> = (0..4).map(|i| bits >> i & 1).collect();
        round(cases, &SQUARE, &corners, 8.0, 1.0, true);
    }
    round(cases, &SQUARE, &[1, 0, 0, 0, 1], 8.0, 1.0, false);
    round(cases, &SQUARE, &[0, 0, 0, 0, 0], 8.0, 1.0, false);
}

/// Squares, straight lines, turns on both sides of the pair, repeated points, both ends of each limit.
fn corners(cases: &mut Cases) {
    let lists = [
        "0,0,4,0,4,4,0,4,0,0",
        "0,0,1,0,5,0",
        "0,0,3,0,5,2",
        "0,0,3,0,5,-2",
        "7,7",
        "7,7,7,7",
        "7,7,8,8",
        "0,0,4,0,4,0,4,4,0,0",
        "0,0,3,4,0,0,3,4",
        "-16383,-16383,16383,-16383,16383,16383",
        "16383,16383,-16383,-16383,16383,-16383,16383,16383",
        "-",
        "1",
    ];
    let pairs = [
        "0 1",
        "1 1",
        "-1 1",
        "1000 1",
        "-1000 1",
        "1000 1000",
        "1001 1",
        "-1001 1",
        "0 0",
        "0 1001",
        "4 3",
    ];
    for list in lists {
        for pair in pairs {
            cases.line(&format!("corners {pair} 0 {list} 5"));
            cases.line(&format!("corners {pair} 1 {list} 5"));
        }
    }
    for room in 0..=6 {
        cases.line(&format!("corners 0 1 1 0,0,4,0,4,4,0,4,0,0 {room}"));
        cases.line(&format!("corners 0 1 0 0,0,4,0,4,4,0,4,0,0 {room}"));
    }
}

/// Points entered again. Each list open, and closed: then its last point is not seen.
fn repeats(cases: &mut Cases) {
    let [a, b, c, d] = [[0, 0], [4, 0], [4, 4], [0, 4]];
    let far = [9, -9];
    let mut lists: Vec<Vec<[i32; 2]>> = vec![
        // A run of three in the middle: at a right angle, at a gentle turn, straight on, and back.
        vec![a, b, b, b, c],
        vec![a, b, b, b, [8, 1]],
        vec![a, b, b, b, [8, 0]],
        vec![a, b, b, b, a],
        // Two runs side by side, and one point twice that is not entered twice in a row.
        vec![a, b, b, c, c, c, d],
        vec![a, b, a, b, b, a, c],
        vec![[0, 0], [3, 4], [3, 4], [0, 0]],
        vec![[0, 0], [3, 4], [3, 4], [0, 0], [0, 0], [3, 4]],
        // Neighbours with one coordinate in common, both ways round.
        vec![a, b, c, [8, 4]],
        vec![a, d, c, [4, 8]],
        vec![a, b, c, d, far],
        vec![a, d, c, b, far],
        // The last point that is seen of a closed list, or the one that is not, is a repeat.
        vec![a, b, c, c],
        vec![a, b, c, c, c],
        vec![a, b, c, far, far],
        // At the limits.
        vec![[-16383, -16383], [16383, 16383], [16383, 16383], [16383, -16383], [-16383, 16383]],
    ];
    lists.extend((1..=5).map(|n| vec![[7, 7]; n]));
    for front in 1..=3 {
        for end in 1..=3 {
            let list = |parts: &[&[[i32; 2]]]| parts.concat();
            let (first, second, last) = (vec![a; front], vec![b; end], vec![a; end]);
            // Two runs; and the first of them again behind.
            lists.push(list(&[&first, &second]));
            lists.push(list(&[&first, &[b, b], &last]));
            // The run at the front goes on at the end, where a closed list wraps: at a sharp turn, and straight on.
            // Or it does not.
            lists.push(list(&[&first, &[b, c], &last, &[far]]));
            lists.push(list(&[&first, &[b, c, [-4, 4], [-4, 0]], &last, &[far]]));
            lists.push(list(&[&first, &[c], &second, &[far]]));
        }
    }
    for list in lists {
        for pair in [(0, 1), (1, 1), (-1, 1)] {
            corners_of(cases, pair, list.as_flattened());
        }
    }
    // As many as there can be.
    let run = |n| [7, 7].repeat(n);
    corners_of(cases, (0, 1), &run(4096));
    corners_of(cases, (0, 1), &[run(2048), [8, 8].repeat(2048)].concat());
    corners_of(cases, (0, 1), &[run(2047), [8, 8].repeat(2), run(2047)].concat());
}

/// The corners of a list, open and closed, with room for them.
fn corners_of(cases: &mut Cases, (c, s): (i32, i32), values: &[i32]) {
    for closed in [false, true] {
        let room = seen(values.len() / 2, closed);
        cases.case(|case| {
            case.word("corners").number(c).number(s).bool(closed).i32s(values).number(room);
        });
    }
}

/// 0 to 5 points, open and closed, in every way to be corners; rooms one short; flags too many, or none.
fn short_lists(cases: &mut Cases) {
    let all = [0.0, 0.0, 3.0, 4.0, 6.0, 0.0, 6.0, 0.0, -2.5, 1.0];
    for n in 0..=5 {
        let values = &all[..2 * n];
        for closed in [false, true] {
            let flags = seen(n, closed);
            for bits in 0..1_u8 << flags {
                let corners: Vec<u8> = (0..flags).map(|i| bits >> i & 1).collect();
                round(cases, values, &corners, 8.0, 1.0, closed);
            }
            let corners = vec![0; flags];
            let places = (2 * n).saturating_sub(1);
            let values_of = || values.to_vec();
            for (out, room) in [
                ((2 * places).saturating_sub(1), places),
                (2 * places, places.saturating_sub(1)),
                (2 * places + 3, places + 2),
            ] {
                let corners = corners.clone();
                let round = Round { ratio: 8.0, length: 1.0, closed, values: values_of(), corners };
                cases.case(|case| write(&round, out, room, case));
            }
            round(cases, values, &vec![0; flags + 1], 8.0, 1.0, closed);
            round(cases, values, &vec![2; flags], 8.0, 1.0, closed);
        }
    }
}

/// Lengths equal to the segment length and a step beside; neighbours twice as long and a step beside;
/// settings at and beyond their limits.
fn edges(cases: &mut Cases) {
    let step = |value: f64, by: i64| f64::from_bits(value.to_bits().wrapping_add_signed(by));
    for by in [-1, 0, 1] {
        let (five, eight) = (step(5.0, by), step(8.0, by));
        round(cases, &[0.0, 0.0, 3.0, 4.0, 6.0, 0.0, 0.0, 0.0], &[0; 3], 8.0, five, true);
        round(cases, &[0.0, 0.0, 4.0, 0.0, 4.0, eight, 8.0, 8.0], &[0; 4], 8.0, 1.0, false);
        round(cases, &[0.0, eight, 0.0, 0.0, 4.0, 0.0, 6.0, 0.0], &[0; 4], 8.0, 1.0, false);
        round(cases, &SQUARE, &[0; 4], step(1.0, by), 1.0, true);
        round(cases, &SQUARE, &[0; 4], step(1000.0, by), 1.0, true);
        round(cases, &SQUARE, &[0; 4], 8.0, step(65536.0, by), true);
        round(cases, &SQUARE, &[0; 4], 8.0, step(4.0, by), true);
    }
    let least = f64::from_bits(1);
    for bad in [f64::NAN, f64::INFINITY, f64::NEG_INFINITY, -0.0, -1.0, 0.0, least, -least] {
        round(cases, &SQUARE, &[0; 4], bad, 1.0, true);
        round(cases, &SQUARE, &[0; 4], 8.0, bad, true);
        round(cases, &[0.0, 0.0, bad, 4.0, 1.0, 1.0], &[0; 3], 8.0, 1.0, false);
    }
    // The middle lies, or as good as lies, on the line between the neighbours.
    round(cases, &[0.0, 0.0, 2.0, 0.0, 4.0, 0.0, 6.0, 0.0], &[0; 4], 8.0, 1.0, false);
    round(cases, &[0.0, 0.0, 2.0, 1e-15, 4.0, 0.0, 6.0, 1e-15], &[0; 4], 1000.0, 1.0, false);
    // Zeros with a sign, in what is kept and in what enters.
    round(cases, &[-1.0, -0.0, -0.0, -0.0, 4.0, -0.0, 5.0, -0.0], &[0; 4], 8.0, 1.0, false);
    round(cases, &[-0.0, -1.0, -0.0, -0.0, -0.0, 4.0, -0.0, 5.0], &[0; 4], 8.0, 1.0, false);
    // A middle that is the least double.
    round(cases, &[-1.0, least, 0.0, least, 4.0, least, 5.0, least], &[0; 4], 8.0, 1.0, false);
    round(cases, &[least, -1.0, least, 0.0, least, 4.0, least, 5.0], &[0; 4], 8.0, 1.0, false);
}

/// The middle of a segment and the middle of its neighbours apart by about EPSILON times the ratio, and
/// lengths of the two halves at the segment length.
fn halves(cases: &mut Cases) {
    let step = |value: f64, by: i64| f64::from_bits(value.to_bits().wrapping_add_signed(by));
    for ratio in [1.0, 8.0, 1000.0] {
        for times in [0.5, 1.0, 2.0] {
            for by in [-1, 0, 1] {
                let apart = step(f64::EPSILON * ratio * times, by);
                let values = [0.0, apart, 0.0, 0.0, 4.0, 0.0, 4.0, apart];
                round(cases, &values, &[0; 4], ratio, 1.0, false);
            }
        }
    }
    round(cases, &[0.0, 1e-15, 0.0, 0.0, 4.0, 0.0, 4.0, 1e-15], &[0; 4], 8.0, 1.0, false);
    for by in [-1, 0, 1] {
        let two = step(2.0, by);
        round(cases, &[-1.0, 0.0, 0.0, 0.0, 4.0, 0.0, 5.0, 0.0], &[0; 4], 8.0, two, false);
        // One half is longer than the other.
        round(cases, &[0.0, 0.0, 0.0, 0.0, 4.0, 0.0, 5.0, 0.0], &[0; 4], 8.0, two, false);
        round(cases, &[-1.0, 0.0, 0.0, 0.0, 4.0, 0.0, 4.0, 0.0], &[0; 4], 8.0, two, false);
    }
}

/// Any points, and the segment length that of a segment to the bit or a step below: of one that was there, or of
/// one that the round makes.
fn lengths(cases: &mut Cases) {
    let mut random = Random::new(SEED + 1);
    for place in 0..160 {
        let reach = random.pick(&[3.0, 100.0, COORDINATE]);
        let values = (0..8).map(|_| (random.fraction() * 2.0 - 1.0) * reach).collect();
        let mut round =
            Round { ratio: 8.0, length: 0.0, closed: false, values, corners: vec![0; 4] };
        let points = match place % 2 {
            0 => round.values.chunks_exact(2).map(|pair| PointF64::new(pair[0], pair[1])).collect(),
            _ => subdivide(&round).0,
        };
        let at = random.below(points.len() as u64 - 1) as usize;
        let length = (points[at] - points[at + 1]).norm();
        round.length = if random.once_in(2) { length } else { length.next_down() };
        cases.case(|case| write(&round, 14, 7, case));
    }
}

/// Each place of a list at a limit and beyond it: of a closed list the last point too, which is not looked at otherwise.
fn places(cases: &mut Cases) {
    for list in bad_lists() {
        for closed in [false, true] {
            let room = seen(list.len() / 2, closed);
            let case = |case: &mut Line| {
                case.word("corners").number(0).number(1).bool(closed).i32s(&list).number(room);
            };
            cases.case(case);
        }
    }
    for edge in [16383.0, 16383.0_f64.next_up(), -16383.0, (-16383.0_f64).next_down()] {
        for place in 0..6 {
            let mut values = [0.0, 0.0, 3.0, 4.0, 6.0, 0.0];
            values[place] = edge;
            round(cases, &values, &[0; 3], 8.0, 1.0, false);
            round(cases, &values, &[0; 2], 8.0, 1.0, true);
        }
    }
}

/// Every two refusals at once.
fn refusals(cases: &mut Cases) {
    for first in 0..5 {
        for second in first + 1..5 {
            let is = |refusal| [first, second].contains(&refusal);
            let mut values = if is(0) { vec![1.0; 2] } else { SQUARE.to_vec() };
            let mut corners = vec![0; seen(values.len() / 2, true)];
            let (mut ratio, mut room) = (8.0, 18);
            if is(1) {
                values[1] = f64::NAN;
            }
            if is(2) {
                corners.push(0);
            }
            if is(3) {
                ratio = 0.5;
            }
            if is(4) {
                room = 0;
            }
            let round = Round { ratio, length: 1.0, closed: true, values, corners };
            cases.case(|case| write(&round, room, room, case));
        }
    }
    for (pair, list, room) in [
        ("0 0", "0,0,4,0,4,4", 2),
        ("0 0", "0,0,4,0,4,16384", 3),
        ("0 1", "0,0,4,0,4,16384", 2),
        ("0 0", "16384", 0),
        ("0 0", "-", 0),
        ("0 1", "16384", 0),
    ] {
        cases.line(&format!("corners {pair} 0 {list} {room}"));
        cases.line(&format!("corners {pair} 1 {list} {}", room.max(1) - 1));
    }
}

/// 4,096 points, and one more.
fn long_lists(cases: &mut Cases) {
    let point = |i: i32| [f64::from(i % 128) * 3.0, f64::from(i / 128 + i % 3)];
    let long: Vec<f64> = (0..4097).flat_map(point).collect();
    round(cases, &long[..8192], &[0; 4095], 8.0, 1.0, true);
    round(cases, &long[..8192], &[0; 4096], 8.0, 1.0, false);
    // Too many, without room: the answer is short to read. And all else wrong too.
    let (ratio, length, mut values) = (8.0, 1.0, long.clone());
    let corners = vec![0; 4096];
    let round = Round { ratio, length, closed: true, values: values.clone(), corners };
    cases.case(|case| write(&round, 4, 4, case));
    values[8193] = f64::NAN;
    let round = Round { ratio: 0.0, length, closed: false, values, corners: vec![2; 9] };
    cases.case(|case| write(&round, 4, 4, case));
    let whole: Vec<i32> = long.iter().map(|&value| value as i32).collect();
    for (n, s, room) in [(8192, 2, 4096), (8193, 0, 3), (8194, 2, 3)] {
        for closed in [false, true] {
            let case = |case: &mut Line| {
                case.word("corners").number(1).number(s).bool(closed);
                case.i32s(&whole[..n]).number(room);
            };
            cases.case(case);
        }
    }
}
