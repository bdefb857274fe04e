//! The fixed list of the crate `areas`.

use super::make::{make, put};
use super::{islands, shapes};
use crate::chart::Chart;
use crate::reduce::fixed::{bad_lists, fixed_random};
use crate::reduce::make::{EDGES, SQ_TOLERANCE};
use crate::reduce::values_of;
use crate::text::Cases;

const SEED: u64 = 71;

pub fn fixed(cases: &mut Cases) {
    whole_lists(cases);
    fixed_islands(cases);
    kept(cases);
    bad_flags(cases);
    at_tolerances(cases);
    rooms(cases);
    limits(cases);
    orders(cases);
    long_lists(cases);
    totals(cases);
    fixed_random(cases, make, SEED, 40);
    for line in BAD_LINES {
        cases.line(line);
    }
}

fn twice_area(cases: &mut Cases, values: &[i32]) {
    cases.case(|case| _ = case.word("twice_area").i32s(values));
}

fn areas(cases: &mut Cases, values: &[i32], flags: &[u8]) {
    cases.case(|case| _ = case.word("areas").i32s(values).bytes(flags));
}

fn areas_at(cases: &mut Cases, sq_tolerance: f64, values: &[i32], room: usize) {
    cases.case(|case| _ = case.word("areas_at").f64(sq_tolerance).i32s(values).number(room));
}

/// No point to four, both ways round; lines that cross, repeats, closed lists; the first edge, or the closing one, as
/// the only one that counts; half a square; the limits, once round and three times.
fn whole_lists(cases: &mut Cases) {
    for list in [
        "-",
        "7,5",
        "3,1,4,2",
        "3,1,3,1",
        "0,0,1,0,0,1",
        "0,0,0,1,1,0",
        "0,0,1,0,1,1,0,1",
        "0,1,1,1,1,0,0,0",
        "5,7,6,7,6,8,5,8",
        "-5,-7,-4,-7,-4,-6,-5,-6",
        "0,0,4,0,4,4,0,4,0,0",
        "0,0,0,0,4,0,4,4,4,4,4,4,0,4",
        "1,2,5,3,0,0",
        "2,1,0,0,3,5",
        "1,0,3,1,2,5",
        "0,0,4,4,4,0,0,4",
        "0,0,2,2,2,0,0,6",
        "1,2,2,4,3,6,5,10",
        "-16383,-16383,16383,-16383,16383,16383,-16383,16383",
        "-16383,16383,16383,16383,16383,-16383,-16383,-16383",
        "16383,-16383,16382,-16383,16383,-16382",
    ] {
        cases.line(&format!("twice_area {list}"));
    }
    twice_area(cases, &[-16383, -16383, 16383, -16383, 16383, 16383, -16383, 16383].repeat(3));
    twice_area(cases, &[-16383, 16383, 16383, 16383, 16383, -16383, -16383, -16383].repeat(3));
}

/// One cell to nine, in every shape of 2 by 2 and some of 3 by 3, both ways: twice the area is twice their count.
fn fixed_islands(cases: &mut Cases) {
    let small = [1, 3, 5, 7, 11, 13, 14, 15].map(|bits| Chart::of_bits(2, 2, bits));
    let large = ["111111111", "101111111", "111001111", "010111010", "100100111"]
        .map(|rows| Chart::of_rule(3, 3, |x, y| rows.as_bytes()[3 * y + x] == b'1'));
    for chart in small.iter().chain(&large) {
        for clockwise in [true, false] {
            twice_area(cases, &values_of(&islands::outline(chart, clockwise)));
        }
    }
}

/// Every choice of kept points, those without an end among them; of a closed list those with both.
fn kept(cases: &mut Cases) {
    let flags = |bits: u8, n: usize| -> Vec<u8> { (0..n).map(|i| bits >> i & 1).collect() };
    for values in [&[1, 2, 5, 3, 7, -6, -1, -4][..], &[3, 1, 8, 2, 6, 9], &[3, 1, 4, 2], &[7, 5]] {
        let n = values.len() / 2;
        for bits in 0..1 << n {
            areas(cases, values, &flags(bits, n));
        }
    }
    for bits in (17..32).step_by(2) {
        areas(cases, &[0, 0, 4, 0, 4, 4, 0, 4, 0, 0], &flags(bits, 5));
    }
    // Gaps on both sides of their chords, with repeats, and across the whole range.
    areas(cases, &[0, 0, 2, 3, 4, 0, 6, -3, 8, 0], &[1, 0, 1, 0, 1]);
    areas(cases, &[0, 0, 2, 3, 4, 0, 6, -5, 8, 0], &[1, 0, 1, 0, 1]);
    areas(cases, &[1, 1, 1, 1, 5, 2, 5, 2, 3, 9, 1, 1], &[1, 0, 0, 1, 0, 1]);
    areas(cases, &[1, 1, 5, 2, 1, 1, 3, 9, 1, 1], &[1, 0, 1, 0, 1]);
    let square = [-16383, -16383, 16383, -16383, 16383, 16383, -16383, 16383];
    areas(cases, &square.repeat(3), &[1, 0, 1, 0, 0, 0, 0, 1, 1, 0, 0, 1]);
    areas(cases, &square.repeat(3), &[1, 0, 0, 0, 0, 0, 0, 0, 0, 0, 0, 1]);
}

/// A flag too many, one too few, none, and flags that are neither 0 nor 1 in each place.
fn bad_flags(cases: &mut Cases) {
    let list = [0, 0, 4, 0, 4, 4];
    for flags in [&[][..], &[1], &[1, 1], &[1, 0, 1, 1], &[1, 0, 1, 0], &[1; 6]] {
        areas(cases, &list, flags);
    }
    for flag in [2, 3, 0x80, 0x81, 0xff] {
        for place in 0..3 {
            let mut flags = [1, 1, 1];
            flags[place] = flag;
            areas(cases, &list, &flags);
        }
    }
    for flags in [&[][..], &[0], &[2], &[1, 1]] {
        areas(cases, &[7, 5], flags);
    }
}

/// Distances that occur and a step beside, bad tolerances, and lists that are not split.
fn at_tolerances(cases: &mut Cases) {
    // Four points whose numbers are 16; a square; points on a line and repeats.
    let four = [0, 0, 8, 2, 0, 4, 9, 0];
    for sq_tolerance in [0.0, 15.0, 16.0_f64.next_down(), 16.0, 16.0_f64.next_up(), 64.0] {
        areas_at(cases, sq_tolerance, &four, 4);
    }
    for sq_tolerance in [0.0, 7.5, 8.0, 16.0, 31.5, 32.0, 1000.0] {
        areas_at(cases, sq_tolerance, &[0, 0, 4, 0, 4, 4, 0, 4, 0, 0], 5);
    }
    for sq_tolerance in [0.0, 4.0, 20.0, 400.0] {
        areas_at(cases, sq_tolerance, &[0, 0, 3, 0, 5, 0, 9, 7, 9, 7, 12, 1, 3, 0], 7);
        areas_at(cases, sq_tolerance, &[0, 9, 3, 5, 7, 8, 9, -4, 2, -6, -3, 1], 6);
    }
    for sq_tolerance in [4.5_f64.next_down(), 4.5] {
        areas_at(cases, sq_tolerance, &[0, 0, 1, 0, 2, 0, 3, 0, 3, 3], 5);
    }
    for sq_tolerance in EDGES.into_iter().chain([SQ_TOLERANCE, SQ_TOLERANCE.next_up()]) {
        areas_at(cases, sq_tolerance, &four, 4);
    }
    for values in [&[7, 5][..], &[3, 1, 4, 2], &[2, 2, 2, 2, 2, 2]] {
        areas_at(cases, 1.0, values, values.len() / 2);
    }
}

/// Each room of marks from none to more than enough.
fn rooms(cases: &mut Cases) {
    for values in [&[][..], &[7, 5], &[3, 1, 4, 2], &[0, 0, 8, 2, 0, 4, 9, 0]] {
        for room in (0..=6).filter(|room| room / 3 <= values.len()) {
            areas_at(cases, 16.0, values, room);
        }
    }
}

/// Half a point, and each coordinate at its limits and beyond.
fn limits(cases: &mut Cases) {
    for values in bad_lists() {
        let n = values.len() / 2;
        twice_area(cases, &values);
        areas(cases, &values, &vec![1; n]);
        areas_at(cases, 1.0, &values, n);
    }
}

/// Every two refusals at once that can be, but for those of long lists.
fn orders(cases: &mut Cases) {
    // A bad point, with bad flags, a bad tolerance, no room.
    areas(cases, &[1], &[1]);
    areas(cases, &[0, 0, 4, 16384], &[1, 0]);
    areas_at(cases, -1.0, &[0, 0, 4, 16384], 2);
    areas_at(cases, 1.0, &[0, 0, 4, 16384], 1);
    areas_at(cases, f64::NAN, &[1], 2);
    // No points, with flags, a bad tolerance.
    areas(cases, &[], &[]);
    areas(cases, &[], &[1]);
    areas(cases, &[], &[2, 0]);
    areas_at(cases, -1.0, &[], 0);
    areas_at(cases, f64::NAN, &[], 3);
    // A bad tolerance without room.
    areas_at(cases, -1.0, &[0, 0, 4, 4], 1);
    areas_at(cases, SQ_TOLERANCE.next_up(), &[7, 5], 0);
}

/// 4,096 points, half a point more, and one more, alone and with all other refusals.
fn long_lists(cases: &mut Cases) {
    // 1,024 times round, as large as can be; one way and the other.
    let forth = shapes::largest(4096);
    let back: Vec<i32> = forth.chunks_exact(2).rev().flatten().copied().collect();
    twice_area(cases, &forth);
    let ends: Vec<u8> = (0..4096).map(|i| u8::from(i % 4095 == 0)).collect();
    areas(cases, &back, &ends);
    let hill: Vec<i32> = (0..4096).flat_map(|i| [i, (i * (4095 - i)) >> 9]).collect();
    areas_at(cases, 2.25, &hill, 4097);
    let values = [1; 8194];
    for (values, flags, sq_tolerance, room) in
        [(&values[..8192], 4096, 1.0, 4096), (&values[..8193], 9, -1.0, 3), (&values, 4097, 1.0, 3)]
    {
        twice_area(cases, values);
        areas(cases, values, &vec![1; flags]);
        areas_at(cases, sq_tolerance, values, room);
    }
}

/// Sums at both ends of i64 and a step beyond, in each of the three places.
fn totals(cases: &mut Cases) {
    let (most, least) = (i128::from(i64::MAX), i128::from(i64::MIN));
    let mut sum = |place: usize, (first, second)| {
        let (mut a, mut b) = ([10, -20, 30], [4, 5, -6]);
        (a[place], b[place]) = (first, second);
        cases.case(|case| put(case.word("together"), &a, &b));
    };
    for place in 0..3 {
        for end in [(most, 0), (most, 1), (most - 1, 1), (least, 0), (least, -1), (least + 1, -1)] {
            sum(place, end);
        }
    }
    let others = [
        (0, 0),
        (-3, 5),
        (0, most),
        (1, most),
        (most, most),
        (0, least),
        (-1, least),
        (least, least),
        (least, most),
        (1 << 62, 1 << 62),
        ((1 << 62) - 1, 1 << 62),
        (-1 << 62, -1 << 62),
        (-1 << 62, (-1 << 62) - 1),
        (1 << 31, 1 << 31),
        (1 << 53, 1),
    ];
    for (i, other) in others.into_iter().enumerate() {
        sum(i % 3, other);
    }
    cases.line("together -0 007 -0001 00 0 0");
    // Two that would leave it, to both sides, and three.
    cases.case(|case| put(case.word("together"), &[most, least, 0], &[1, -1, 0]));
    cases.case(|case| put(case.word("together"), &[most; 3], &[most; 3]));
    cases.case(|case| put(case.word("together"), &[most, least, most], &[0; 3]));
}

/// Lines that are no cases.
const BAD_LINES: [&str; 33] = [
    "",
    "twice_area",
    "twice_area ",
    "twice_area 0,0 1",
    "twice_area 0,,0",
    "twice_area 0,2147483648",
    "twice_areas 0,0",
    "areas",
    "areas 0,0",
    "areas 0,0 1",
    "areas 0,0 0g",
    "areas 0,0 01 01",
    "areas 0,0  01",
    "areas 01 0,0",
    "areas_at",
    "areas_at 3ff0000000000000 0,0",
    "areas_at 3ff0000000000000 0,0 1 1",
    "areas_at 1 0,0 1",
    "areas_at 0,0 1",
    "areas_at 3ff0000000000000 0,0 65537",
    "areas_at 3ff0000000000000 0,0 -1",
    "together",
    "together 1 2 3 4 5",
    "together 1 2 3 4 5 6 7",
    "together 1 2 3 4 5 ",
    "together 1 2 3 4 5 +6",
    "together 1 2 3 4 5 6.0",
    "together 1 2 3 4 5 --6",
    "together 1 2 3 4 5 -",
    "together 9223372036854775808 0 0 -1 0 0",
    "together 0 0 0 0 0 -9223372036854775809",
    "together 0 0 0 0 18446744073709551616 0",
    "together 1,2,3 4,5,6",
];
