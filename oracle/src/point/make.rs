//! Cases for the crate `point`.

use crate::random::Random;
use crate::text::Line;

/// Whole numbers on both sides of each limit.
pub const I32_EDGES: [i32; 13] =
    [0, 1, -1, 16382, 16383, 16384, -16382, -16383, -16384, 32767, -32768, i32::MAX, i32::MIN];

pub const COORDINATE: f64 = 16383.0;
pub const TOLERANCE: f64 = 65536.0;
pub const SQ_TOLERANCE: f64 = 4294967296.0;

/// The least double above zero.
const LEAST: f64 = f64::from_bits(1);

/// Numbers that no limit names: zeros, the least and greatest of each kind, infinities, NaNs.
pub const F64_EDGES: [f64; 12] = [
    0.0,
    -0.0,
    LEAST,
    -LEAST,
    f64::MIN_POSITIVE,
    -f64::MIN_POSITIVE,
    f64::MAX,
    f64::MIN,
    f64::INFINITY,
    f64::NEG_INFINITY,
    f64::NAN,
    f64::from_bits(0xfff0_0000_0000_0001),
];

/// Counts of values that lists are tried with, most of them at the limit.
const LONG: [u64; 6] = [8190, 8191, 8192, 8193, 8194, 8200];

pub fn make(random: &mut Random, _: u64, case: &mut Line) {
    match random.below(4) {
        0 => {
            let values: Vec<i32> = list(random, coordinate);
            case.word("points").i32s(&values);
        }
        1 => {
            let values: Vec<f64> = list(random, coordinate_f64);
            case.word("points_f64").f64s(&values);
        }
        2 => {
            case.word("tolerance").f64(beside(random, TOLERANCE));
        }
        _ => {
            case.word("sq_tolerance").f64(beside(random, SQ_TOLERANCE));
        }
    }
}

/// A list with a bad value in some place, or with none.
fn list<T>(random: &mut Random, value: impl Fn(&mut Random, bool) -> T) -> Vec<T> {
    let length = if random.once_in(2000) { random.pick(&LONG) } else { random.below(9) };
    let bad = random.below(2 * length + 2);
    (0..length).map(|i| value(random, i == bad)).collect()
}

pub fn coordinate(random: &mut Random, any: bool) -> i32 {
    match random.below(3) {
        _ if any && random.once_in(2) => random.next() as i32,
        _ if any => random.pick(&I32_EDGES),
        0 => random.pick(&[-16383, 16383, 0]),
        _ => random.within(-16383, 16383) as i32,
    }
}

fn coordinate_f64(random: &mut Random, any: bool) -> f64 {
    match random.below(3) {
        _ if any => beside(random, COORDINATE),
        0 => random.pick(&[-COORDINATE, COORDINATE, 0.0, -0.0, LEAST]),
        _ => (random.fraction() * 2.0 - 1.0) * COORDINATE,
    }
}

/// A number of any kind, often at a limit or a step or two beside it.
pub fn beside(random: &mut Random, limit: f64) -> f64 {
    let value = match random.below(5) {
        0 => random.pick(&F64_EDGES),
        1 => f64::from_bits(random.next()),
        2 => return random.fraction() * limit * 1.25,
        _ => random.pick(&[limit, -limit, 0.0, -0.0]),
    };
    f64::from_bits(value.to_bits().wrapping_add_signed(random.within(-2, 2)))
}
