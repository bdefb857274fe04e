//! Cases for the crate `util`.

use crate::point::make::{beside, coordinate, COORDINATE, F64_EDGES};
use crate::random::Random;
use crate::text::Line;

/// How far from parallel counts as parallel, and how far off its line a ratio may lie.
pub const EPSILON: f64 = 1e-7;
pub const MARGIN: f64 = 1e-3;

pub fn make(random: &mut Random, _: u64, case: &mut Line) {
    match random.below(16) {
        0 => whole(random, case.word("signed_area"), 6),
        1 => whole(random, case.word("norm_i32"), 2),
        2 => fractions(random, case.word("mid_point"), 4),
        3 => fractions(random, case.word("norm"), 2),
        4..=6 => {
            let (mua, mub) = (ratio(random), ratio(random));
            case.word("ratios").f64(mua).f64(mub);
        }
        _ => {
            let mut values = lines(random);
            if random.once_in(32) {
                let place = random.below(8) as usize;
                values[place] = beside(random, COORDINATE);
            }
            put(case.word("intersection"), &values);
        }
    }
}

fn whole(random: &mut Random, case: &mut Line, count: u64) {
    let bad = random.below(8 * count);
    (0..count).for_each(|i| _ = case.number(coordinate(random, i == bad)));
}

fn fractions(random: &mut Random, case: &mut Line, count: u64) {
    let bad = random.below(8 * count);
    let reach = random.pick(&[4.0, 1000.0, COORDINATE]);
    for i in 0..count {
        let value = if i == bad { beside(random, COORDINATE) } else { value(random, reach) };
        case.f64(value);
    }
}

pub fn put(case: &mut Line, values: &[f64]) {
    values.iter().for_each(|&value| _ = case.f64(value));
}

/// A whole number, one with few digits, or any.
pub fn value(random: &mut Random, reach: f64) -> f64 {
    let any = (random.fraction() * 2.0 - 1.0) * reach;
    match random.below(4) {
        0 | 1 => any.trunc(),
        2 => (any * 8.0).trunc() / 8.0,
        _ => any,
    }
}

/// Two lines: anywhere, with a common point, nearly parallel, in one, or of one point.
fn lines(random: &mut Random) -> [f64; 8] {
    let reach = random.pick(&[1.0, 4.0, 30.0, 1000.0, COORDINATE]);
    let mut values = [0.0; 8].map(|_: f64| value(random, reach));
    let [x1, y1, x2, y2, ..] = values;
    let (dx, dy) = (x2 - x1, y2 - y1);
    match random.below(9) {
        0 => values[4..6].copy_from_slice(&[x1, y1]),
        1 => values[4..6].copy_from_slice(&[x2, y2]),
        // The second line is the first moved and stretched.
        2 | 3 => {
            let (x, y) = (x1 + value(random, 2.0), y1 + value(random, 2.0));
            let stretch = random.pick(&[1.0, -1.0, 0.5, 0.25]);
            values[4..].copy_from_slice(&[x, y, x + dx * stretch, y + dy * stretch]);
        }
        // One of them a point, on the other's end or anywhere.
        7 => {
            let (point, other) = random.pick(&[(0, 4), (4, 0)]);
            if random.once_in(4) {
                values.copy_within(other..other + 2, point);
            }
            values.copy_within(point..point + 2, point + 2);
        }
        // On the first line, as near as doubles come.
        4 => {
            let (s, t) = (random.fraction(), random.fraction());
            values[4..].copy_from_slice(&[x1 + dx * s, y1 + dy * s, x1 + dx * t, y1 + dy * t]);
        }
        // A unit across, so that what is tested is as small as the tilt: on both sides of 1e-7.
        5 | 6 => {
            let edges = [0.0, 0.5, 0.999_999, 1.0, 1.000_001, 2.0, -1.0, -1.000_001];
            let (tilt, lift) = (EPSILON * random.pick(&edges), EPSILON * random.pick(&edges));
            let one = f64::from_bits(1.0_f64.to_bits() + random.below(3));
            values = [0.0, 0.0, one, 0.0, 0.0, lift, 1.0, lift + tilt];
        }
        _ => {}
    }
    values.map(|v| v.clamp(-COORDINATE, COORDINATE))
}

/// A ratio: anywhere, at either end's margin or a step beside it, or any double.
fn ratio(random: &mut Random) -> f64 {
    let edge = match random.below(6) {
        0 => return random.pick(&F64_EDGES),
        1 => return f64::from_bits(random.next()),
        2 => return random.fraction() * 3.0 - 1.0,
        3 => 0.0 - MARGIN,
        4 => 1.0 + MARGIN,
        _ => random.pick(&[0.5, 5.0, 1.0]),
    };
    f64::from_bits(edge.to_bits().wrapping_add_signed(random.within(-2, 2)))
}
