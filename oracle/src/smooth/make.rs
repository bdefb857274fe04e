//! Cases for the crate `smooth`.

use super::{seen, Round};
use crate::point::make::{beside, COORDINATE};
use crate::random::Random;
use crate::reduce::make::{damage, room};
use crate::reduce::shapes;
use crate::simplify;
use crate::text::Line;
use crate::util::make::value;
use visioncortex::PointF64;

pub fn make(random: &mut Random, _: u64, case: &mut Line) {
    if random.once_in(3) {
        corners(random, case);
    } else {
        subdivide(random, case);
    }
}

fn corners(random: &mut Random, case: &mut Line) {
    let n = length(random);
    let mut values = match random.below(3) {
        0 => simplify::shapes::shape(random, n),
        _ => shapes::shape(random, n),
    };
    if values.len() > 4 && random.once_in(3) {
        let last = values.len() - 2;
        values.copy_within(..2, last);
    }
    if random.once_in(2) {
        values = again(random, &values);
    }
    if random.once_in(16) {
        damage(random, &mut values);
    }
    let closed = random.once_in(2);
    let (c, s) = pair(random);
    let enough = seen(values.len() / 2, closed);
    let room = if random.once_in(4) { room(random, enough) } else { enough };
    case.word("corners").number(c).number(s).bool(closed).i32s(&values).number(room);
}

/// The list with points entered again, or with others in their place, so that many are equal or share a coordinate.
fn again(random: &mut Random, values: &[i32]) -> Vec<i32> {
    let mut points: Vec<[i32; 2]> = values.chunks_exact(2).map(|pair| [pair[0], pair[1]]).collect();
    let Some(&first) = points.first() else { return Vec::new() };
    let n = points.len();
    let kind = random.below(8);
    match kind {
        // The first is the last again: both sides of where a closed list wraps.
        0 => (0..random.within(1, 4)).for_each(|_| points.push(first)),
        1 => points.fill(first),
        // Two runs, mostly.
        2 => {
            let (at, other) = (random.below(n as u64) as usize, random.pick(&points));
            points[..at].fill(first);
            points[at..].fill(other);
        }
        3 => points[random.below(n as u64) as usize..].fill(first),
        // Each has a coordinate of the one before.
        4 => {
            for i in 1..n {
                let kept = random.below(2) as usize;
                points[i][kept] = points[i - 1][kept];
            }
        }
        _ => {}
    }
    let last = points.len() - 1;
    let mut values = Vec::new();
    for (i, point) in points.into_iter().enumerate() {
        let repeated = match kind {
            0 => i == 0,
            5 => i == 0 || i == last,
            6 => true,
            7 => random.once_in(3),
            _ => false,
        };
        let times = if repeated { random.within(1, 4) } else { 1 };
        values.extend([point].repeat(times as usize).as_flattened());
    }
    values.truncate(2 * n.max(4096));
    values
}

fn pair(random: &mut Random) -> (i32, i32) {
    let bad = [(1001, 1), (-1001, 1), (0, 0), (0, -1), (0, 1001), (i32::MAX, i32::MIN)];
    match random.below(8) {
        0 => (0, 1),
        1 => random.pick(&[(1000, 1000), (-1000, 1), (1000, 1), (1, 1), (-1, 1), (4, 3), (-3, 4)]),
        2 if random.once_in(4) => random.pick(&bad),
        _ => (random.within(-1000, 1000) as i32, random.within(1, 1000) as i32),
    }
}

fn length(random: &mut Random) -> usize {
    let length = match random.below(64) {
        0..=15 => random.within(0, 5),
        16..=55 => random.within(3, 16),
        56..=61 => random.within(16, 80),
        62 => random.within(80, 300),
        _ if random.once_in(32) => random.within(4095, 4097),
        _ => random.within(3, 16),
    };
    length as usize
}

fn subdivide(random: &mut Random, case: &mut Line) {
    let n = length(random);
    let round = round(random, n);
    let places = (2 * (round.values.len() / 2)).saturating_sub(1);
    let (mut out, mut flags) = (2 * places, places);
    if random.once_in(8) {
        out = room(random, out);
        flags = room(random, flags);
    }
    write(&round, out, flags, case);
}

pub fn write(round: &Round, out: usize, flags: usize, case: &mut Line) {
    case.word("subdivide").f64(round.ratio).f64(round.length).bool(round.closed);
    case.f64s(&round.values).bytes(&round.corners).number(out).number(flags);
}

fn round(random: &mut Random, n: usize) -> Round {
    let mut values = path(random, n);
    let closed = random.once_in(2);
    if closed && values.len() > 4 && !random.once_in(4) {
        let last = values.len() - 2;
        values.copy_within(..2, last);
    }
    if random.once_in(24) {
        spoil(random, &mut values);
    }
    let kinds = random.pick(&[1, 2, 5, 100]);
    let flags = seen(values.len() / 2, closed);
    let mut corners: Vec<u8> = (0..flags).map(|_| u8::from(random.once_in(kinds))).collect();
    match random.below(48) {
        0 => corners.push(1),
        1 => _ = corners.pop(),
        2 if !corners.is_empty() => {
            let place = random.below(corners.len() as u64) as usize;
            corners[place] = random.pick(&[2, 3, 0x80, 0xff]);
        }
        _ => {}
    }
    let mut round =
        Round { ratio: ratio(random), length: segment_length(random), closed, values, corners };
    if round.values.len() == 8 && random.once_in(4) {
        flatten(random, &mut round);
    }
    if random.once_in(6) {
        occurring(random, &mut round);
    }
    round
}

/// Four points whose middles lie apart by about EPSILON times the ratio.
fn flatten(random: &mut Random, round: &mut Round) {
    let times = random.pick(&[0.25, 0.5, 1.0, 2.0]);
    let apart = f64::EPSILON * round.ratio * times;
    let step = random.within(-1, 1);
    let apart = f64::from_bits(apart.to_bits().wrapping_add_signed(step));
    let (x, y) = random.pick(&[(apart, 0.0), (0.0, apart), (0.0, -apart)]);
    let last = if round.closed { [-1.0, 0.0] } else { [5.0 + x, y] };
    round.values = vec![-1.0 + x, y, 0.0, 0.0, 4.0, 0.0, last[0], last[1]];
}

/// A segment length that is the length of a segment: of the list, or of one that a round makes; or a step below.
fn occurring(random: &mut Random, round: &mut Round) {
    let fair = round.values.len() % 2 == 0 && (1.0..=1000.0).contains(&round.ratio);
    let n = round.values.len() / 2;
    if !fair || n < 2 || n > 100 || round.corners.len() != seen(n, round.closed) {
        return;
    }
    round.length = 0.0;
    let points = subdivide_once(random, round);
    let at = random.below(points.len() as u64 - 1) as usize;
    let length = (points[at] - points[at + 1]).norm();
    round.length = if random.once_in(2) { length } else { length.next_down() };
}

/// The points of a round, or of the list.
fn subdivide_once(random: &mut Random, round: &Round) -> Vec<PointF64> {
    if random.once_in(2) {
        return super::subdivide(round).0;
    }
    round.values.chunks_exact(2).map(|pair| PointF64::new(pair[0], pair[1])).collect()
}

/// Half a point more, or a coordinate at or beyond a limit.
fn spoil(random: &mut Random, values: &mut Vec<f64>) {
    if values.is_empty() || random.once_in(2) {
        values.push(0.5);
    } else {
        let place = random.below(values.len() as u64) as usize;
        values[place] = beside(random, COORDINATE);
    }
}

/// Points with fractions: whole ones of any shape, or on small grids, so that lengths are often equal
/// and ratios often 2; or anywhere.
fn path(random: &mut Random, n: usize) -> Vec<f64> {
    match random.below(4) {
        0 => {
            let scale = random.pick(&[1.0, 0.5, 0.125]);
            shapes::shape(random, n).into_iter().map(|v| f64::from(v) * scale).collect()
        }
        1 => simplify::shapes::stairs(random, n).into_iter().map(f64::from).collect(),
        2 => {
            let step = random.pick(&[1.0, 2.0, 0.5]);
            (0..2 * n).map(|_| random.within(-2, 2) as f64 * step).collect()
        }
        _ => {
            let reach = random.pick(&[3.0, 50.0, COORDINATE]);
            (0..2 * n).map(|_| value(random, reach)).collect()
        }
    }
}

fn ratio(random: &mut Random) -> f64 {
    match random.below(16) {
        0 => beside(random, 1000.0),
        1 => random.pick(&[1.0, 1000.0, 0.999_999, f64::NAN, 0.0, f64::INFINITY]),
        2..=8 => random.pick(&[8.0, 2.0, 4.0, 10.0]),
        _ => 1.0 + random.fraction() * 40.0,
    }
}

fn segment_length(random: &mut Random) -> f64 {
    match random.below(16) {
        0 => beside(random, 65536.0),
        1 => random.pick(&[0.0, -0.0, 65536.0, f64::NAN, -1.0]),
        2..=10 => random.pick(&[0.0, 0.5, 1.0, 2.0, 4.0, 5.0]),
        _ => random.fraction() * 20.0,
    }
}
