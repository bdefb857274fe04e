//! Lists of points to make cases of. All by whole numbers and exact operations, so that a seed gives
//! the same list on every machine.

use crate::chart::{draw, first_start};
use crate::random::Random;
use crate::walker;
use visioncortex::PointI32;

const LIMIT: i64 = 16383;

/// A list of about `n` points of some kind, flat.
pub fn shape(random: &mut Random, n: usize) -> Vec<i32> {
    match random.below(9) {
        0 | 1 => scatter(random, n),
        2 => stroll(random, n),
        3 => line(random, n),
        4 => extremes(random, n),
        5 => arc(random, n),
        6 => comb(random, n),
        7 => zigzag(random, n),
        _ => outline(random, n),
    }
}

/// Points anywhere in a square, often a small one, so that many are equal.
fn scatter(random: &mut Random, n: usize) -> Vec<i32> {
    let reach = random.pick(&[1, 2, 3, 5, 20, 300, LIMIT]);
    (0..2 * n).map(|_| random.within(-reach, reach) as i32).collect()
}

/// Short steps from point to point.
pub fn stroll(random: &mut Random, n: usize) -> Vec<i32> {
    let reach = random.within(1, 6);
    let (mut x, mut y) = (random.within(-100, 100), random.within(-100, 100));
    let mut values = Vec::new();
    for _ in 0..n {
        values.extend([x as i32, y as i32]);
        x = (x + random.within(-reach, reach)).clamp(-LIMIT, LIMIT);
        y = (y + random.within(-reach, reach)).clamp(-LIMIT, LIMIT);
    }
    values
}

/// All on one line, forth and back, some of them equal.
fn line(random: &mut Random, n: usize) -> Vec<i32> {
    let (dx, dy) = (random.within(-3, 3), random.within(-3, 3));
    let reach = random.within(1, 40);
    (0..n)
        .map(|_| random.within(-reach, reach))
        .flat_map(|t| [(t * dx) as i32, (t * dy + 1) as i32])
        .collect()
}

/// Coordinates at the limits.
fn extremes(random: &mut Random, n: usize) -> Vec<i32> {
    (0..2 * n).map(|_| random.pick(&[-16383, 16383, -16382, 16382, 0, 1])).collect()
}

/// On a circle, as near as whole numbers come, often closed.
pub fn arc(random: &mut Random, n: usize) -> Vec<i32> {
    let radius = random.pick(&[5.0, 50.0, 700.0, 16383.0]);
    let mut values = Vec::new();
    for i in 0..n {
        // t goes from -4 to 4: the angle's half has the tangent t.
        let t = 8.0 * i as f64 / n as f64 - 4.0;
        let scale = radius / (1.0 + t * t);
        values.extend([(scale * (1.0 - t * t)) as i32, (scale * 2.0 * t) as i32]);
    }
    if n > 2 && random.once_in(2) {
        values.copy_within(..2, 2 * n - 2);
    }
    values
}

/// Teeth that grow shorter: each split takes off one point.
pub fn comb(random: &mut Random, n: usize) -> Vec<i32> {
    let length = random.within(1, 3);
    let tooth = |i: usize| if i % 2 == 1 { ((n - i) as i64 * length).min(LIMIT) } else { 0 };
    (0..n).flat_map(|i| [i as i32, tooth(i) as i32]).collect()
}

/// Document 01's (0,0) (8,2) (0,4) (8,0), over and over, larger or smaller.
fn zigzag(random: &mut Random, n: usize) -> Vec<i32> {
    let scale = random.within(1, 300) as i32;
    let turns = [[0, 0], [8, 2], [0, 4], [8, 0]];
    let height = |i: usize| (i as i32 / 4 * random.pick(&[0, 1]) * 8) % 40;
    let heights: Vec<i32> = (0..n).map(height).collect();
    (0..n).flat_map(|i| [turns[i % 4][0] * scale, (turns[i % 4][1] + heights[i]) * scale]).collect()
}

/// The outline of a chart, closed, at most `n` points of it.
pub(crate) fn outline(random: &mut Random, n: usize) -> Vec<i32> {
    let side = (n as u64).clamp(2, 60);
    let (width, height) = (random.within(1, side as i64), random.within(1, side as i64));
    let chart = draw::blobs(random, width as usize, height as usize);
    let start = first_start(&chart.image()).map(|(x, y)| PointI32::new(x as i32, y as i32));
    let walked = start.map(|start| walker::outline(&chart, start, random.once_in(2)));
    let points = walked.and_then(Result::ok).unwrap_or_default();
    points.iter().take(n).flat_map(|point| [point.x, point.y]).collect()
}
