//! More lists of points, flat: those at which splits, and counts of them, differ.

use crate::random::Random;
use crate::reduce::shapes;

/// A list of about `n` points of some kind.
pub fn shape(random: &mut Random, n: usize) -> Vec<i32> {
    match random.below(8) {
        0 => equal(n, random.within(-9, 9) as i32),
        1 => teeth(random, n),
        2 => hill(n),
        3 => rising(n),
        4 => far(random, n),
        _ => shapes::shape(random, n),
    }
}

/// One point over and over: all distances are 0, and below that each split takes off the first point.
pub fn equal(n: usize, value: i32) -> Vec<i32> {
    vec![value; 2 * n]
}

/// Teeth that grow longer: each split takes off one point, the most distances that there can be.
pub fn rising(n: usize) -> Vec<i32> {
    (0..n as i32).flat_map(|i| [i, i % 2 * i]).collect()
}

/// Each span is split in its middle, so that as many wait as can.
pub fn hill(n: usize) -> Vec<i32> {
    (0..n as i32).flat_map(|i| [i, i * (n as i32 - 1 - i)]).collect()
}

/// Straight runs between corners, with points on them: distances of 0 in spans that are parts.
fn teeth(random: &mut Random, n: usize) -> Vec<i32> {
    let (mut x, mut y) = (0, 0);
    let (mut dx, mut dy) = (1, 0);
    let mut values = Vec::new();
    for _ in 0..n {
        values.extend([x, y]);
        if random.once_in(4) {
            (dx, dy) = (random.within(-2, 2) as i32, random.within(-2, 2) as i32);
        }
        (x, y) = (x + dx, y + dy);
    }
    values
}

/// Any coordinates that there are, those at the ends among them.
fn far(random: &mut Random, n: usize) -> Vec<i32> {
    let ends = [i32::MIN, i32::MIN + 1, -1, 0, 1, i32::MAX - 1, i32::MAX];
    let any = random.once_in(2);
    let coordinate = |_| if any { random.next() as i32 } else { random.pick(&ends) };
    (0..2 * n).map(coordinate).collect()
}
