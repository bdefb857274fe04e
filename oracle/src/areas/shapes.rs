//! More lists of points, flat: those that areas are asked of.

use crate::random::Random;
use crate::reduce::shapes;

const LIMIT: i32 = 16383;

/// A list of about `n` points of some kind, often closed, with repeats, or far from the middle.
pub fn shape(random: &mut Random, n: usize) -> Vec<i32> {
    let mut values = match random.below(8) {
        0 => spiral(random, n),
        1 => turns(random, n),
        2 => star(random, n),
        _ => shapes::shape(random, n),
    };
    if values.len() > 4 && random.once_in(3) {
        let last = values.len() - 2;
        values.copy_within(..2, last);
    }
    if random.once_in(4) {
        repeat(random, &mut values);
    }
    if random.once_in(4) {
        shift(random, &mut values);
    }
    values
}

/// Round and round, each turn farther out.
fn spiral(random: &mut Random, n: usize) -> Vec<i32> {
    let step = random.pick(&[1, 2, 3]);
    let reach = |i: i32| i / 4 * step + 1;
    let corner = |i: i32| match i % 4 {
        0 => [-reach(i), -reach(i)],
        1 => [reach(i), -reach(i)],
        2 => [reach(i), reach(i)],
        _ => [-reach(i) - step, reach(i)],
    };
    either_way(random, (0..n as i32).map(corner).collect())
}

/// The same rectangle over and over, often the largest, so that it counts each time.
fn turns(random: &mut Random, n: usize) -> Vec<i32> {
    let (x, y) = match random.below(3) {
        0 => (random.within(0, 9) as i32, random.within(0, 9) as i32),
        _ => (LIMIT, LIMIT),
    };
    either_way(random, round(n, x, y))
}

/// The same over and over, clockwise, as large as can be.
pub fn largest(n: usize) -> Vec<i32> {
    round(n, LIMIT, LIMIT).concat()
}

fn round(n: usize, x: i32, y: i32) -> Vec<[i32; 2]> {
    [[-x, -y], [x, -y], [x, y], [-x, y]].into_iter().cycle().take(n).collect()
}

/// Points about a circle, but not the nearest comes next: lines that cross each other.
fn star(random: &mut Random, n: usize) -> Vec<i32> {
    let circle = shapes::arc(random, n);
    let by = random.within(2, 7) as usize;
    (0..n).flat_map(|i| [2 * (i * by % n), 2 * (i * by % n) + 1]).map(|at| circle[at]).collect()
}

fn either_way(random: &mut Random, mut points: Vec<[i32; 2]>) -> Vec<i32> {
    if random.once_in(2) {
        points.reverse();
    }
    points.concat()
}

/// Some points over again, and as many of the last ones left out.
fn repeat(random: &mut Random, values: &mut Vec<i32>) {
    let n = values.len();
    let again = |pair: &[i32]| pair.repeat(random.pick(&[1, 1, 1, 2, 3]));
    *values = values.chunks(2).flat_map(again).collect();
    values.truncate(n);
}

/// All of it as far off as it may be, in some corner.
fn shift(random: &mut Random, values: &mut [i32]) {
    for axis in 0..2 {
        let line = || values.iter().skip(axis).step_by(2);
        let (Some(least), Some(most)) = (line().min(), line().max()) else { return };
        let by = random.pick(&[-LIMIT - least, LIMIT - most]);
        values.iter_mut().skip(axis).step_by(2).for_each(|value| *value += by);
    }
}
