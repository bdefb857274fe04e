//! Lists of points at which something happens to `simplify`. All by whole numbers, so that a seed
//! gives the same list on every machine.

use crate::random::Random;
use crate::reduce::shapes;

const LIMIT: i64 = 16383;

/// A list of about `n` points of some kind, flat.
pub fn shape(random: &mut Random, n: usize) -> Vec<i32> {
    match random.below(8) {
        0 | 1 => shapes::outline(random, n),
        2 | 3 => stairs(random, n),
        4 | 5 => triangles(random, n),
        6 => there_and_back(random, n),
        _ => shapes::shape(random, n),
    }
}

/// Steps along the axes, by turns left or right and up or down, most of them one pixel long.
pub fn stairs(random: &mut Random, n: usize) -> Vec<i32> {
    let (mut x, mut y) = anywhere(random);
    let (mut right, mut down) = (random.pick(&[1, -1]), random.pick(&[1, -1]));
    let longest = random.within(1, 4);
    let mut values = Vec::new();
    for i in 0..n {
        values.extend([x as i32, y as i32]);
        let step = if random.once_in(2) { 1 } else { random.within(1, longest) };
        match i % 2 {
            0 => x = bounded(x, &mut right, step),
            _ => y = bounded(y, &mut down, step),
        }
        if random.once_in(8) {
            right = -right;
        }
        if random.once_in(8) {
            down = -down;
        }
    }
    values
}

/// A list of triangles one behind the other: the middle point of each costs 1 to leave out, or nearly
/// so.
pub fn triangles(random: &mut Random, n: usize) -> Vec<i32> {
    let (mut x, mut y) = anywhere(random);
    let mut values = vec![x as i32, y as i32];
    while values.len() < 2 * n {
        let (dx, dy, cross) =
            if random.once_in(3) { exactly_one(random) } else { about_one(random) };
        let Some((bx, by)) = apex(random, dx, dy, cross) else { continue };
        // Away from the limits: the whole triangle is turned over where it would not fit.
        let (sx, sy) = (if x > 0 { -1 } else { 1 }, if y > 0 { -1 } else { 1 });
        let turned = |px: i64, py: i64| (x + sx * px * dx.signum(), y + sy * py * dy.signum());
        let (b, c) = (turned(bx, by), turned(dx, dy));
        if [b.0, b.1, c.0, c.1].iter().any(|v| v.abs() > LIMIT) {
            (x, y) = anywhere(random);
            continue;
        }
        values.extend([b.0 as i32, b.1 as i32, c.0 as i32, c.1 as i32]);
        (x, y) = c;
    }
    values.truncate(2 * n);
    values
}

/// A side whose length is the square of k, and twice k: a triangle over this side whose corners span
/// so much has area k, and the square of that is the side's length. The second power of a complex
/// number has a whole length, and the fourth a square one.
fn exactly_one(random: &mut Random) -> (i64, i64, i64) {
    let (u, v) = (random.within(1, 9), random.within(0, 9));
    let (a, b) = (u * u - v * v, 2 * u * v);
    (a * a - b * b, 2 * a * b, 2 * (u * u + v * v))
}

/// A side of any length, and twice the whole number beside that length's root.
fn about_one(random: &mut Random) -> (i64, i64, i64) {
    let reach = random.pick(&[3, 12, 60, 600, 8000]);
    let (dx, dy) = (random.within(-reach, reach), random.within(-reach, reach));
    let twice = (0..).find(|w: &i64| w.pow(4) >= 16 * (dx * dx + dy * dy)).unwrap_or(0);
    (dx, dy, twice - random.within(0, 1))
}

/// A point over the side from (0,0) to (dx,dy) that spans so much with it, if there is one.
fn apex(random: &mut Random, dx: i64, dy: i64, cross: i64) -> Option<(i64, i64)> {
    let cross = cross * random.pick(&[1, -1]);
    if dx == 0 || dx.abs() > 2 * LIMIT || dy.abs() > 2 * LIMIT {
        return None;
    }
    let x = (0..dx.abs()).find(|x| (cross + dy * x * dx.signum()) % dx == 0)? * dx.signum();
    Some((x, (cross + dy * x) / dx))
}

/// From one point to others and back, so that a third side has length 0; often the same point again.
pub fn there_and_back(random: &mut Random, n: usize) -> Vec<i32> {
    let reach = random.pick(&[1, 2, 5, 100, LIMIT]);
    let point = |random: &mut Random| {
        [random.within(-reach, reach) as i32, random.within(-reach, reach) as i32]
    };
    let home = point(random);
    let mut values = Vec::new();
    let mut away = home;
    for _ in 0..n {
        away = match random.below(4) {
            0 => away,
            1 => point(random),
            _ => home,
        };
        values.extend(away);
    }
    values
}

/// Some place, at a limit or not.
fn anywhere(random: &mut Random) -> (i64, i64) {
    let mut coordinate = || match random.below(4) {
        0 => random.pick(&[-LIMIT, LIMIT]),
        1 => random.within(-LIMIT, LIMIT),
        _ => random.within(-50, 50),
    };
    (coordinate(), coordinate())
}

/// A coordinate one step on, and the other way where that would leave the limits.
fn bounded(at: i64, way: &mut i64, step: i64) -> i64 {
    if (at + *way * step).abs() > LIMIT {
        *way = -*way;
    }
    at + *way * step
}
