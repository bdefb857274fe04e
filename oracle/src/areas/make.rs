//! Cases for the crate `areas`.

use super::{islands, shapes, Sizes};
use crate::random::Random;
use crate::reduce::make::{any_tolerance, damage, room};
use crate::text::Line;

pub fn make(random: &mut Random, _: u64, case: &mut Line) {
    match random.below(4) {
        0 => {
            let values = if random.once_in(3) { islands::any(random) } else { list(random) };
            case.word("twice_area").i32s(&values);
        }
        1 => {
            let values = list(random);
            let flags = flags(random, values.len() / 2);
            case.word("areas").i32s(&values).bytes(&flags);
        }
        2 => {
            let values = list(random);
            let sq_tolerance = any_tolerance(random, "areas_at", &values);
            let enough = values.len() / 2;
            let room = if random.once_in(4) { room(random, enough) } else { enough };
            case.word("areas_at").f64(sq_tolerance).i32s(&values).number(room);
        }
        _ => {
            let (first, second) = two_sizes(random);
            put(case.word("together"), &first, &second);
        }
    }
}

pub fn put(case: &mut Line, first: &Sizes, second: &Sizes) {
    first.iter().chain(second).for_each(|size| _ = case.number(size));
}

/// A list of points, now and then a bad one.
fn list(random: &mut Random) -> Vec<i32> {
    let n = length(random);
    let mut values = shapes::shape(random, n);
    if random.once_in(16) {
        damage(random, &mut values);
    }
    values
}

fn length(random: &mut Random) -> usize {
    let length = match random.below(256) {
        0..=31 => random.within(0, 3),
        32..=191 => random.within(3, 20),
        192..=252 => random.within(20, 60),
        253 | 254 => random.within(60, 600),
        _ if random.once_in(3) => random.within(4095, 4097),
        _ => random.within(600, 4096),
    };
    length as usize
}

/// Flags with both ends, now and then bad ones.
pub fn flags(random: &mut Random, n: usize) -> Vec<u8> {
    // Of so many flags one is 1: all, some, or none but the ends.
    let kept = random.pick(&[1, 1, 2, 2, 3, 10, u64::MAX]);
    let mut flags: Vec<u8> = (0..n).map(|_| u8::from(random.once_in(kept))).collect();
    for end in [0, n.wrapping_sub(1)] {
        flags.get_mut(end).into_iter().for_each(|flag| *flag = 1);
    }
    match random.below(32) {
        0 => flags.push(1),
        1 => _ = flags.pop(),
        2 if n > 2 => _ = flags.remove(1),
        3 if n > 0 => {
            let place = random.below(n as u64) as usize;
            flags[place] = random.pick(&[2, 3, 0x80, 0x81, 0xff]);
        }
        4 if n > 0 => flags[0] = 0,
        5 if n > 0 => flags[n - 1] = 0,
        6 => flags.fill(0),
        _ => {}
    }
    flags
}

/// Sizes of any kind, often such that a sum lies at an end of i64 or right beside it.
fn two_sizes(random: &mut Random) -> (Sizes, Sizes) {
    let (mut first, mut second) = ([0; 3], [0; 3]);
    for i in 0..3 {
        (first[i], second[i]) = match random.below(6) {
            0 => {
                let mut edge = || i128::from(random.pick(&[i64::MIN, -1, 0, 1, i64::MAX]));
                (edge(), edge())
            }
            1..=3 => at_an_end(random),
            _ => (size(random), size(random)),
        };
    }
    (first, second)
}

fn size(random: &mut Random) -> i128 {
    let size = i128::from(random.scaled(62));
    if random.once_in(2) {
        -size
    } else {
        size
    }
}

/// Two numbers whose sum is the greatest, or the least, or nearly so; now and then one step beyond.
fn at_an_end(random: &mut Random) -> (i128, i128) {
    let first = i128::from(random.scaled(63));
    let beside = i128::from(random.pick(&[-2, -1, -1, 0, 0, 0, 0, 1]));
    let (most, least) = (i128::from(i64::MAX), i128::from(i64::MIN));
    let (first, second) = match random.once_in(2) {
        true => (first, most - first + beside),
        false => (-first, least + first - beside),
    };
    let second = second.clamp(least, most);
    if random.once_in(2) {
        (first, second)
    } else {
        (second, first)
    }
}
